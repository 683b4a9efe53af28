//! Least lengths of the lent outputs (document 01, refusal 2), the longest inventory, and the longest log.

/// Least length of the lent output for an image.
pub const IMAGE_ROOM: usize = 19_390;
/// Least length of the lent output for a key list.
pub const KEYS_ROOM: usize = 8_576;
/// Least length of the lent output for a step field.
pub const STEP_ROOM: usize = 197;
/// Least length of the lent output for what names a backup (document 02, item 2).
pub const HIT_ROOM: usize = 138;
/// A length of the lent output that every inventory fits; a shorter one is enough for a shorter text (document 02, item 9).
pub const INVENTORY_ROOM: usize = 20_178;
/// Most bytes of a log; an image with a longer one is refused.
pub const LOG_LIMIT: usize = 6_952;
