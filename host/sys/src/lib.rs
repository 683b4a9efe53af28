//! The functions that the static library `cda_storage` exports, on lent bytes, each returning 0 or a refusal's
//! number. They are listed in `entries.txt`; the declarations, this crate's functions and `include/cda_storage.h` are made
//! of that list. All unsafe code is here: a slice is handed on as its pointer and length.

#![warn(missing_docs)]

mod refusal;
mod rooms;

pub use refusal::Refusal;
pub use rooms::{HIT_ROOM, IMAGE_ROOM, INVENTORY_ROOM, KEYS_ROOM, LOG_LIMIT, STEP_ROOM};

/// The header for C and C++, `include/cda_storage.h`.
pub const HEADER: &str = include_str!(concat!(env!("OUT_DIR"), "/cda_storage.h"));

/// Lent room for an answer, and where the count of written bytes goes.
pub struct Output<'a> {
    /// The lent bytes. Those behind the written ones are kept.
    pub bytes: &'a mut [u8],
    /// Where the count of written bytes goes. A refusal leaves it.
    pub written: &'a mut usize,
}

#[cfg(linked)]
include!(concat!(env!("OUT_DIR"), "/entries.rs"));
