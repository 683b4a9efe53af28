//! crc32fast for checksum.c.

/// # Safety
/// `len` bytes stand at `s`.
#[no_mangle]
pub unsafe extern "C" fn crc32fast_hash(s: *const u8, len: usize) -> u32 {
    crc32fast::hash(std::slice::from_raw_parts(s, len))
}
