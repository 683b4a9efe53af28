//! Stand-in for uuid: ids that differ within a process.
use std::{
    fmt,
    sync::atomic::{AtomicU64, Ordering},
};

/// The other stand-in is told the name of the next staging file; this one finds it by itself.
pub fn name_next(_: &str) {}

/// The path of a staging file, which is the one that was asked for.
pub fn wanted(path: &str) -> String {
    path.to_string()
}

pub struct Uuid(u64);

impl Uuid {
    pub fn new_v4() -> Self {
        static NEXT: AtomicU64 = AtomicU64::new(1);
        Uuid(NEXT.fetch_add(1, Ordering::Relaxed))
    }
}

impl fmt::Display for Uuid {
    fn fmt(&self, f: &mut fmt::Formatter) -> fmt::Result {
        write!(f, "{:016x}", self.0)
    }
}
