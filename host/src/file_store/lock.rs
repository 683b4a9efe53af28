//! The lock of a store: one store open to be written, or any number of readers.
use super::{error::StoreError, layout::Layout};
use crate::calls::Lock;
use std::{
    fs::File,
    io::ErrorKind,
    thread,
    time::{Duration, Instant},
};

/// How long a lock is waited for: a reader has it for a moment, and so has most of what updates.
const PATIENCE: Duration = Duration::from_secs(1);
const PAUSE: Duration = Duration::from_millis(5);

/// Locks the root directory until the file is closed.
pub fn lock(layout: &Layout, lock: Lock) -> Result<Option<File>, StoreError> {
    let (root, started) = (layout.root(), Instant::now());
    loop {
        match layout.calls.lock(root, lock) {
            Err(error) if error.kind() == ErrorKind::WouldBlock && started.elapsed() < PATIENCE => thread::sleep(PAUSE),
            locked => {
                return locked.map_err(|error| match (error.kind(), lock) {
                    (ErrorKind::WouldBlock, Lock::Exclusive) => StoreError::Locked { path: root.to_path_buf() },
                    (ErrorKind::WouldBlock, Lock::Shared) => StoreError::Running { path: root.to_path_buf() },
                    _ => StoreError::at(root)(error),
                });
            }
        }
    }
}
