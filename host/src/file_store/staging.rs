//! Content that is staged, piece by piece.
use super::{
    error::StoreError,
    state::{Handle, lock},
};
use std::{
    io::{self, Read, Write},
    path::PathBuf,
};

/// Content on its way into a staging file, for [`Transaction::write_staged`](crate::Transaction::write_staged). What is written goes behind what
/// it has. Dropped before it is recorded, its file is removed, and so it is where a call fails.
#[derive(Debug)]
pub struct Staging<'a> {
    pub(super) store: Handle<'a>,
    pub(super) era: u64,
    pub(super) collection: String,
    pub(super) key: String,
    pub(super) staged: String,
    pub(super) number: u32,
    /// Whether the file is this one's to remove.
    pub(super) own: bool,
}

impl Staging<'_> {
    /// The staging file.
    pub fn path(&self) -> PathBuf {
        self.store.layout.staged(&self.staged)
    }

    /// Writes all of this content behind what was written.
    pub fn fill(&mut self, content: &mut dyn Read) -> Result<(), StoreError> {
        if !self.own || !lock(&self.store.status).goes_on(self.era) {
            return Err(StoreError::Stopped);
        }
        let path = self.path();
        let filled = self.store.layout.calls.fill(&path, content);
        filled.map_err(|error| self.remove().err().unwrap_or_else(|| StoreError::at(&path)(error)))
    }

    /// Removes the file; where that fails, the store is stopped.
    fn remove(&mut self) -> Result<(), StoreError> {
        self.own = false;
        let path = self.path();
        self.store.stop_at_error(self.store.layout.calls.remove_file(&path).map_err(StoreError::at(&path)))
    }
}

impl Write for Staging<'_> {
    fn write(&mut self, bytes: &[u8]) -> io::Result<usize> {
        let filled = self.fill(&mut &bytes[..]);
        filled.map(|()| bytes.len()).map_err(|error| match error {
            StoreError::Io { source, .. } => source,
            other => io::Error::other(other),
        })
    }

    fn flush(&mut self) -> io::Result<()> {
        Ok(())
    }
}

impl Drop for Staging<'_> {
    fn drop(&mut self) {
        if self.own && lock(&self.store.status).goes_on(self.era) {
            let _ = self.remove();
        }
    }
}
