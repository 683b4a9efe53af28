//! In the place of the original's io.rs, which isn't among the nine files: reading a key's content. Nothing here reads one.
use cda_interfaces::storage_api::{RandomAccessData, StorageError};
use std::{fs::File, os::unix::fs::FileExt, sync::Arc};
use tokio::sync::{OwnedRwLockReadGuard, RwLock};

pub(crate) async fn acquire_read_lock(lock: &Arc<RwLock<()>>) -> OwnedRwLockReadGuard<()> {
    Arc::clone(lock).read_owned().await
}

pub struct LocalRandomAccessData(File, u64, #[allow(dead_code)] OwnedRwLockReadGuard<()>);

impl LocalRandomAccessData {
    pub(crate) fn new(file: File, size: u64, guard: OwnedRwLockReadGuard<()>) -> Self {
        Self(file, size, guard)
    }
}

impl RandomAccessData for LocalRandomAccessData {
    fn read_at(&self, offset: u64, buf: &mut [u8]) -> Result<usize, StorageError> {
        Ok(self.0.read_at(buf, offset)?)
    }
    fn data_size(&self) -> Result<u64, StorageError> {
        Ok(self.1)
    }
}
