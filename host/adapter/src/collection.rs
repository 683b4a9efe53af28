//! `Collection`, `DirectFileAccess` and `RandomAccessData`.
use crate::{
    error::{About, one_segment, storage_error},
    shared::Shared,
};
use cda_interfaces::storage_api::{
    Collection, CollectionName, DirectFileAccess, Metadata, Operation, RandomAccessData, ReadableStream, StorageError, Transaction,
};
use std::{
    fs::{self, File},
    future::{Future, ready},
    os::unix::fs::FileExt,
    path::{Path, PathBuf},
    sync::Arc,
};
use tokio::{
    io::AsyncReadExt,
    sync::{OwnedRwLockReadGuard, RwLock},
};

/// So many bytes of a stream are staged at a time.
const PIECE: usize = 64 * 1024;

/// A collection of a storage: its name, whether it stands or not.
pub struct LocalCollection {
    name: CollectionName,
    directory: PathBuf,
    shared: Arc<Shared>,
}

impl LocalCollection {
    pub(crate) fn new(name: CollectionName, shared: Arc<Shared>) -> Self {
        LocalCollection { directory: shared.store.layout().directory(name.as_str()), name, shared }
    }

    async fn reading(&self) -> OwnedRwLockReadGuard<()> {
        RwLock::read_owned(Arc::clone(&self.shared.data)).await
    }

    /// The path of a key's file, which is looked for by the lowered key, then in other letter cases. Nothing is renamed.
    fn path(&self, key: &str) -> Result<PathBuf, StorageError> {
        self.shared.ask(About::Key(key), |store| store.path(self.name.as_str(), key))
    }

    fn keys(&self) -> Result<Vec<String>, StorageError> {
        self.shared.ask(About::Store, |store| store.list(self.name.as_str()))
    }

    fn record_delete(&self, tx: &mut Transaction, key: &str) -> Result<(), StorageError> {
        let key = lowered(key)?;
        self.shared.record(tx, About::Key(&key), |open| open.delete(self.name.as_str(), &key))?;
        tx.record(Operation::Delete { collection: self.name.clone(), key });
        Ok(())
    }

    fn record_delete_all(&self, tx: &mut Transaction) -> Result<(), StorageError> {
        self.shared.record(tx, About::Collection(self.name.as_str()), |open| open.delete_all(self.name.as_str()))?;
        tx.record(Operation::DeleteAll { collection: self.name.clone() });
        Ok(())
    }
}

/// A key as it is stored.
fn lowered(key: &str) -> Result<String, StorageError> {
    one_segment(key)?;
    Ok(key.to_ascii_lowercase())
}

/// What is left of a read: the content as it stood, whatever is committed, and no commit as long as it lives.
pub struct LocalRandomAccessData {
    file: File,
    size: u64,
    _reading: OwnedRwLockReadGuard<()>,
}

impl RandomAccessData for LocalRandomAccessData {
    fn read_at(&self, offset: u64, buf: &mut [u8]) -> Result<usize, StorageError> {
        Ok(self.file.read_at(buf, offset)?)
    }

    fn data_size(&self) -> Result<u64, StorageError> {
        Ok(self.size)
    }
}

impl Collection for LocalCollection {
    async fn read(&self, key: &str) -> Result<Arc<impl RandomAccessData + 'static>, StorageError> {
        let key = lowered(key)?;
        let reading = self.reading().await;
        let file = self.shared.ask(About::Key(&key), |store| store.read(self.name.as_str(), &key))?;
        let size = file.metadata()?.len();
        Ok(Arc::new(LocalRandomAccessData { file, size, _reading: reading }))
    }

    async fn metadata(&self, key: &str) -> Result<Metadata, StorageError> {
        let key = lowered(key)?;
        let _reading = self.reading().await;
        let data_size = fs::metadata(self.path(&key)?).map_err(|error| StorageError::map_io_error(error, &key))?.len();
        Ok(Metadata { name: key, data_size, custom_props: Vec::new() })
    }

    async fn list(&self) -> Result<Vec<String>, StorageError> {
        let _reading = self.reading().await;
        self.keys()
    }

    async fn len(&self) -> Result<usize, StorageError> {
        let _reading = self.reading().await;
        self.keys().map(|keys| keys.len())
    }

    async fn is_empty(&self) -> Result<bool, StorageError> {
        self.len().await.map(|keys| keys == 0)
    }

    async fn write(&self, tx: &mut Transaction, key: &str, data: &mut impl ReadableStream) -> Result<(), StorageError> {
        let key = lowered(key)?;
        let mut staging = self.shared.record(tx, About::Store, |open| open.stage(self.name.as_str(), &key))?;
        let mut piece = vec![0; PIECE];
        loop {
            let length = AsyncReadExt::read(data, &mut piece).await?;
            if length == 0 {
                break;
            }
            staging.fill(&mut &piece[..length]).map_err(|error| storage_error(error, About::Store))?;
        }
        let staged_path = staging.path().display().to_string();
        self.shared.record(tx, About::Store, |open| open.write_staged(staging))?;
        tx.record(Operation::Write { collection: self.name.clone(), key, staged_path });
        Ok(())
    }

    // As with the original, these two have done their work when they return, whether or not what they return is awaited.

    fn delete(&self, tx: &mut Transaction, key: &str) -> impl Future<Output = Result<(), StorageError>> + Send {
        ready(self.record_delete(tx, key))
    }

    fn delete_all(&self, tx: &mut Transaction) -> impl Future<Output = Result<(), StorageError>> + Send {
        ready(self.record_delete_all(tx))
    }
}

impl DirectFileAccess for LocalCollection {
    fn dir_path(&self) -> &Path {
        &self.directory
    }

    fn file_path(&self, key: &str) -> Result<PathBuf, StorageError> {
        self.path(&lowered(key)?)
    }
}
