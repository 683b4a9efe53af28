//! `Storage`.
use crate::{
    collection::LocalCollection,
    committer::Committer,
    error::{About, one_segment, storage_error},
    shared::Shared,
};
use cda_interfaces::storage_api::{CollectionName, Operation, Storage, StorageError, Transaction};
use cda_store::{FileStore, Refusal, StoreError};
use std::{
    future::{Future, ready},
    io,
    path::PathBuf,
    sync::Arc,
};

/// A storage on a directory, laid out as the original's. One is open on a directory at a time, in whatever process: the directory is locked as long
/// as the storage, a collection of it or a transaction of it lives.
pub struct LocalStorage {
    shared: Arc<Shared>,
}

impl LocalStorage {
    /// Opens the storage at this directory, which must exist, and recovers it if an interrupted transaction left work; else nothing is written.
    ///
    /// # Errors
    ///
    /// [`StorageError::Io`] with `NotFound` if the directory is not there. [`StorageError::Corruption`] and [`StorageError::Other`] if recovery is
    /// refused; nothing was changed then. [`StorageError::Other`] where another has the directory open, or something stands in it that no store
    /// holds.
    pub fn new(root: impl Into<PathBuf>) -> Result<Self, StorageError> {
        let root = root.into();
        if !root.is_dir() {
            let missing = format!("the storage's directory {} does not exist", root.display());
            return Err(io::Error::new(io::ErrorKind::NotFound, missing).into());
        }
        let store = FileStore::open(root).map_err(|error| storage_error(error, About::Store))?;
        Ok(LocalStorage { shared: Arc::new(Shared::new(store)) })
    }

    fn handle(&self, name: &CollectionName) -> Arc<LocalCollection> {
        Arc::new(LocalCollection::new(name.clone(), Arc::clone(&self.shared)))
    }

    /// Has the open transaction record an operation on a collection.
    fn record<T>(
        &self,
        tx: &Transaction,
        name: &CollectionName,
        act: impl FnOnce(&mut Open) -> Result<T, StoreError>,
    ) -> Result<T, StorageError> {
        one_segment(name.as_str())?;
        self.shared.record(tx, About::Collection(name.as_str()), act)
    }
}

type Open = cda_store::Transaction<'static>;

fn stands(open: &Open, name: &CollectionName) -> bool {
    open.image().contents().directories.contains_key(name.as_str())
}

/// A collection is looked for before anything else is asked.
fn require(open: &Open, name: &CollectionName) -> Result<(), StoreError> {
    if stands(open, name) { Ok(()) } else { Err(Refusal::CollectionNotFound.into()) }
}

impl Storage for LocalStorage {
    type CollectionHandle = LocalCollection;

    async fn get_collection(&self, name: &CollectionName) -> Result<Arc<LocalCollection>, StorageError> {
        one_segment(name.as_str())?;
        let _reading = self.shared.data.read().await;
        if self.shared.stands(name.as_str())? { Ok(self.handle(name)) } else { Err(StorageError::CollectionNotFound(name.to_string())) }
    }

    async fn get_or_create_collection(&self, name: &CollectionName) -> Result<Arc<LocalCollection>, StorageError> {
        one_segment(name.as_str())?;
        let reading = self.shared.data.read().await;
        if self.shared.stands(name.as_str())? {
            return Ok(self.handle(name));
        }
        drop(reading);
        if self.shared.open().is_some() {
            return Err(StorageError::TransactionBusy);
        }
        let _alone = self.shared.data.write().await;
        self.shared.ask(About::Collection(name.as_str()), |store| store.make_collection(name.as_str()))?;
        Ok(self.handle(name))
    }

    fn begin_transaction(&self) -> Result<Transaction, StorageError> {
        let mut open = self.shared.open();
        if open.is_some() {
            return Err(StorageError::TransactionBusy);
        }
        *open = Some(self.shared.ask(About::Store, |store| store.begin_shared())?);
        let layout = self.shared.store.layout();
        Ok(Transaction::new(layout.log(), layout.staging(), Arc::new(Committer(Arc::clone(&self.shared)))))
    }

    // As with the original, these three have done their work when they return, whether or not what they return is awaited.

    fn create_collection(
        &self,
        tx: &mut Transaction,
        name: &CollectionName,
    ) -> impl Future<Output = Result<Arc<LocalCollection>, StorageError>> + Send {
        let recorded = self.record(tx, name, |open| open.create_collection(name.as_str()));
        ready(recorded.map(|()| {
            tx.record(Operation::CreateCollection { name: name.clone() });
            self.handle(name)
        }))
    }

    fn delete_collection(&self, tx: &mut Transaction, name: &CollectionName) -> impl Future<Output = Result<(), StorageError>> + Send {
        let recorded = self.record(tx, name, |open| require(open, name).and_then(|()| open.delete_collection(name.as_str())));
        ready(recorded.map(|()| tx.record(Operation::DeleteCollection { name: name.clone() })))
    }

    fn copy_collection(
        &self,
        tx: &mut Transaction,
        source: &CollectionName,
        dest: &CollectionName,
    ) -> impl Future<Output = Result<(), StorageError>> + Send {
        let recorded = self.record(tx, source, |open| {
            require(open, source)?;
            let dest_existed = stands(open, dest);
            open.copy_collection(source.as_str(), dest.as_str()).map(|()| dest_existed)
        });
        let (source, dest) = (source.clone(), dest.clone());
        ready(recorded.map(|dest_existed| tx.record(Operation::CopyCollection { source, dest, dest_existed })))
    }
}
