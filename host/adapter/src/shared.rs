//! What a storage, its collections and its transaction share.
use crate::error::{About, storage_error};
use cda_interfaces::storage_api::{Operation, StorageError, Transaction as Handed};
use cda_store::{FileStore, Log, Logged, Step, StoreError, Transaction, Write};
use std::sync::{Arc, Mutex, MutexGuard, PoisonError};
use tokio::sync::RwLock;

pub struct Shared {
    pub store: Arc<FileStore>,
    /// Shared by who reads, also as long as what was read is kept; alone while a commit applies its operations.
    pub data: Arc<RwLock<()>>,
    /// The open transaction, from begin until its commit begins or it is discarded.
    open: Mutex<Option<Transaction<'static>>>,
}

impl Shared {
    pub fn new(store: FileStore) -> Shared {
        Shared { store: Arc::new(store), data: Arc::new(RwLock::new(())), open: Mutex::new(None) }
    }

    pub fn open(&self) -> MutexGuard<'_, Option<Transaction<'static>>> {
        self.open.lock().unwrap_or_else(PoisonError::into_inner)
    }

    /// Asks the store; where a failed file call had stopped it, it is recovered first.
    pub fn ask<T>(&self, about: About, question: impl Fn(&Arc<FileStore>) -> Result<T, StoreError>) -> Result<T, StorageError> {
        let answer = match question(&self.store) {
            Err(StoreError::Stopped) => self.store.reopen().and_then(|()| question(&self.store)),
            answer => answer,
        };
        answer.map_err(|error| storage_error(error, about))
    }

    /// Whether a collection stands.
    pub fn stands(&self, name: &str) -> Result<bool, StorageError> {
        self.ask(About::Store, |store| Ok(store.image()?.contents().directories.contains_key(name)))
    }

    /// Has the open transaction do something. The one that is handed in is the open one, or another storage's.
    pub fn record<T>(
        &self,
        handed: &Handed,
        about: About,
        act: impl FnOnce(&mut Transaction<'static>) -> Result<T, StoreError>,
    ) -> Result<T, StorageError> {
        if handed.journal_path() != self.store.layout().log() {
            return Err(StorageError::Other("the transaction is another storage's".to_string()));
        }
        let mut open = self.open();
        let open = open.as_mut().ok_or_else(|| StorageError::Other("the transaction is over".to_string()))?;
        act(open).map_err(|error| storage_error(error, about))
    }

    /// Commits a transaction of which these are the operations, and waits for who reads.
    pub async fn commit(&self, transaction: Option<Transaction<'static>>, operations: Vec<Operation>) -> Result<(), StorageError> {
        let transaction = transaction.ok_or_else(|| StorageError::Other("the transaction is over".to_string()))?;
        if !are_recorded(&transaction, &operations) {
            self.discard(Some(transaction));
            return Err(StorageError::Other("the transaction has operations that were not recorded by its storage".to_string()));
        }
        let _alone = self.data.write().await;
        match transaction.commit() {
            Ok(()) => Ok(()),
            Err(error) => {
                let done = self.is_done(&error);
                let _ = self.store.reopen();
                if done { Ok(()) } else { Err(storage_error(error, About::Store)) }
            }
        }
    }

    /// Whether a commit failed in clearing up behind it, when its log was gone: then it stands, and the next recovery clears up.
    fn is_done(&self, error: &StoreError) -> bool {
        let clears_up = |step: &Step| matches!(step, Step::RemoveFile { .. } | Step::RemoveDirectory { .. } | Step::RemoveStaging { .. });
        matches!(error, StoreError::Io { step: Some(step), .. } if clears_up(step)) && !self.store.layout().log().exists()
    }

    /// Discards a transaction, as far as that can be done; what is left goes with the next recovery.
    pub fn discard(&self, transaction: Option<Transaction<'static>>) {
        if let Some(Err(_)) = transaction.map(Transaction::rollback) {
            let _ = self.store.reopen();
        }
    }
}

/// Whether the log has these operations. Others come from who records them past the storage.
fn are_recorded(transaction: &Transaction, operations: &[Operation]) -> bool {
    let log = transaction.image().contents().log.unwrap_or_default();
    let logged = Log::read(&log).map_or(Vec::new(), |log| log.operations);
    logged.len() == operations.len() && logged.iter().zip(operations).all(|(logged, operation)| is_same(logged, operation))
}

fn is_same(logged: &Logged, operation: &Operation) -> bool {
    match (logged, operation) {
        (Logged::Write(Write { collection, key, staged, .. }), Operation::Write { collection: c, key: k, staged_path }) => {
            (collection.as_str(), key) == (c.as_str(), k) && staged_path.rsplit('/').next() == Some(staged)
        }
        (Logged::Delete { collection, key }, Operation::Delete { collection: c, key: k }) => (collection.as_str(), key) == (c.as_str(), k),
        (Logged::DeleteAll { collection }, Operation::DeleteAll { collection: c }) => collection == c.as_str(),
        (Logged::CreateCollection { name }, Operation::CreateCollection { name: c }) => name == c.as_str(),
        (Logged::DeleteCollection { name }, Operation::DeleteCollection { name: c }) => name == c.as_str(),
        (Logged::CopyCollection { source, destination, existed }, Operation::CopyCollection { source: s, dest, dest_existed }) => {
            (source.as_str(), destination.as_str(), existed) == (s.as_str(), dest.as_str(), dest_existed)
        }
        _ => false,
    }
}
