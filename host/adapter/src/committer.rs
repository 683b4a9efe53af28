//! What a transaction calls back when it ends.
use crate::shared::Shared;
use async_trait::async_trait;
use cda_interfaces::storage_api::{Operation, StorageError, TransactionCommitter};
use std::{
    path::{Path, PathBuf},
    sync::Arc,
};

pub struct Committer(pub Arc<Shared>);

#[async_trait]
impl TransactionCommitter for Committer {
    /// The commit is a task of its own: it runs to its end where this future is dropped.
    async fn apply(&self, operations: Vec<Operation>, _journal_path: PathBuf) -> Result<(), StorageError> {
        let shared = Arc::clone(&self.0);
        let transaction = shared.open().take();
        let task = cda_interfaces::spawn_named!("storage-commit", async move { shared.commit(transaction, operations).await });
        task.await.unwrap_or_else(|error| Err(StorageError::Other(format!("the commit's task failed: {error}"))))
    }

    fn discard(&self, _staging_dir: &Path, _journal_path: &Path) {
        let transaction = self.0.open().take();
        self.0.discard(transaction);
    }
}
