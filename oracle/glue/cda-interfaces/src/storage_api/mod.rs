//! The original's modules, what they call each other by, and the trait that `LocalStorage` implements.
use std::{future::Future, sync::Arc};

include!(concat!(env!("OUT_DIR"), "/original.rs"));
mod payload;

pub use collection::{Collection, CollectionName, DirectFileAccess, Metadata};
pub use error::StorageError;
pub use io::{RandomAccessData, ReadableStream};
pub use payload::staging_folder;
pub use transaction::{Operation, Transaction, TransactionCommitter};

type Answer<T> = Result<T, StorageError>;

pub trait Storage {
    type CollectionHandle;

    fn begin_transaction(&self) -> Answer<Transaction>;
    fn get_collection(&self, name: &CollectionName) -> impl Future<Output = Answer<Arc<Self::CollectionHandle>>> + Send;
    fn get_or_create_collection(&self, name: &CollectionName) -> impl Future<Output = Answer<Arc<Self::CollectionHandle>>> + Send;
    fn create_collection(
        &self,
        tx: &mut Transaction,
        name: &CollectionName,
    ) -> impl Future<Output = Answer<Arc<Self::CollectionHandle>>> + Send;
    fn delete_collection(&self, tx: &mut Transaction, name: &CollectionName) -> impl Future<Output = Answer<()>> + Send;
    fn copy_collection(
        &self,
        tx: &mut Transaction,
        source: &CollectionName,
        dest: &CollectionName,
    ) -> impl Future<Output = Answer<()>> + Send;
}
