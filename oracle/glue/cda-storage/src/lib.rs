//! The frame around the original's five files of `cda-storage`, with doors to what the crate keeps for itself.
#![allow(unused)]
use cda_interfaces::storage_api::{CollectionName, StorageError};
use std::{path::Path, sync::Arc};

include!(concat!(env!("OUT_DIR"), "/original.rs"));
mod io;

pub use local_collection::LocalCollection;
pub use local_storage::LocalStorage;
pub use wal::{WalStatus, open_wal, read_wal};

pub fn has_pending_work(journal: &Path, collections: &Path) -> bool {
    recovery::has_pending_work(journal, collections)
}

pub fn sanitize(name: &str) -> Result<(), StorageError> {
    paths::sanitize_path_segment(name)
}

/// A handle on a collection, whether it stands or not: in a transaction that creates it, the original hands one out.
pub fn collection(folder: &Path, name: &str) -> LocalCollection {
    let lock = Arc::new(tokio::sync::RwLock::new(()));
    LocalCollection::new(CollectionName::Custom(name.to_string()), folder.join(name), lock)
}
