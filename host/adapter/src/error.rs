//! What the port and the host answer, as the interfaces' errors.
use cda_interfaces::storage_api::StorageError;
use cda_store::{Refusal, StoreError};
use std::io;

/// What a call was about, for the errors that name it.
#[derive(Clone, Copy)]
pub enum About<'a> {
    Store,
    Collection(&'a str),
    Key(&'a str),
}

/// A host's error as the interfaces'.
pub fn storage_error(error: StoreError, about: About) -> StorageError {
    match error {
        StoreError::Refused(refusal) => refused(refusal, about),
        StoreError::Io { path, source, .. } => io::Error::new(source.kind(), format!("{}: {source}", path.display())).into(),
        StoreError::Damaged { .. } => StorageError::Corruption(format!("{error}; see cda-store recover --help")),
        other => StorageError::Other(other.to_string()),
    }
}

fn refused(refusal: Refusal, about: About) -> StorageError {
    let name = match about {
        About::Store => String::new(),
        About::Collection(name) | About::Key(name) => name.to_string(),
    };
    match (refusal, about) {
        (Refusal::TransactionBusy, _) => StorageError::TransactionBusy,
        // What is looked for under a name that no store can hold is not there.
        (Refusal::KeyNotFound | Refusal::CollectionNotFound | Refusal::InvalidName, About::Key(_)) => StorageError::KeyNotFound(name),
        (Refusal::CollectionNotFound | Refusal::KeyNotFound, _) => StorageError::CollectionNotFound(name),
        (Refusal::CollectionExists, _) => StorageError::TransactionConflict(format!("Collection already exists: {name}")),
        (Refusal::HeldUpdate, _) => StorageError::TransactionConflict(refusal.to_string()),
        (Refusal::TooManyOperations | Refusal::StagingRefused | Refusal::StoreFull, _) => StorageError::NoSpaceLeft(refusal.to_string()),
        (Refusal::StepFailed, _) => StorageError::Io(io::Error::other(refusal)),
        (Refusal::Corruption | Refusal::LogTooLong, _) => StorageError::Corruption(format!("{refusal}; see cda-store recover --help")),
        _ => StorageError::Other(refusal.to_string()),
    }
}

/// A name that the original takes for one part of a path, which it asks of every name; what else a store can't hold, the port refuses.
pub fn one_segment(name: &str) -> Result<(), StorageError> {
    let why = match name {
        "" => "it is empty",
        "." | ".." => "it leads elsewhere",
        _ if name.contains(['/', '\\', '\0']) => "it has a separator or a null byte",
        _ => return Ok(()),
    };
    Err(StorageError::Other(format!("{name:?} is no name of a collection or key: {why}")))
}
