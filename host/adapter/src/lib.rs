//! The storage traits of cda-interfaces (`storage_api`) over the proved port: what stands behind a service that knows its store by them.
//!
//! [`LocalStorage::new`] takes the place of the original's. The store is a [`cda_store::FileStore`]; a commit's steps are the port's. README.md has
//! the traits method by method, and what is otherwise than with the original.
#![forbid(unsafe_code)]
#![warn(missing_docs)]

mod collection;
mod committer;
mod error;
mod shared;
mod storage;

pub use collection::{LocalCollection, LocalRandomAccessData};
pub use storage::LocalStorage;
