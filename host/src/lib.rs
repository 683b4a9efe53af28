//! The collection store of a depot diagnostic box: the proved port, and a store on real directories over it.
//!
//! The port takes a store image, as bytes, and hands back a number, an image, and the file steps to carry out. [`Image`] has
//! its entries as methods, [`Log`] the one that reads a log; [`FileStore`] keeps a store on a directory and carries out the steps.
//!
//! ```
//! # let root = std::env::temp_dir().join(format!("cda-store-{}", std::process::id()));
//! # std::fs::create_dir(&root)?;
//! let store = cda_store::FileStore::open(&root)?;
//! let mut transaction = store.begin()?;
//! transaction.create_collection("db")?;
//! transaction.write("db", "faults.mdd", &b"content"[..])?;
//! transaction.commit()?;
//! assert_eq!(store.list("db")?, ["faults.mdd"]);
//! # std::fs::remove_dir_all(&root)?;
//! # Ok::<(), Box<dyn std::error::Error>>(())
//! ```
#![forbid(unsafe_code)]
#![warn(missing_docs)]

#[doc(hidden)]
pub mod calls;
mod entries;
mod field;
mod file_store;
mod image;
mod log;
mod step;
mod synced;

pub use cda_storage_sys::Refusal;
pub use entries::{Backup, CommitError, Plan, Recovered, Stepped, Steps};
pub use file_store::{Event, FileStore, Layout, Reader, Rotation, Staging, StoreError, Transaction, scan};
pub use image::{Contents, Files, Image};
pub use log::{Cause, Log, Logged, Status, Write};
pub use step::Step;
pub use synced::Syncs;
