//! A store that is looked at.
use super::{
    error::StoreError,
    layout::Layout,
    lock::lock,
    scan::{is_reverting, journal, scan},
};
use crate::{
    calls::{Lock, System},
    image::Image,
};
use std::{fs::File, path::PathBuf};

/// A store that is looked at, and not changed and not recovered. While it is open no [`FileStore`](crate::FileStore) opens the
/// directory, so what is seen is no update's middle, unless one was interrupted.
#[derive(Debug)]
pub struct Reader {
    layout: Layout,
    _lock: Option<File>,
}

impl Reader {
    /// Opens the store to be looked at. A running update is waited for, for a second; then it is [`StoreError::Running`].
    pub fn open(root: impl Into<PathBuf>) -> Result<Reader, StoreError> {
        let layout = Layout::new(root, System);
        let lock = lock(&layout, Lock::Shared)?;
        Ok(Reader { layout, _lock: lock })
    }

    /// The store as it stands on disk, with the files numbered from 1.
    pub fn image(&self) -> Result<Image, StoreError> {
        Ok(scan(&self.layout)?.image()?)
    }

    /// Whether a revert of a held update was begun and is not done. The next open of a [`FileStore`](crate::FileStore) ends it.
    pub fn is_reverting(&self) -> Result<bool, StoreError> {
        is_reverting(&self.layout)
    }

    /// The bytes of the log, if one stands. What stands among the collections is not looked at.
    pub fn log(&self) -> Result<Option<Vec<u8>>, StoreError> {
        journal(&self.layout)
    }
}
