//! Where the parts of a store stand, as the original's `LocalStorage` lays them out, and the calls that reach them.
use super::{carry_out, error::StoreError};
use crate::{
    calls::{Calls, System},
    entries::Stepped,
    image::Contents,
    step::Step,
};
use std::{
    fmt,
    io::ErrorKind,
    path::{Path, PathBuf},
};

/// The staging file that a copy, and a Held log, is made in. Written content has a number as name.
pub const ASIDE: &str = "copy.tmp";

/// The file in the journal that says that a revert was begun.
const REVERTING: &str = "reverting";

/// Where the parts of a store stand below its root, and the file calls that carry out its steps. [`FileStore`](crate::FileStore) has one and
/// does all of this by itself. An integrator who keeps the store's image by other means takes one alone: it locks nothing, scans nothing and
/// syncs no more than the steps do, and what is told around them ([`Stepped::syncs`]).
pub struct Layout {
    root: PathBuf,
    pub(crate) calls: Box<dyn Calls>,
}

impl Layout {
    /// The layout of the store at this directory.
    pub fn of(root: impl Into<PathBuf>) -> Layout {
        Layout::new(root, System)
    }

    pub(crate) fn new(root: impl Into<PathBuf>, calls: impl Calls + 'static) -> Layout {
        Layout { root: root.into(), calls: Box::new(calls) }
    }

    /// The store's directory.
    pub fn root(&self) -> &Path {
        &self.root
    }

    /// The directory of the collections.
    pub fn collections(&self) -> PathBuf {
        self.root.join("collections")
    }

    /// A collection.
    pub fn directory(&self, name: &str) -> PathBuf {
        self.collections().join(name)
    }

    /// A file of a collection.
    pub fn file(&self, directory: &str, name: &str) -> PathBuf {
        self.directory(directory).join(name)
    }

    /// The directory of the log.
    pub fn journal(&self) -> PathBuf {
        self.root.join("journal")
    }

    /// The log.
    pub fn log(&self) -> PathBuf {
        self.journal().join("transaction.wal")
    }

    /// The mark that a revert was begun.
    pub fn reverting(&self) -> PathBuf {
        self.journal().join(REVERTING)
    }

    /// The directory of the staging files.
    pub fn staging(&self) -> PathBuf {
        self.journal().join("staging")
    }

    /// A staging file.
    pub fn staged(&self, name: &str) -> PathBuf {
        self.staging().join(name)
    }

    /// Carries out a step of a plan, with its added syncs. Each step is one call that the file system does whole, but for copies, which are made
    /// aside and moved into their place, and the removal of a directory.
    pub fn carry_out(&self, stepped: &Stepped) -> Result<(), StoreError> {
        stepped.syncs.before.iter().try_for_each(|sync| self.add(sync, stepped))?;
        carry_out::carry_out(self, &stepped.step, &stepped.image)?;
        stepped.syncs.behind.iter().try_for_each(|sync| self.add(sync, stepped))
    }

    /// Makes an added sync. A store that has no journal, or no directory of collections, has nothing there to be synced.
    fn add(&self, sync: &Step, stepped: &Stepped) -> Result<(), StoreError> {
        match carry_out::carry_out(self, sync, &stepped.image) {
            Err(StoreError::Io { source, .. })
                if source.kind() == ErrorKind::NotFound && matches!(sync, Step::SyncJournal | Step::SyncCollections) =>
            {
                Ok(())
            }
            synced => synced,
        }
    }

    /// Makes a directory, unless it stands.
    pub(crate) fn make_missing(&self, directory: &Path) -> Result<(), StoreError> {
        match self.calls.make_directory(directory) {
            Err(error) if error.kind() == ErrorKind::AlreadyExists => Ok(()),
            made => made.map_err(StoreError::at(directory)),
        }
    }

    pub(crate) fn sync(&self, path: &Path) -> Result<(), StoreError> {
        self.calls.sync(path).map_err(StoreError::at(path))
    }

    /// Syncs every collection that stands, and the directory of the collections.
    pub(crate) fn sync_collections(&self, standing: &Contents) -> Result<(), StoreError> {
        standing.directories.keys().try_for_each(|name| self.sync(&self.directory(name)))?;
        self.sync(&self.collections())
    }
}

impl fmt::Debug for Layout {
    fn fmt(&self, f: &mut fmt::Formatter) -> fmt::Result {
        self.root.fmt(f)
    }
}
