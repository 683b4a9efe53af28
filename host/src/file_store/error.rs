//! What can go wrong with a store on disk.
use crate::{Refusal, step::Step};
use std::{
    error::Error,
    fmt, io,
    path::{Path, PathBuf},
};

/// Why a call on a [`FileStore`](crate::FileStore) did not succeed.
#[derive(Debug)]
#[non_exhaustive]
pub enum StoreError {
    /// The port refused the call. The files are as before; for 14 and 15 the transaction was discarded.
    Refused(Refusal),
    /// A file call failed.
    Io {
        /// What it was called for.
        path: PathBuf,
        /// The step of a commit or recovery that it belongs to. The next open recovers from there.
        step: Option<Step>,
        /// The file call's own error.
        source: io::Error,
    },
    /// Something stands on disk that no store image can hold. Nothing was changed.
    Foreign {
        /// Where it stands.
        path: PathBuf,
        /// What is wrong with it.
        why: String,
    },
    /// The log's header is damaged, so that nobody can tell how far its update came, and backups stand. Nothing was changed.
    /// [`FileStore::restore`](crate::FileStore::restore) puts the backups back, [`FileStore::accept`](crate::FileStore::accept) keeps
    /// what stands.
    Damaged {
        /// The log.
        path: PathBuf,
    },
    /// Nothing is to be restored or accepted: opening the store recovers it. Nothing was changed.
    Sound {
        /// The store's directory.
        path: PathBuf,
    },
    /// Another process has the store open.
    Locked {
        /// The store's directory.
        path: PathBuf,
    },
    /// An update is running, so that what stands there is not what it leaves: a [`FileStore`](crate::FileStore) has the store open.
    Running {
        /// The store's directory.
        path: PathBuf,
    },
    /// An earlier file call failed in the middle of a transaction, or the observer panicked. The store must be opened anew, which
    /// recovers it.
    Stopped,
}

impl StoreError {
    /// Wraps the error of a file call that belongs to no step.
    pub(crate) fn at(path: &Path) -> impl FnOnce(io::Error) -> StoreError {
        |source| StoreError::Io { path: path.to_path_buf(), step: None, source }
    }

    pub(crate) fn foreign(path: &Path, why: impl Into<String>) -> StoreError {
        StoreError::Foreign { path: path.to_path_buf(), why: why.into() }
    }
}

impl From<Refusal> for StoreError {
    fn from(refusal: Refusal) -> StoreError {
        StoreError::Refused(refusal)
    }
}

impl fmt::Display for StoreError {
    fn fmt(&self, f: &mut fmt::Formatter) -> fmt::Result {
        match self {
            StoreError::Refused(refusal) => refusal.fmt(f),
            StoreError::Io { path, step: None, source } => write!(f, "{}: {source}", path.display()),
            StoreError::Io { path, step: Some(step), source } => write!(f, "{}: {source} (step: {step})", path.display()),
            StoreError::Foreign { path, why } => write!(f, "{}: {why}", path.display()),
            StoreError::Damaged { path } => write!(f, "{}: the log is damaged, and backups stand; nothing was changed", path.display()),
            StoreError::Sound { path } => write!(f, "{}: recovery is not refused here; open the store, which recovers it", path.display()),
            StoreError::Locked { path } => write!(f, "{}: another process has the store open", path.display()),
            StoreError::Running { path } => write!(f, "{}: an update is running (another process has the store open)", path.display()),
            StoreError::Stopped => write!(f, "the store was stopped by a failed file call or its observer's panic and must be opened anew"),
        }
    }
}

impl Error for StoreError {
    fn source(&self) -> Option<&(dyn Error + 'static)> {
        match self {
            StoreError::Refused(refusal) => Some(refusal),
            StoreError::Io { source, .. } => Some(source),
            _ => None,
        }
    }
}
