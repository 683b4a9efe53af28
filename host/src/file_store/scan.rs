//! A store on disk, read as what an image holds. What no image can hold is an error that names its path.
use super::{
    error::StoreError,
    layout::{ASIDE, Layout},
};
use crate::{
    Refusal,
    calls::Kind,
    image::{Contents, Files},
};
use cda_storage_sys::LOG_LIMIT;
use std::{
    collections::BTreeMap,
    io::ErrorKind,
    path::{Path, PathBuf},
};

const DIRECTORY_LIMIT: usize = 16;
const FILE_LIMIT: usize = 128;
const STAGING_LIMIT: usize = 32;

/// Reads the store. Missing directories below the root read as empty. Files are numbered from 1 in the image's order. A symbolic
/// link below the root is none of a store's.
pub fn scan(layout: &Layout) -> Result<Contents, StoreError> {
    let root = layout.calls.list(layout.root()).map_err(|error| match error.kind() {
        ErrorKind::NotADirectory => StoreError::foreign(layout.root(), "it is not a directory"),
        _ => StoreError::at(layout.root())(error),
    })?;
    for (name, kind) in root {
        let entry = Entry { path: layout.root().join(name), kind };
        let is_part = entry.path == layout.collections() || entry.path == layout.journal();
        entry.require(!is_part || kind == Kind::Directory, "it is not a directory")?;
    }
    let mut numbers = 1..;
    let log = journal(layout)?;
    let directories = collections(layout, &mut numbers)?;
    let staged = entries(layout, &layout.staging())?.into_iter().filter(|entry| !entry.is_aside(layout)).collect();
    let staging = files(staged, STAGING_LIMIT, "a store has at most 32 staging files", &mut numbers)?;
    Ok(Contents { directories, staging, log, open: false })
}

type Numbers = std::ops::RangeFrom<u32>;

fn collections(layout: &Layout, numbers: &mut Numbers) -> Result<BTreeMap<String, Files>, StoreError> {
    let mut directories = BTreeMap::new();
    let mut room = FILE_LIMIT;
    for entry in entries(layout, &layout.collections())? {
        entry.require(entry.kind == Kind::Directory, "only directories stand among the collections")?;
        entry.require(directories.len() < DIRECTORY_LIMIT, "a store has at most 16 collections")?;
        let name = entry.name()?;
        let files = files(entries(layout, &entry.path)?, room, "a store has at most 128 files", numbers)?;
        room -= files.len();
        directories.insert(name, files);
    }
    Ok(directories)
}

/// Whether a copy stands aside that was not moved into its place. It is the host's own and no part of an image.
pub fn has_aside(layout: &Layout) -> Result<bool, StoreError> {
    Ok(entries(layout, &layout.staging())?.iter().any(|entry| entry.is_aside(layout)))
}

/// Whether a revert was begun and is not done: the host's own mark stands beside the log. It is no part of an image.
pub fn is_reverting(layout: &Layout) -> Result<bool, StoreError> {
    Ok(entries(layout, &layout.journal())?.iter().any(|entry| entry.is_mark(layout)))
}

/// The files of a directory, which are at most so many.
fn files(entries: Vec<Entry>, room: usize, limit: &str, numbers: &mut Numbers) -> Result<Files, StoreError> {
    let mut files = Files::new();
    for entry in entries {
        entry.require(entry.kind == Kind::File, "only regular files stand here")?;
        entry.require(files.len() < room, limit)?;
        files.insert(entry.name()?, numbers.next().expect("fewer files than numbers"));
    }
    Ok(files)
}

/// The log, where the journal holds nothing but it, the staging directory and the mark of a revert.
pub fn journal(layout: &Layout) -> Result<Option<Vec<u8>>, StoreError> {
    let mut log = None;
    for entry in entries(layout, &layout.journal())? {
        if entry.path == layout.log() {
            entry.require(entry.kind == Kind::File, "the log is a regular file")?;
            let bytes = layout.calls.read(&entry.path, LOG_LIMIT as u64 + 1).map_err(StoreError::at(&entry.path))?;
            log = Some(within_limit(&entry, bytes)?);
        } else if !entry.is_mark(layout) {
            entry.require(entry.path == layout.staging(), "the journal holds transaction.wal and staging alone")?;
            entry.require(entry.kind == Kind::Directory, "it is not a directory")?;
        }
    }
    Ok(log)
}

/// The log that begins with these bytes, if that is all of it. A longer one is refused by the port where an entry of it is
/// another program's, or it goes on after 32 operations; else it is foreign.
fn within_limit(entry: &Entry, mut bytes: Vec<u8>) -> Result<Vec<u8>, StoreError> {
    if bytes.len() > LOG_LIMIT {
        bytes.truncate(LOG_LIMIT);
        Contents { log: Some(bytes), ..Contents::default() }.image()?.recover()?;
        return Err(StoreError::foreign(&entry.path, format!("a log has at most {LOG_LIMIT} bytes")));
    }
    Ok(bytes)
}

struct Entry {
    path: PathBuf,
    kind: Kind,
}

impl Entry {
    fn require(&self, holds: bool, why: &str) -> Result<(), StoreError> {
        if holds { Ok(()) } else { Err(StoreError::foreign(&self.path, why)) }
    }

    fn is_aside(&self, layout: &Layout) -> bool {
        self.kind == Kind::File && self.path == layout.staged(ASIDE)
    }

    fn is_mark(&self, layout: &Layout) -> bool {
        self.kind == Kind::File && self.path == layout.reverting()
    }

    fn name(&self) -> Result<String, StoreError> {
        let name = self.path.file_name().and_then(|name| name.to_str()).filter(|name| is_valid(name));
        name.map(str::to_string).ok_or_else(|| StoreError::foreign(&self.path, Refusal::InvalidName.sentence()))
    }
}

/// Whether the port takes the name: it then accepts an image with a directory of that name alone.
fn is_valid(name: &str) -> bool {
    let directories = BTreeMap::from([(name.to_string(), Files::new())]);
    name.len() <= 64 && Contents { directories, ..Contents::default() }.image().is_ok()
}

/// What stands in a directory, in ascending order of names; nothing where it is missing.
fn entries(layout: &Layout, directory: &Path) -> Result<Vec<Entry>, StoreError> {
    let mut listed = match layout.calls.list(directory) {
        Err(error) if error.kind() == ErrorKind::NotFound => return Ok(Vec::new()),
        listed => listed.map_err(StoreError::at(directory))?,
    };
    listed.sort();
    Ok(listed.into_iter().map(|(name, kind)| Entry { path: directory.join(name), kind }).collect())
}
