//! What stands in a directory, in the form in which both leave the same: staging files by their contents, the log by its operations.
use cda_store::{Log, Logged, Status, Write};
use std::{collections::BTreeMap, fs, path::Path};

pub type Tree = BTreeMap<String, BTreeMap<String, Vec<u8>>>;

#[derive(Clone, PartialEq, Eq, Debug)]
pub struct Disk {
    pub collections: Option<Tree>,
    /// The contents of the staging files, in order.
    pub staging: Option<Vec<Vec<u8>>>,
    pub log: Option<Entries>,
    /// What else stands in the root and in the journal.
    pub others: Vec<String>,
}

/// A log's status and its operations, with a Write's staged content and without its mark.
#[derive(Clone, PartialEq, Eq, Debug)]
pub struct Entries {
    pub status: Option<Status>,
    pub operations: Vec<(Logged, Option<Vec<u8>>)>,
}

pub fn disk(root: &Path) -> Disk {
    let journal = root.join("journal");
    let staged = files(&journal.join("staging"));
    let mut contents = staged.as_ref().map(|staged| staged.values().cloned().collect::<Vec<_>>());
    contents.iter_mut().for_each(|contents| contents.sort());
    let others = names(root).into_iter().filter(|name| !["collections", "journal"].contains(&name.as_str()));
    let inside = names(&journal).into_iter().filter(|name| !["staging", "transaction.wal"].contains(&name.as_str()));
    Disk {
        collections: tree(root),
        log: fs::read(journal.join("transaction.wal")).ok().map(|log| entries(&log, &staged.unwrap_or_default())),
        staging: contents,
        others: others.chain(inside).collect(),
    }
}

/// The collections.
pub fn tree(root: &Path) -> Option<Tree> {
    let collections = root.join("collections");
    collections
        .is_dir()
        .then(|| names(&collections).into_iter().map(|name| (name.clone(), files(&collections.join(name)).expect("a directory"))).collect())
}

fn entries(log: &[u8], staged: &BTreeMap<String, Vec<u8>>) -> Entries {
    let read = Log::read(log).ok();
    let alike = |operation| match operation {
        Logged::Write(Write { staged: name, collection, key, .. }) => {
            (Logged::Write(Write { collection, key, staged: String::new(), mark: None }), staged.get(&name).cloned())
        }
        other => (other, None),
    };
    Entries {
        status: read.as_ref().map(|log| log.status),
        operations: read.map_or(Vec::new(), |log| log.operations).into_iter().map(alike).collect(),
    }
}

fn names(folder: &Path) -> Vec<String> {
    let Ok(entries) = fs::read_dir(folder) else { return Vec::new() };
    let mut names: Vec<String> = entries.map(|entry| entry.unwrap().file_name().to_string_lossy().into_owned()).collect();
    names.sort();
    names
}

fn files(folder: &Path) -> Option<BTreeMap<String, Vec<u8>>> {
    folder.is_dir().then(|| names(folder).into_iter().map(|name| (name.clone(), fs::read(folder.join(name)).unwrap())).collect())
}
