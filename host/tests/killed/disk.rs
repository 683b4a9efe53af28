//! A store on disk, by the contents of its files.
use crate::common::{Tree, contents, tree};
use cda_store::{Contents, Files};
use std::{
    collections::BTreeMap,
    fs,
    path::{Path, PathBuf},
};

#[derive(Clone, PartialEq, Debug, Default)]
pub struct Disk {
    pub tree: Tree,
    pub staging: BTreeMap<String, Vec<u8>>,
    pub log: Option<Vec<u8>>,
}

/// The contents behind the numbers of an image.
pub type ByNumber = BTreeMap<u32, Vec<u8>>;

impl Disk {
    pub fn at_rest(tree: Tree) -> Disk {
        Disk { tree, ..Disk::default() }
    }

    pub fn read(root: &Path) -> Disk {
        Disk { tree: tree(root), staging: contents(&staging(root)), log: fs::read(log(root)).ok() }
    }

    /// What an image says, with the files' contents in the numbers' place.
    pub fn of(image: &Contents, by_number: &ByNumber) -> Disk {
        let named = |files: &Files| files.iter().map(|(name, number)| (name.clone(), by_number[number].clone())).collect();
        let tree = image.directories.iter().map(|(directory, files)| (directory.clone(), named(files))).collect();
        Disk { tree, staging: named(&image.staging), log: image.log.clone() }
    }

    /// Makes the store be this one. What stands so already stays: making and removing files is what takes long.
    pub fn lay_out(&self, root: &Path) {
        let gone = tree(root).into_keys().filter(|collection| !self.tree.contains_key(collection));
        gone.for_each(|collection| fs::remove_dir_all(directory(root, &collection)).unwrap());
        self.tree.iter().for_each(|(collection, files)| fill(&directory(root, collection), files));
        fill(&staging(root), &self.staging);
        match &self.log {
            Some(bytes) => fs::write(log(root), bytes).unwrap(),
            None => drop(fs::remove_file(log(root))),
        }
    }

    /// Whether the log says Committing.
    pub fn is_committing(&self) -> bool {
        self.log.as_ref().is_some_and(|log| log.get(1) == Some(&1))
    }

    pub fn has(&self, collection: &str, key: &str) -> bool {
        self.tree.get(collection).is_some_and(|files| files.contains_key(key))
    }

    /// Whether a key stands without a backup while the log says Committing: from an old log, recovery would remove it.
    pub fn waits(&self, collection: &str, key: &str) -> bool {
        self.is_committing() && self.has(collection, key) && !self.has(collection, &format!("{key}.bak"))
    }
}

/// The contents behind the numbers of an image that stands on this disk.
pub fn by_number(image: &Contents, root: &Path) -> ByNumber {
    let mut all = ByNumber::new();
    let mut add = |files: &Files, folder: PathBuf| {
        files.iter().for_each(|(name, number)| drop(all.insert(*number, fs::read(folder.join(name)).unwrap())));
    };
    image.directories.iter().for_each(|(name, files)| add(files, directory(root, name)));
    add(&image.staging, staging(root));
    all
}

fn directory(root: &Path, collection: &str) -> PathBuf {
    root.join("collections").join(collection)
}

fn staging(root: &Path) -> PathBuf {
    root.join("journal/staging")
}

fn log(root: &Path) -> PathBuf {
    root.join("journal/transaction.wal")
}

/// Makes a folder hold these files and no others.
fn fill(folder: &Path, files: &BTreeMap<String, Vec<u8>>) {
    fs::create_dir_all(folder).unwrap();
    let stands = contents(folder);
    stands.keys().filter(|name| !files.contains_key(*name)).for_each(|name| fs::remove_file(folder.join(name)).unwrap());
    let other = files.iter().filter(|(name, content)| stands.get(*name) != Some(content));
    other.for_each(|(name, content)| fs::write(folder.join(name), content).unwrap());
}
