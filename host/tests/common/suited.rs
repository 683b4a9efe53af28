//! Transactions of which every cut leaves the earlier files or the later ones: the places that two operations change are apart, written
//! collections stand, and no name ends in .bak or .tmp. A place is a key, or a whole collection.
use super::{Random, Tree};
use cda_store::{StoreError, Transaction};
use std::collections::BTreeMap;

const COLLECTIONS: [&str; 4] = ["backup", "current", "db", "next"];
const ALL: [&str; 6] = ["a", "b.odx", "c", "long.name", "_", LONG];

/// A key that can be written, but where it stands its backup name is over 64 bytes, and the commit is refused (14).
const LONG: &str = "a-key-of-62-bytes-for-which-no-backup-name-is-left-in-64-bytes";

#[derive(Clone, Debug)]
pub enum Operation {
    Write(String, String, Vec<u8>),
    Delete(String, String),
    DeleteAll(String),
    Create(String),
    DeleteCollection(String),
    Copy(String, String),
}

/// Files before a transaction.
pub fn files(random: &mut Random) -> Tree {
    let mut tree = Tree::new();
    for collection in COLLECTIONS {
        if random.below(4) > 0 {
            let keys: Vec<&str> = ALL.into_iter().filter(|key| random.below(if *key == LONG { 8 } else { 2 }) == 0).collect();
            tree.insert(collection.to_string(), keys.into_iter().map(|key| (key.to_string(), random.bytes(12))).collect());
        }
    }
    tree
}

/// The operations of a transaction upon these files: Writes alone, or the rotation, or any.
pub fn operations(random: &mut Random, tree: &Tree) -> Vec<Operation> {
    match random.below(4) {
        0 | 1 => writes(random, tree),
        2 if ["current", "next"].iter().all(|name| tree.contains_key(*name)) => rotation(),
        _ => any(random, tree),
    }
}

/// Copies current to backup and next to current, and deletes next.
fn rotation() -> Vec<Operation> {
    let copy = |from: &str, to: &str| Operation::Copy(from.into(), to.into());
    vec![copy("current", "backup"), copy("next", "current"), Operation::DeleteCollection("next".into())]
}

/// Writes of distinct keys; now and then one that makes the commit be refused, where that key stands.
pub fn writes(random: &mut Random, tree: &Tree) -> Vec<Operation> {
    let mut operations = Vec::new();
    for collection in tree.keys() {
        let keys: Vec<&str> = ALL.into_iter().filter(|key| random.below(if *key == LONG { 12 } else { 3 }) == 0).collect();
        operations.extend(keys.into_iter().map(|key| Operation::Write(collection.clone(), key.to_string(), random.bytes(12))));
    }
    operations
}

/// Writes and deletions of distinct keys in collections that stand; now and then the commit is refused.
pub fn in_place(random: &mut Random, tree: &Tree) -> Vec<Operation> {
    let mut operations = Vec::new();
    for (name, files) in tree {
        match random.below(5) {
            0 => operations.push(Operation::DeleteAll(name.clone())),
            1 => {}
            _ => operations.extend(on_keys(random, name, files)),
        }
    }
    operations
}

/// Deletions of some keys of a collection, and Writes of others.
fn on_keys(random: &mut Random, name: &str, files: &BTreeMap<String, Vec<u8>>) -> Vec<Operation> {
    let deleted = files.keys().filter(|_| random.below(3) == 0).cloned().collect::<Vec<_>>();
    let new = writes(random, &[(name.to_string(), Default::default())].into());
    let apart = |operation: &Operation| !matches!(operation, Operation::Write(_, key, _) if deleted.contains(key));
    let deletions = deleted.iter().map(|key| Operation::Delete(name.to_string(), key.clone()));
    new.into_iter().filter(apart).chain(deletions).collect()
}

/// For each collection some operations on its keys, or one on the whole of it.
fn any(random: &mut Random, tree: &Tree) -> Vec<Operation> {
    let mut operations = Vec::new();
    for name in COLLECTIONS.map(str::to_string) {
        let source = random.pick(&COLLECTIONS).to_string();
        match (random.below(6), tree.get(&name)) {
            (0, _) if source != name && tree.contains_key(&source) => operations.push(Operation::Copy(source, name)),
            (1, None) => operations.push(Operation::Create(name)),
            (2, _) => operations.push(Operation::DeleteAll(name)),
            (3, Some(_)) => operations.push(Operation::DeleteCollection(name)),
            (4 | 5, Some(files)) => operations.extend(on_keys(random, &name, files)),
            _ => {}
        }
    }
    operations
}

/// Records the operations.
pub fn record(operations: &[Operation], transaction: &mut Transaction) -> Result<(), StoreError> {
    operations.iter().try_for_each(|operation| match operation {
        Operation::Write(collection, key, content) => transaction.write(collection, key, &content[..]),
        Operation::Delete(collection, key) => transaction.delete(collection, key),
        Operation::DeleteAll(collection) => transaction.delete_all(collection),
        Operation::Create(collection) => transaction.create_collection(collection),
        Operation::DeleteCollection(collection) => transaction.delete_collection(collection),
        Operation::Copy(source, destination) => transaction.copy_collection(source, destination),
    })
}
