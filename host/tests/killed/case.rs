//! A store's files before a transaction, and what the transaction records.
use crate::common::{Random, Tree};
use cda_store::Transaction;
use std::collections::{BTreeMap, BTreeSet};

const COLLECTIONS: [&str; 3] = ["db", "fonts", "x"];
const KEYS: [&str; 6] = ["a", "b.odx", "c", "long.name", "k5", "_"];

/// A key that can be written, but where it stands its backup name is over 64 bytes, and the commit fails (refusal 14).
const LONG: &str = "a-key-of-62-bytes-for-which-no-backup-name-is-left-in-64-bytes";

/// The most files of a store. A commit that needs another fails (refusal 15).
const FILE_LIMIT: usize = 128;

pub struct Case {
    pub before: Tree,
    operations: Vec<Operation>,
    /// Whether they are those of the update rotation.
    pub is_rotation: bool,
}

enum Operation {
    Write(&'static str, &'static str, Vec<u8>),
    Delete(&'static str, &'static str),
    DeleteAll(&'static str),
    Create(&'static str),
    DeleteCollection(&'static str),
    Copy(&'static str, &'static str),
}

impl Case {
    /// Every third case has operations of all kinds, and a fifth of these are rotations. The others are puts within the cut rule's conditions: distinct keys,
    /// collections that stand, no name in .bak or .tmp. Some of them fail, and some find the store full or nearly so.
    pub fn new(seed: u64, number: u64) -> Case {
        let random = &mut Random::new(seed, number);
        let mut before = files_before(random);
        if number % 15 == 8 {
            return Case::rotation(random, before, number % 60 == 23);
        }
        if number % 3 == 2 {
            return Case { before, operations: any_operations(random), is_rotation: false };
        }
        let mut operations = distinct_writes(random, &before);
        if number % 15 == 4 {
            before.entry("db".into()).or_default().insert(LONG.into(), random.bytes(300));
            operations.insert(random.below(operations.len() as u64 + 1) as usize, Operation::Write("db", LONG, random.bytes(300)));
        }
        if number % 60 == 7 {
            fill(&mut before, FILE_LIMIT - random.below(3) as usize);
        }
        Case { before, operations, is_rotation: false }
    }

    /// The update rotation of current and next, with and without a backup, beside other collections. In a store that is nearly full it is
    /// refused (15).
    fn rotation(random: &mut Random, mut before: Tree, is_full: bool) -> Case {
        let mut files = |most| (0..=random.below(most)).map(|i| (KEYS[i as usize].to_string(), random.bytes(300))).collect();
        before.insert("current".into(), files(4));
        before.insert("next".into(), files(6));
        if before.len() % 2 == 0 {
            before.insert("backup".into(), files(3));
        }
        if is_full {
            fill(&mut before, FILE_LIMIT - 1);
        }
        let operations =
            vec![Operation::Copy("current", "backup"), Operation::Copy("next", "current"), Operation::DeleteCollection("next")];
        Case { before, operations, is_rotation: true }
    }

    /// What a rotation leaves: current's files in backup, next's in current, and next is gone.
    fn rotated(&self) -> Tree {
        let mut tree = self.before.clone();
        let next = tree.remove("next").unwrap_or_default();
        let current = tree.insert("current".into(), next).unwrap_or_default();
        tree.insert("backup".into(), current);
        tree
    }

    /// Whether the transaction is within the cut rule's conditions.
    pub fn is_within(&self) -> bool {
        self.is_rotation || self.puts().is_some()
    }

    /// The puts, by collection and key, where the transaction is within the cut rule's conditions.
    pub fn puts(&self) -> Option<BTreeMap<(&str, &str), &[u8]>> {
        let puts = self.operations.iter().map(|operation| match operation {
            Operation::Write(collection, key, content) => Some(((*collection, *key), &content[..])),
            _ => None,
        });
        let puts: BTreeMap<_, _> = puts.collect::<Option<_>>()?;
        let within = puts.len() == self.operations.len() && puts.keys().all(|(collection, _)| self.before.contains_key(*collection));
        within.then_some(puts)
    }

    /// The files that a transaction of puts, or a rotation, leaves, by the rule: those from before where the log stood at the kill or the
    /// commit fails, else those with all writes done, or rotated.
    pub fn expected(&self, stood_or_fails: bool) -> Option<Tree> {
        if self.is_rotation {
            return Some(if stood_or_fails { self.before.clone() } else { self.rotated() });
        }
        let (puts, mut tree) = (self.puts()?, self.before.clone());
        for ((collection, key), content) in puts.into_iter().filter(|_| !stood_or_fails) {
            tree.get_mut(collection)?.insert(key.to_string(), content.to_vec());
        }
        Some(tree)
    }

    /// The keys that a transaction of puts writes and that were there before.
    pub fn standing(&self) -> Vec<(&str, &str)> {
        let stood = |(collection, key): &(&str, &str)| self.before[*collection].contains_key(*key);
        self.puts().into_iter().flat_map(BTreeMap::into_keys).filter(stood).collect()
    }

    /// The steps of a transaction of puts that commits, where no staging file is left over: 6, one for each put, two more for each
    /// key that was there, one for each collection.
    pub fn steps(&self) -> Option<usize> {
        let puts = self.puts()?;
        let collections: BTreeSet<&str> = puts.keys().map(|(collection, _)| *collection).collect();
        Some(6 + puts.len() + 2 * self.standing().len() + collections.len())
    }

    /// Records the operations; a refused one is left out.
    pub fn record(&self, transaction: &mut Transaction) {
        for operation in &self.operations {
            let _ = match operation {
                Operation::Write(collection, key, content) => transaction.write(collection, key, &content[..]),
                Operation::Delete(collection, key) => transaction.delete(collection, key),
                Operation::DeleteAll(collection) => transaction.delete_all(collection),
                Operation::Create(collection) => transaction.create_collection(collection),
                Operation::DeleteCollection(collection) => transaction.delete_collection(collection),
                Operation::Copy(source, destination) => transaction.copy_collection(source, destination),
            };
        }
    }
}

fn files_before(random: &mut Random) -> Tree {
    let mut tree = Tree::from([("db".to_string(), BTreeMap::new())]);
    for collection in COLLECTIONS {
        if random.below(2) == 0 {
            let keys = KEYS.iter().filter(|_| random.below(2) == 0).collect::<Vec<_>>();
            tree.insert(collection.to_string(), keys.into_iter().map(|key| (key.to_string(), random.bytes(300))).collect());
        }
    }
    tree
}

/// Adds small files until so many stand.
fn fill(tree: &mut Tree, most: usize) {
    let standing: usize = tree.values().map(BTreeMap::len).sum();
    let files = (standing..most).map(|i| (format!("f{i}"), vec![i as u8]));
    tree.entry("db".into()).or_default().extend(files);
}

fn distinct_writes(random: &mut Random, before: &Tree) -> Vec<Operation> {
    let collections: Vec<&'static str> = COLLECTIONS.into_iter().filter(|collection| before.contains_key(*collection)).collect();
    let keys: BTreeSet<_> = (0..=random.below(4)).map(|_| (random.pick(&collections), random.pick(&KEYS))).collect();
    keys.into_iter().map(|(collection, key)| Operation::Write(collection, key, random.bytes(300))).collect()
}

fn any_operations(random: &mut Random) -> Vec<Operation> {
    let mut operations = Vec::new();
    for _ in 0..=random.below(4) {
        let (collection, key) = (random.pick(&COLLECTIONS), random.pick(&KEYS));
        operations.push(match random.below(8) {
            0..=2 => Operation::Write(collection, key, random.bytes(300)),
            3 => Operation::Delete(collection, key),
            4 => Operation::DeleteAll(collection),
            5 => Operation::Create(collection),
            6 => Operation::DeleteCollection(collection),
            _ => Operation::Copy(collection, random.pick(&COLLECTIONS)),
        });
    }
    operations
}
