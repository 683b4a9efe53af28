//! Commits killed at any moment, also inside a step.
use crate::{
    child::{here, killed, killed_meanwhile, recover, say, stand_still},
    common::{Random, Tree},
    disk::Disk,
    seen::{Count, Wrong},
};
use cda_store::{FileStore, Rotation, scan};
use std::{collections::BTreeMap, fmt, path::Path, time::Duration};

#[derive(Default)]
pub struct Seen {
    new: Count,
    standing: Count,
    rotations: Count,
    committing: Count,
    waiting: Count,
    recoveries: Count,
    unfinished: Count,
    pub lost: Count,
    pub wrong: Wrong,
}

impl fmt::Display for Seen {
    fn fmt(&self, f: &mut fmt::Formatter) -> fmt::Result {
        let Seen { new, standing, rotations, committing, waiting, recoveries, unfinished, lost, .. } = self;
        writeln!(f, "  at any moment, new keys and copies: {new} kills")?;
        writeln!(f, "  at any moment, rotations: {rotations} kills")?;
        write!(
            f,
            "  at any moment, twelve standing keys put: {standing} kills, {committing} of them Committing, {waiting} with a key without a backup; \
             then {recoveries} kills of recoveries, {unfinished} of them before the end; lost: {lost}"
        )
    }
}

/// Lays out a store, runs a child on it, and kills it at any moment of its second commit, or of the third: how many it said.
fn killed_while(child: &str, root: &Path, tree: Tree, seed: u64) -> u64 {
    Disk::at_rest(tree).lay_out(root);
    let words = [child.to_string(), root.display().to_string(), seed.to_string()];
    killed_meanwhile(&words, Random::new(seed, 99).below(1_500) as f64 / 1_000.0).len() as u64
}

/// A content of less than so many bytes, quickly made.
fn content(random: &mut Random, length: u64) -> Vec<u8> {
    vec![random.next() as u8; random.below(length) as usize]
}

/// The new keys of a transaction, each with its content, in a store that has the earlier ones.
fn new_keys(seed: u64, transaction: u64) -> BTreeMap<String, Vec<u8>> {
    let random = &mut Random::new(seed, transaction);
    (0..=random.below(3)).map(|i| (format!("t{transaction}-{i}"), content(random, 100_000))).collect()
}

/// The most transactions of new keys; a store has at most 128 files, and each key stands in db, its copy and the old copy.
const NEW_KEYS: u64 = 10;

/// The child: commits transactions of new keys until it is killed, all but the first with a copy, and says each that is committed.
pub fn new_keys_child(root: &str, seed: u64) {
    let store = FileStore::open(root).unwrap();
    here();
    for transaction in 0..NEW_KEYS {
        let mut open = store.begin().unwrap();
        new_keys(seed, transaction).iter().for_each(|(key, content)| open.write("db", key, &content[..]).unwrap());
        if transaction > 0 {
            open.copy_collection("db", "copy").unwrap();
        }
        open.commit().unwrap();
        say("committed");
    }
    stand_still()
}

/// The new keys of so many transactions, and the copy.
fn with_new_keys(seed: u64, transactions: u64) -> Tree {
    let keys: BTreeMap<_, _> = (0..transactions).flat_map(|transaction| new_keys(seed, transaction)).collect();
    let collections = if transactions > 1 { &["copy", "db"][..] } else { &["db"] };
    collections.iter().map(|collection| (collection.to_string(), keys.clone())).collect()
}

/// What was committed stands, and the transaction behind it whole or not at all.
pub fn new_keys_killed(seen: &Seen, root: &Path, seed: u64) {
    let committed = killed_while("new", root, [("db".to_string(), BTreeMap::new())].into(), seed);
    recover(root);
    let left = Disk::read(root);
    let is = |transactions| left == Disk::at_rest(with_new_keys(seed, transactions));
    seen.new.add(true);
    seen.wrong.unless(is(committed) || is(committed + 1), || format!("new keys, seed {seed}: {:?}", scan(root)));
}

/// What stands after so many rotations; the next one may be prepared.
fn rotated(seed: u64, number: u64, is_prepared: bool) -> Tree {
    let of = |number: u64| generation(seed, number).remove("db").unwrap_or_default();
    let mut tree = Tree::from([("current".to_string(), of(number))]);
    if number > 0 {
        tree.insert("backup".into(), of(number - 1));
    }
    if is_prepared {
        tree.insert("next".into(), of(number + 1));
    }
    tree
}

/// The child: prepares one generation after another as next, and rotates it, and says each that is rotated.
pub fn rotating_child(root: &str, seed: u64) {
    let store = FileStore::open(root).unwrap();
    here();
    for number in 1.. {
        let mut open = store.begin().unwrap();
        generation(seed, number)["db"].iter().for_each(|(key, content)| open.write("next", key, &content[..]).unwrap());
        open.commit().unwrap();
        store.rotate(&Rotation::default()).unwrap();
        say("rotated");
    }
}

/// What was rotated stands, and the rotation behind it whole or not at all; so does what was prepared for it, but for an empty next, which a
/// Write to a missing collection may leave.
pub fn rotations_killed(seen: &Seen, root: &Path, seed: u64) {
    let done = killed_while("rotating", root, rotated(seed, 0, false), seed);
    recoveries_killed(seen, root, &mut Random::new(seed, 100));
    recover(root);
    let mut left = Disk::read(root);
    if left.tree.get("next").is_some_and(BTreeMap::is_empty) {
        left.tree.remove("next");
    }
    let is = |number, is_prepared| left == Disk::at_rest(rotated(seed, number, is_prepared));
    seen.rotations.add(true);
    let holds = is(done, false) || is(done, true) || is(done + 1, false);
    seen.wrong.unless(holds, || format!("rotations, seed {seed}, after {done}: {:?}", scan(root)));
}

/// The twelve keys of a generation, in two collections.
pub fn generation(seed: u64, number: u64) -> Tree {
    let random = &mut Random::new(seed, number);
    let mut keys = || (0..6).map(|i| (format!("k{i}"), content(random, 10_000))).collect();
    ["db", "fonts"].map(|collection| (collection.to_string(), keys())).into()
}

/// The child: puts one generation of the keys after another, each as one transaction, and says each that is committed.
pub fn standing_child(root: &str, seed: u64) {
    let store = FileStore::open(root).unwrap();
    here();
    for number in 1.. {
        let mut open = store.begin().unwrap();
        for (collection, files) in generation(seed, number) {
            files.iter().for_each(|(key, content)| open.write(&collection, key, &content[..]).unwrap());
        }
        open.commit().unwrap();
        say("committed");
    }
}

/// The child: recovers the store.
pub fn recovering_child(root: &str) {
    here();
    FileStore::open(root).unwrap();
    stand_still()
}

/// The longest time that a recovery runs before it is killed, in microseconds; some end before.
const RECOVERING: u64 = 10_000;

/// Kills up to three recoveries, one after another, at any moment.
fn recoveries_killed(seen: &Seen, root: &Path, random: &mut Random) {
    for _ in 0..random.below(4) {
        killed(&["recovering".to_string(), root.display().to_string()], Duration::from_micros(random.below(RECOVERING)));
        seen.recoveries.add(true);
        seen.unfinished.add(scan(root).unwrap().has_pending_work().unwrap());
    }
}

/// All twelve keys are of the last generation that was committed, or all are of the next one, where its log is gone.
pub fn standing_killed(seen: &Seen, root: &Path, seed: u64) {
    let committed = killed_while("standing", root, generation(seed, 0), seed);
    let killed = Disk::read(root);
    recoveries_killed(seen, root, &mut Random::new(seed, 100));
    recover(root);
    let left = Disk::read(root);
    let is = |number| left == Disk::at_rest(generation(seed, number));
    let keys =
        || generation(seed, 0).into_iter().flat_map(|(collection, files)| files.into_keys().map(move |key| (collection.clone(), key)));
    seen.standing.add(true);
    seen.committing.add(killed.is_committing());
    seen.waiting.add(keys().any(|(collection, key)| killed.waits(&collection, &key)));
    seen.lost.add(keys().filter(|(collection, key)| !left.has(collection, key)).count());
    let holds = is(committed) || killed.log.is_none() && is(committed + 1);
    seen.wrong.unless(holds, || format!("standing keys, seed {seed}: {:?}", scan(root)));
}
