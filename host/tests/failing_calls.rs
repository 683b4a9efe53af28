//! Every file call of a transaction, and of the recovery behind it, made to fail in turn, on the disk of `common::memory`. The next open
//! gives back exactly the files from before, or the later ones where the log was gone already.
mod common;

use cda_store::{FileStore, StoreError};
use common::{
    Random, Tree,
    memory::{Fault, Memory, Plan, ROOT},
    suited::{self, Operation},
};
use std::{collections::BTreeMap, path::Path, thread};

const EIO: i32 = 5;
const EACCES: i32 = 13;
const ENOSPC: i32 = 28;

fn open(memory: &Memory) -> Result<FileStore, StoreError> {
    FileStore::open_with(memory.clone(), ROOT, |_| {})
}

/// Whether the commit was begun and its log is gone.
fn is_later(memory: &Memory, answer: Result<Result<(), StoreError>, StoreError>) -> bool {
    let log_is_gone = !memory.journal().iter().any(|name| name == "transaction.wal");
    log_is_gone && answer.is_ok_and(|commit| !matches!(commit, Err(StoreError::Refused(_))))
}

/// Opens the store and commits the operations. Where the commit was called, it answers what it says.
fn run(memory: &Memory, operations: &[Operation]) -> Result<Result<(), StoreError>, StoreError> {
    let store = open(memory)?;
    let mut transaction = store.begin()?;
    suited::record(operations, &mut transaction)?;
    Ok(transaction.commit())
}

#[derive(Clone, Debug, Default)]
struct Seen {
    transactions: u64,
    later: u64,
    recoveries: u64,
    denied: u64,
    /// How often each call failed.
    failed: BTreeMap<&'static str, u64>,
}

impl Seen {
    fn add(&mut self, other: Seen) {
        self.transactions += other.transactions;
        self.later += other.later;
        self.recoveries += other.recoveries;
        self.denied += other.denied;
        other.failed.into_iter().for_each(|(call, count)| *self.failed.entry(call).or_default() += count);
    }
}

struct Case {
    before: Memory,
    earlier: Tree,
    later: Tree,
    operations: Vec<Operation>,
}

impl Case {
    /// Every second transaction has Writes alone.
    fn new(number: u64) -> Case {
        let random = &mut Random::new(2, number);
        let files = suited::files(random);
        let operations = if number.is_multiple_of(2) { suited::writes(random, &files) } else { suited::operations(random, &files) };
        Case { before: Memory::with(&files), earlier: files, later: Tree::new(), operations }
    }

    /// Fails every call once, in some way, and at the first cases in every way.
    fn every_call(&mut self, number: u64, seen: &mut Seen) {
        let whole = self.before.apart();
        let _ = run(&whole, &self.operations);
        self.later = whole.tree();
        seen.transactions += 1;
        let ways = [EIO, EACCES, ENOSPC].into_iter().flat_map(|error| [(error, Fault::Before), (error, Fault::Within)]);
        for (n, call) in whole.made().into_iter().enumerate() {
            if number.is_multiple_of(3) {
                self.denied(n as u64, [EIO, EACCES][n % 2], seen);
            }
            for (i, (error, fault)) in ways.clone().enumerate() {
                if number < 12 || i as u64 == (n as u64 + number) % 6 {
                    *seen.failed.entry(call).or_default() += 1;
                    self.failing(n as u64, error, fault, seen, number);
                }
            }
        }
    }

    fn failing(&self, n: u64, error: i32, fault: Fault, seen: &mut Seen, number: u64) {
        let at = || format!("case {number}, {:?}\nupon {:?}\ncall {n} failed with {error}, {fault:?}", self.operations, self.earlier);
        let memory = self.before.apart();
        memory.plan(Plan::Fail(n, error, fault));
        let answer = run(&memory, &self.operations);
        memory.plan(Plan::Go);
        let is_later = is_later(&memory, answer);
        let expected = if is_later { &self.later } else { &self.earlier };
        self.failing_recovery(&memory, n, expected, seen);
        open(&memory).unwrap_or_else(|error| panic!("{error}: {}", at()));
        assert_eq!((&memory.tree(), memory.journal()), (expected, Vec::new()), "{}", at());
        seen.later += u64::from(is_later);
    }

    /// From a call on nothing can be changed or synced in one collection, by a recovery neither; then it can.
    fn denied(&self, n: u64, error: i32, seen: &mut Seen) {
        let Some(collection) = self.earlier.keys().nth(n as usize % self.earlier.len().max(1)) else { return };
        let memory = self.before.apart();
        memory.plan(Plan::Deny(n, error, Path::new(ROOT).join("collections").join(collection)));
        let answer = run(&memory, &self.operations);
        let is_later = is_later(&memory, answer);
        let _ = open(&memory);
        memory.plan(Plan::Go);
        open(&memory).unwrap();
        let expected = if is_later { &self.later } else { &self.earlier };
        assert_eq!((&memory.tree(), memory.journal()), (expected, Vec::new()), "{:?}, {collection} from call {n} on", self.operations);
        seen.denied += 1;
    }

    /// A call of the recovery fails too, and the next one is right.
    fn failing_recovery(&self, memory: &Memory, n: u64, expected: &Tree, seen: &mut Seen) {
        let whole = memory.apart();
        open(&whole).unwrap();
        let again = memory.apart();
        again.plan(Plan::Fail(n % whole.calls(), EIO, if n.is_multiple_of(2) { Fault::Before } else { Fault::Within }));
        let _ = open(&again);
        again.plan(Plan::Go);
        open(&again).unwrap();
        assert_eq!(again.tree(), *expected, "{:?}", self.operations);
        seen.recoveries += 1;
    }
}

const CASES: u64 = 320;

#[test]
fn a_failing_call_leaves_the_earlier_or_the_later_files() {
    let work = |first: u64| {
        let mut seen = Seen::default();
        (first..CASES).step_by(2).for_each(|number| Case::new(number).every_call(number, &mut seen));
        seen
    };
    let mut all = Seen::default();
    thread::scope(|scope| [0, 1].map(|first| scope.spawn(move || work(first))).map(|worker| all.add(worker.join().unwrap())));
    let Seen { transactions, later, recoveries, denied, failed } = &all;
    println!(
        "{transactions} transactions: {} calls failed, {failed:?}; {later} left the later files, the others the earlier; {recoveries} recoveries \
         had a failing call too; {denied} times one collection was denied",
        failed.values().sum::<u64>()
    );
    for call in ["append", "copy", "fill", "list", "make_directory", "make_file", "overwrite", "remove_file", "rename", "sync", "write"] {
        assert!(failed.contains_key(call), "{call} failed");
    }
}
