//! A held update, and its keep or revert, on the disk of `common::memory`: stopped at every file call, mostly with the power lost there and again
//! in the recoveries that follow, and with every file call made to fail in turn. What is left is exactly the earlier files, the held update or
//! exactly the later files, and what is still held can be kept and reverted: no part of a revert is left.
mod common;

use cda_store::{FileStore, StoreError};
use common::{
    Random, Tree,
    memory::{Fault, Memory, Plan, ROOT},
    suited::{self, Operation},
};
use std::thread;

/// How a held update is ended.
#[derive(Clone, Copy, PartialEq, Eq, Debug)]
enum Way {
    Keep,
    Revert,
}

/// How far a run came.
#[derive(Clone, Copy, PartialEq, Eq, Debug)]
enum Came {
    /// The hold was not called, or it was refused.
    Recording,
    /// It did not answer.
    Holding,
    /// It answered; the keep or revert did not.
    Ending,
    Ended,
}

fn open(memory: &Memory) -> Result<FileStore, StoreError> {
    FileStore::open_with(memory.clone(), ROOT, |_| {})
}

fn end(store: &FileStore, way: Way) -> Result<(), StoreError> {
    match way {
        Way::Keep => store.keep(),
        Way::Revert => store.revert().map(|_| ()),
    }
}

/// Opens the store, records the operations, and holds the update.
fn hold(memory: &Memory, operations: &[Operation]) -> Result<FileStore, Came> {
    let store = open(memory).map_err(|_| Came::Recording)?;
    let mut transaction = store.begin().map_err(|_| Came::Recording)?;
    suited::record(operations, &mut transaction).map_err(|_| Came::Recording)?;
    match transaction.hold() {
        Ok(()) => Ok(store),
        Err(StoreError::Refused(_)) => Err(Came::Recording),
        Err(_) => Err(Came::Holding),
    }
}

fn run(memory: &Memory, operations: &[Operation], way: Way) -> Came {
    match hold(memory, operations).map(|store| end(&store, way)) {
        Err(came) => came,
        Ok(Err(_)) => Came::Ending,
        Ok(Ok(())) => Came::Ended,
    }
}

#[derive(Clone, Copy, Default, Debug)]
struct Seen {
    updates: u64,
    losses: u64,
    kills: u64,
    again: u64,
    failed: u64,
    left: [u64; 3],
}

/// An update that is held, and what can come of it.
struct Case {
    before: Memory,
    operations: Vec<Operation>,
    way: Way,
    /// The earlier files, the held update's, the later ones.
    ends: [Tree; 3],
}

impl Case {
    /// None where the hold is refused.
    fn new(number: u64, random: &mut Random) -> Option<Case> {
        let files = suited::files(random);
        let (before, operations) = (Memory::with(&files), suited::operations(random, &files));
        let held = before.apart();
        let store = hold(&held, &operations).ok()?;
        let later = held.apart();
        end(&store, Way::Revert).unwrap();
        let (reverted, held) = (held.tree(), later.tree());
        assert_eq!((reverted, store.is_held().unwrap()), (files.clone(), false), "a revert gives the earlier files: {operations:?}");
        end(&open(&later).unwrap(), Way::Keep).unwrap();
        let way = [Way::Keep, Way::Revert][number as usize % 2];
        Some(Case { before, operations, way, ends: [files, held, later.tree()] })
    }

    /// The store is opened, and is as this run can leave it.
    fn look(&self, memory: &Memory, came: Came, seen: &mut Seen, at: &dyn Fn() -> String) {
        let store = open(memory).unwrap_or_else(|error| panic!("{error}: {}", at()));
        let held = store.is_held().unwrap();
        let end = if held { 1 } else { self.ends.iter().position(|end| *end == memory.tree()).unwrap_or_else(|| panic!("{}", at())) };
        assert_eq!(memory.tree(), self.ends[end], "{}", at());
        let may: &[usize] = match (came, self.way) {
            (Came::Recording, _) | (Came::Ended, Way::Revert) => &[0],
            (Came::Holding, _) | (Came::Ending, Way::Revert) => &[0, 1],
            (Came::Ending, Way::Keep) => &[1, 2],
            (Came::Ended, Way::Keep) => &[2],
        };
        let is = |end: usize| if end == 1 { held } else { !held && memory.tree() == self.ends[end] };
        assert!(may.iter().any(|end| is(*end)), "{came:?}: {}", at());
        assert_eq!(memory.journal().is_empty(), !held, "{}", at());
        seen.left[end] += 1;
        if held {
            drop(store);
            [(Way::Revert, 0), (Way::Keep, 2)].into_iter().for_each(|(way, left)| {
                let memory = memory.apart();
                self::end(&open(&memory).unwrap(), way).unwrap();
                assert_eq!((memory.tree(), memory.journal()), (self.ends[left].clone(), Vec::new()), "{way:?}: {}", at());
            });
        }
    }

    /// Stopped at each of its calls; recoveries that are stopped too.
    fn stopped(&self, random: &mut Random, seen: &mut Seen) {
        let whole = self.before.apart();
        whole.plan(Plan::Go);
        assert_eq!(run(&whole, &self.operations, self.way), Came::Ended);
        let made = whole.made();
        for n in (0..=made.len()).filter(|n| made.get(*n).is_none_or(|name| !["list", "read"].contains(name))) {
            let stopped = self.before.apart();
            stopped.plan(Plan::End(n as u64));
            let came = run(&stopped, &self.operations, self.way);
            for _ in 0..EACH {
                let left = stopped.apart();
                stop(&left, random, seen);
                let at =
                    || format!("{:?}\nupon {:?}, {:?}\nstopped at call {n} of {made:?}\n{left:?}", self.operations, self.ends[0], self.way);
                self.recoveries_stopped(&left, random, seen);
                left.plan(Plan::Go);
                self.look(&left, came, seen, &at);
            }
        }
    }

    fn recoveries_stopped(&self, memory: &Memory, random: &mut Random, seen: &mut Seen) {
        while random.below(2) == 0 {
            let whole = memory.apart();
            whole.plan(Plan::Go);
            open(&whole).unwrap();
            memory.plan(Plan::End(random.below(whole.calls() + 1)));
            let _ = open(memory);
            stop(memory, random, seen);
            seen.again += 1;
        }
    }

    /// Each of its calls fails in turn, in one of six ways.
    fn failing(&self, number: u64, seen: &mut Seen) {
        let whole = self.before.apart();
        whole.plan(Plan::Go);
        run(&whole, &self.operations, self.way);
        for n in 0..whole.calls() {
            let way = (n + number) as usize;
            let (error, fault) = ([5, 13, 28][way % 3], [Fault::Before, Fault::Within][way / 3 % 2]);
            let memory = self.before.apart();
            memory.plan(Plan::Fail(n, error, fault));
            let came = run(&memory, &self.operations, self.way);
            memory.plan(Plan::Go);
            let at = || format!("{:?}\nupon {:?}, {:?}\ncall {n} failed with {error}, {fault:?}", self.operations, self.ends[0], self.way);
            self.look(&memory, came, seen, &at);
            seen.failed += 1;
        }
    }
}

/// The process ends, and mostly the power with it.
fn stop(memory: &Memory, random: &mut Random, seen: &mut Seen) {
    if random.below(5) > 0 {
        memory.lose_more(random);
        seen.losses += 1;
    } else {
        seen.kills += 1;
    }
}

const CASES: u64 = 120;
/// Losses after each call.
const EACH: u64 = 4;

#[test]
fn a_held_update_is_held_kept_or_reverted_whole() {
    let work = |first: u64| {
        let mut seen = Seen::default();
        for number in (first..CASES).step_by(2) {
            let random = &mut Random::new(6, number);
            let Some(case) = Case::new(number / 2, random) else { continue };
            seen.updates += 1;
            case.stopped(random, &mut seen);
            case.failing(number, &mut seen);
        }
        seen
    };
    let [even, odd] = thread::scope(|scope| [0, 1].map(|first| scope.spawn(move || work(first))).map(|worker| worker.join().unwrap()));
    let sum = |of: fn(&Seen) -> u64| of(&even) + of(&odd);
    println!(
        "{} updates held, then kept or reverted: {} losses of power and {} kills, {} of them in recoveries, {} calls failed; {} left the earlier \
         files, {} the held update, {} the later files",
        sum(|seen| seen.updates),
        sum(|seen| seen.losses),
        sum(|seen| seen.kills),
        sum(|seen| seen.again),
        sum(|seen| seen.failed),
        sum(|seen| seen.left[0]),
        sum(|seen| seen.left[1]),
        sum(|seen| seen.left[2])
    );
}
