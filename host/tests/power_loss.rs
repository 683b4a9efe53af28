//! The power lost at every file call of a transaction, and again in the recoveries that follow, on the disk of `common::memory`, which
//! keeps no more than was synced. What is left in the end is exactly the earlier files or exactly the later ones.
//!
//! Of Writes and deletions of keys the disk loses exactly what the model of crates/power/specs/Loss.antt lets be lost. With
//! `POWER_LOSS=1000` so many transactions of them are run instead of the gate's.
mod common;

use cda_store::{FileStore, Plan as Steps, Step, StoreError};
use common::{
    Random, Tree,
    loss::Stood,
    memory::{Memory, Plan, ROOT},
    suited::{self, Operation},
};
use std::{
    collections::BTreeSet,
    env,
    sync::{
        Arc,
        atomic::{AtomicBool, Ordering},
    },
    thread,
};

/// How far a transaction came.
#[derive(Clone, Copy, PartialEq, Eq, PartialOrd, Ord, Debug)]
enum End {
    /// The commit was not called.
    Recording,
    /// It did not come to its 0x2E, or it was refused.
    Committing,
    /// Its 0x2E was done.
    Kept,
    Committed,
}

fn open(memory: &Memory) -> Result<FileStore, StoreError> {
    FileStore::open_with(memory.clone(), ROOT, |_| {})
}

/// Opens the store and commits the operations. By hand the plan is carried out even where the commit is refused: it is rolled back then.
fn run(memory: &Memory, operations: &[Operation], by_hand: bool) -> End {
    let kept = Arc::new(AtomicBool::new(false));
    let seen = kept.clone();
    let observed = FileStore::open_with(memory.clone(), ROOT, move |event| {
        seen.fetch_or(event.done && event.plan == Steps::Commit && *event.step == Step::SyncJournal, Ordering::Relaxed);
    });
    let Ok(store) = observed else { return End::Recording };
    let Ok(mut transaction) = store.begin() else { return End::Recording };
    if suited::record(operations, &mut transaction).is_err() {
        return End::Recording;
    }
    memory.commit_starts();
    if by_hand && transaction.image().commit().is_err() {
        let image = transaction.image().clone();
        std::mem::forget(transaction);
        let _ = image.commit_steps().try_for_each(|stepped| store.layout().carry_out(&stepped?));
        return End::Committing;
    }
    match transaction.commit() {
        Ok(()) => End::Committed,
        Err(_) if kept.load(Ordering::Relaxed) => End::Kept,
        Err(_) => End::Committing,
    }
}

#[derive(Clone, Copy, Default, Debug)]
struct Seen {
    transactions: u64,
    refused: u64,
    losses: u64,
    kills: u64,
    again: u64,
    earlier: u64,
    later: u64,
}

/// The process ends, and mostly the power with it: as in the model, or with more lost.
fn stop(memory: &Memory, model: bool, random: &mut Random, seen: &mut Seen) {
    if random.below(5) == 0 {
        seen.kills += 1;
        return;
    }
    seen.losses += 1;
    if !model {
        return memory.lose_more(random);
    }
    let history = memory.history();
    memory.lose(&mut |count| common::memory::some(0, count - 1, random));
    let (found, survives) = (memory.stood(), |found| history.as_ref().is_none_or(|history| history.survives(found)));
    assert!(survives(&found), "the model does not let this be found: {found:?}\n{history:?}");
}

/// Recoveries that are stopped at any call, then one that runs to its end: the files that are left.
fn recovered(memory: &Memory, model: bool, random: &mut Random, seen: &mut Seen) -> Result<Tree, StoreError> {
    while random.below(2) == 0 {
        let whole = memory.apart();
        whole.plan(Plan::Go);
        open(&whole)?;
        memory.plan(Plan::End(random.below(whole.calls() + 1)));
        let _ = open(memory);
        stop(memory, model, random, seen);
        seen.again += 1;
    }
    memory.plan(Plan::Go);
    open(memory)?;
    assert_eq!(memory.journal(), [""; 0], "no log and no staging file");
    Ok(memory.tree())
}

/// The calls at which a run can be stopped.
fn stops(made: &[&'static str]) -> impl Iterator<Item = u64> {
    (0..=made.len()).filter(|n| made.get(*n).is_none_or(|name| !["list", "read"].contains(name))).map(|n| n as u64)
}

/// One case: a transaction that runs to its end, and one that is stopped at each of its calls.
fn case(number: u64, each: u64, model: bool, seen: &mut Seen) {
    let random = &mut Random::new(if model { 2 } else { 1 }, number);
    let operations = if model { suited::in_place } else { suited::operations };
    let files = suited::files(random);
    let (before, by_hand) = (Memory::with(&files), number / 2 % 2 == 0);
    if number % 2 == 1 {
        run(&before, &operations(random, &files), false);
        before.commit_ends();
    }
    let earlier = before.tree();
    let operations = operations(random, &earlier);
    let whole = before.apart();
    whole.plan(Plan::Go);
    let (end, later, made) = (run(&whole, &operations, by_hand), whole.tree(), whole.made());
    seen.transactions += 1;
    seen.refused += u64::from(end < End::Committed);
    for n in stops(&made) {
        let stopped = before.apart();
        stopped.plan(Plan::End(n));
        let came = run(&stopped, &operations, by_hand);
        for _ in 0..each {
            let left = stopped.apart();
            stop(&left, model, random, seen);
            let at = || format!("case {number}, {operations:?}\nupon {earlier:?}\nstopped at call {n} of {made:?}\n{left:?}");
            let tree = recovered(&left, model, random, seen).unwrap_or_else(|error| panic!("{error}: {}", at()));
            let (is_earlier, is_later) = (tree == earlier, tree == later);
            assert!(is_earlier && came < End::Kept || is_later && came > End::Recording, "{came:?}, {tree:?}: {}", at());
            assert!(end == came || came < End::Committed, "{}", at());
            seen.earlier += u64::from(is_earlier);
            seen.later += u64::from(is_later && !is_earlier);
        }
    }
}

/// Losses after each call.
const EACH: u64 = 6;

/// So many cases, by two threads.
fn cases(count: u64, model: bool) {
    let work = |first: u64| {
        let mut seen = Seen::default();
        (first..count).step_by(2).for_each(|number| case(number, EACH, model, &mut seen));
        seen
    };
    let [even, odd] = thread::scope(|scope| [0, 1].map(|first| scope.spawn(move || work(first))).map(|worker| worker.join().unwrap()));
    let sum = |of: fn(&Seen) -> u64| of(&even) + of(&odd);
    println!(
        "{} transactions, {} of them refused: {} losses of power and {} kills, {} of them in recoveries; {} left the earlier files, {} the later",
        sum(|seen| seen.transactions),
        sum(|seen| seen.refused),
        sum(|seen| seen.losses),
        sum(|seen| seen.kills),
        sum(|seen| seen.again),
        sum(|seen| seen.earlier),
        sum(|seen| seen.later)
    );
}

/// Writes and deletions of keys, on the model.
#[test]
fn a_loss_of_power_as_the_model_has_it_leaves_the_earlier_or_the_later_files() {
    cases(env::var("POWER_LOSS").map_or(100, |count| count.parse().expect("POWER_LOSS is a number of transactions")), true);
}

/// Operations of every kind, and more is lost.
#[test]
fn a_loss_of_power_leaves_the_earlier_or_the_later_files() {
    cases(140, false);
}

/// Every way in which the disk can lose its power now: what may be found, with a disk that has it.
fn every_loss(memory: &Memory) -> Vec<(Stood, Memory)> {
    let (mut found, mut choices): (Vec<_>, Vec<(usize, usize)>) = (Vec::new(), Vec::new());
    loop {
        let (left, mut at) = (memory.apart(), 0);
        left.lose(&mut |count| {
            if at == choices.len() {
                choices.push((0, count));
            }
            at += 1;
            choices[at - 1].0
        });
        found.push((left.stood(), left));
        while choices.last().is_some_and(|(choice, count)| choice + 1 == *count) {
            choices.pop();
        }
        match choices.last_mut() {
            Some((choice, _)) => *choice += 1,
            None => return found,
        }
    }
}

/// The disk of these tests against the model, on a small update and on one that is refused: at each call of the commit, and at each call of
/// a recovery behind each of these, the stores that may be found are the same. Each of them is recovered. Behind a recovery that had work and
/// has answered, no log is found.
#[test]
fn the_disk_loses_exactly_what_the_model_lets_be_lost() {
    let file = |key: &str, content: &[u8]| (key.to_string(), content.to_vec());
    let long = "a-key-of-62-bytes-for-which-no-backup-name-is-left-in-64-bytes";
    let write = |key: &str| Operation::Write("db".into(), key.into(), b"new".to_vec());
    let files = [("db".to_string(), [file("a", b"1"), file(long, b"2")].into()), ("fonts".to_string(), [file("f", b"3")].into())].into();
    let (mut stops_seen, mut losses, mut recoveries) = (0, 0, 0);
    for last in [write("b"), write(long)] {
        let operations = [write("a"), Operation::Delete("fonts".into(), "f".into()), last];
        let (before, whole) = (Memory::with(&files), Memory::with(&files));
        run(&whole, &operations, true);
        let (ends, mut recovered) = ([files.clone(), whole.tree()], BTreeSet::new());
        let mut look = |memory: &Memory| {
            let Some(history) = memory.history() else { return };
            let found = every_loss(memory);
            let stores: BTreeSet<_> = found.iter().map(|(stood, _)| stood.clone()).collect();
            assert_eq!(stores, history.all(), "{memory:?}");
            stops_seen += 1;
            losses += stores.len();
            for (stood, left) in found {
                if recovered.insert(stood) {
                    open(&left).unwrap();
                    assert!(ends.contains(&left.tree()), "{:?}: {memory:?}", left.tree());
                    recoveries += 1;
                }
            }
        };
        for n in stops(&whole.made()) {
            let stopped = before.apart();
            stopped.plan(Plan::End(n));
            run(&stopped, &operations, true);
            look(&stopped);
            let again = stopped.apart();
            again.plan(Plan::Go);
            open(&again).unwrap();
            for m in stops(&again.made()) {
                let stopped = stopped.apart();
                stopped.plan(Plan::End(m));
                let ended = open(&stopped).is_ok();
                look(&stopped);
                let has_worked = ended && stops(&again.made()).count() > 1;
                assert!(!has_worked || every_loss(&stopped).iter().all(|(found, _)| found.log.is_none()), "{stopped:?}");
            }
        }
    }
    println!(
        "at {stops_seen} calls the disk loses what the model lets be lost: {losses} stores, {recoveries} different ones, all recovered"
    );
}

/// A key that a deletion renames to its lowered name has it on the disk when the commit starts.
#[test]
fn a_key_that_was_renamed_is_kept_so() {
    let collection = |name: &str| (name.to_string(), [("A".to_string(), b"content".to_vec())].into());
    let files = Tree::from([collection("db"), collection("fonts")]);
    let operations = ["db", "fonts"].map(|name| Operation::Delete(name.into(), "a".into()));
    let (before, whole) = (Memory::with(&files), Memory::with(&files));
    assert_eq!(run(&whole, &operations, false), End::Committed);
    let lowered = files.keys().map(|name| (name.clone(), [("a".to_string(), b"content".to_vec())].into())).collect::<Tree>();
    for n in stops(&whole.made()) {
        let stopped = before.apart();
        stopped.plan(Plan::End(n));
        if run(&stopped, &operations, false) == End::Recording {
            continue;
        }
        for (found, left) in every_loss(&stopped) {
            open(&left).unwrap();
            assert!([&lowered, &whole.tree()].contains(&&left.tree()), "{:?} of {found:?}", left.tree());
        }
    }
}

/// A collection that was made outside a transaction is on the disk when that has answered.
#[test]
fn a_collection_that_was_made_is_kept() {
    let memory = Memory::with(&Tree::new());
    assert!(open(&memory).unwrap().make_collection("db").unwrap());
    every_loss(&memory).iter().for_each(|(found, _)| assert!(found.tree.contains_key("db")));
}

/// A file that was copied is whole on the disk when the commit has answered.
#[test]
fn a_copy_that_was_committed_is_kept() {
    let files = Tree::from([("db".to_string(), [("a".to_string(), b"content".to_vec())].into())]);
    let copied = Tree::from(["db", "new"].map(|name| (name.to_string(), files["db"].clone())));
    for number in 0..50 {
        let memory = Memory::with(&files);
        assert_eq!(run(&memory, &[Operation::Copy("db".into(), "new".into())], false), End::Committed);
        memory.lose_more(&mut Random::new(3, number));
        open(&memory).unwrap();
        assert_eq!(memory.tree(), copied);
    }
}
