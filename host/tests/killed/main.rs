//! The process killed (SIGKILL) on a real file system. A child, which is this program, works on a store; there it is killed.
//!
//! After every step of a commit (`steps`), by the contents of the files:
//!
//! - the disk is what the port's step entry says of n steps;
//! - the store, opened again, is what the port's recovery says of that image;
//! - a transaction of puts to distinct keys, in collections that stand, without names in .bak or .tmp, leaves exactly the files
//!   from before if the log stood, else exactly those with all writes done. No key that was there is lost. A commit that is
//!   refused has no step and leaves those from before; the others have as many steps as the sum of document 02, item 13, says;
//! - an update rotation leaves exactly the files from before if the log stood, else exactly the rotated ones.
//!
//! After every step of a recovery of such puts, whose commit was killed, and then after any step of the recoveries that follow
//! (`again`): the disk is what the port's step entry says, and once one recovery runs to its end, the store is the same as if the
//! first had.
//!
//! At any moment, also inside a step (`moments`):
//!
//! - of commits of new keys with a copy of their collection, one after another, each is there whole or not at all, none behind
//!   one that is not, and the copy is whole;
//! - of commits that put twelve standing keys again and again, all twelve are those of one commit, and none is lost; up to three
//!   recoveries are killed on the way;
//! - of update rotations, one after another, with up to three recoveries killed, each is there whole or not at all.
//!
//! Of every fourth transaction also (`held`): its held commit, and the keep and the revert of what is held, after every step: the disk is what the
//! port's step entries say, and the next open leaves the store from before, the held update or the later files; a revert is ended by it. And all
//! three at any moment.
//!
//! `killed TRANSACTIONS SEED` runs another number of transactions, from another seed.
mod again;
mod case;
mod child;
#[path = "../common/mod.rs"]
mod common;
mod disk;
mod held;
mod moments;
mod seen;
mod steps;

use case::Case;
use cda_store::Plan;
use common::{Folder, Random};
use seen::Wrong;
use std::{
    env, iter,
    sync::atomic::{AtomicU64, Ordering},
    thread,
    time::Instant,
};

/// Cases at a time; they mostly wait for the disk.
const WORKERS: usize = 8;

fn main() {
    let words: Vec<String> = env::args().skip(1).collect();
    let number = |i: usize| words.get(i).and_then(|word| word.parse::<u64>().ok());
    let given = |i: usize| number(i).expect("a number");
    match words.first().map(String::as_str) {
        Some("commit") => steps::child(&words[1], &Case::new(given(2), given(3)), Plan::Commit, given(4)),
        Some("hold") => steps::child(&words[1], &Case::new(given(2), given(3)), Plan::Hold, given(4)),
        Some("keep") => held::child(&words[1], Plan::Keep, given(2)),
        Some("revert") => held::child(&words[1], Plan::Revert, given(2)),
        Some("holding") => held::moments_child(&words[1], given(2)),
        Some("recover") => again::child(&words[1], given(2)),
        Some("recovering") => moments::recovering_child(&words[1]),
        Some("new") => moments::new_keys_child(&words[1], given(2)),
        Some("standing") => moments::standing_child(&words[1], given(2)),
        Some("rotating") => moments::rotating_child(&words[1], given(2)),
        _ => parent(number(0).unwrap_or(300), number(1).unwrap_or(1)),
    }
}

fn parent(transactions: u64, seed: u64) {
    let (started, next) = (Instant::now(), AtomicU64::new(0));
    let (steps, again, moments, held) = (steps::Seen::default(), again::Seen::default(), moments::Seen::default(), held::Seen::default());
    let work = || {
        let folder = Folder::new();
        let cases = iter::repeat_with(|| next.fetch_add(1, Ordering::Relaxed)).take_while(|number| *number < transactions);
        cases.for_each(|number| {
            let recorded = steps::every_step(&steps, &folder.0.join("steps"), seed, number);
            again::every_recovery(&again, &folder.0.join("steps"), &recorded, &mut Random::new(seed, number));
            if number % 4 == 0 {
                held::every_step(&held, &folder.0.join("steps"), &recorded, seed, number);
                held::moments_killed(&held, &folder.0.join("held"), seed + number / 4);
            }
            match number % 3 {
                1 => moments::rotations_killed(&moments, &folder.0.join("rotations"), seed + number),
                0 => moments::new_keys_killed(&moments, &folder.0.join("new"), seed + number),
                _ => moments::standing_killed(&moments, &folder.0.join("standing"), seed + number),
            }
        });
    };
    thread::scope(|scope| (0..WORKERS).for_each(|_| drop(scope.spawn(work))));
    println!("killed, seed {seed}:\n{steps}\n{again}\n{moments}\n{held}\n  {:.1} s", started.elapsed().as_secs_f64());
    assert_eq!((steps.lost.get(), moments.lost.get()), (0, 0), "lost keys that were there");
    [&steps.wrong, &again.wrong, &moments.wrong, &held.wrong].into_iter().for_each(Wrong::none);
}
