//! A recovery killed after every step, and those that follow it after any step.
use crate::{
    child::{killed, recover, stand_still_at},
    common::Random,
    disk::Disk,
    seen::{Count, Wrong},
    steps::Recorded,
};
use cda_store::{FileStore, Image, Plan};
use std::{fmt, path::Path, time::Duration};

#[derive(Default)]
pub struct Seen {
    transactions: Count,
    earlier: Count,
    lists: Count,
    kills: Count,
    pub wrong: Wrong,
}

impl fmt::Display for Seen {
    fn fmt(&self, f: &mut fmt::Formatter) -> fmt::Result {
        let Seen { transactions, earlier, lists, kills, .. } = self;
        write!(
            f,
            "  recovery of puts, after every step and again: {kills} kills in {lists} lists, of {transactions} transactions; {earlier} lists \
             left the earlier files"
        )
    }
}

/// The most kills of recoveries before one runs to its end.
const MOST: u64 = 4;

/// The child: recovers the store, and stands still behind step m.
pub fn child(root: &str, m: u64) {
    FileStore::open_observed(root, stand_still_at(Plan::Recover, m)).unwrap();
    panic!("there is no step {m}");
}

/// A transaction of puts or a rotation, not refused, whose commit was killed behind one of its steps, as `every_step` has seen it: its recovery is killed
/// after each step. Then the next ones are killed after any step, until one runs to its end.
pub fn every_recovery(seen: &Seen, root: &Path, recorded: &Recorded, random: &mut Random) {
    if !recorded.case.is_within() || recorded.fails {
        return;
    }
    seen.transactions.add(true);
    let cuts: Vec<Image> = recorded.cuts().filter(|cut| steps(cut) > 0).collect();
    let cut = &cuts[random.below(cuts.len() as u64) as usize];
    for m in 0..=steps(cut) {
        recorded.disk(cut).lay_out(root);
        let mut killed = vec![m];
        let mut left = recovery_killed(root, recorded, cut, m);
        while (killed.len() as u64) < MOST && steps(&left) > 0 && random.below(3) > 0 {
            killed.push(random.below(steps(&left) + 1));
            left = recovery_killed(root, recorded, &left, killed[killed.len() - 1]);
        }
        recover(root);
        look(seen, recorded, cut, &killed, &Disk::read(root));
    }
}

fn steps(image: &Image) -> u64 {
    image.recover_steps().count() as u64
}

/// Kills the recovery of this image behind step m. The disk there is what the port says: the image of it.
fn recovery_killed(root: &Path, recorded: &Recorded, image: &Image, m: u64) -> Image {
    killed(&["recover".to_string(), root.display().to_string(), m.to_string()], Duration::ZERO);
    let left = image.recover_step(m).unwrap().0;
    assert_eq!(Disk::read(root), recorded.disk(&left), "{}, step {m} of a recovery", recorded.name);
    left
}

/// The store is the same as if the first recovery had run to its end, which is what the rule says.
fn look(seen: &Seen, recorded: &Recorded, cut: &Image, killed: &[u64], end: &Disk) {
    let first = recorded.disk(&cut.recover().unwrap().image);
    let expected = recorded.expected(cut.contents().log.is_some());
    seen.lists.add(true);
    seen.kills.add(killed.len());
    seen.earlier.add(end.tree == recorded.case.before);
    let holds = *end == first && expected.as_ref() == Some(end);
    seen.wrong.unless(holds, || format!("{}, recoveries killed behind their steps {killed:?}: {:?}", recorded.name, cut.contents()));
}
