//! A held commit, a keep and a revert killed after every step, and all three at any moment.
use crate::{
    child::{here, killed, killed_meanwhile, recover, say, stand_still_at},
    common::{Random, Tree},
    disk::Disk,
    moments::generation,
    seen::{Count, Wrong},
    steps::{Recorded, commit_killed},
};
use cda_store::{FileStore, Image, Plan, scan};
use std::{fmt, path::Path, time::Duration};

#[derive(Default)]
pub struct Seen {
    updates: Count,
    holds: Count,
    keeps: Count,
    reverts: Count,
    moments: Count,
    still_held: Count,
    pub wrong: Wrong,
}

impl fmt::Display for Seen {
    fn fmt(&self, f: &mut fmt::Formatter) -> fmt::Result {
        let Seen { updates, holds, keeps, reverts, moments, still_held, .. } = self;
        writeln!(f, "  held, after every step: {holds} kills of holds, {keeps} of keeps, {reverts} of reverts, of {updates} updates")?;
        write!(f, "  held, at any moment: {moments} kills, {still_held} of them left the update held")
    }
}

/// The child: keeps or reverts the held update, and stands still behind step m.
pub fn child(root: &str, plan: Plan, m: u64) {
    let store = FileStore::open_observed(root, stand_still_at(plan, m)).unwrap();
    end(&store, plan == Plan::Keep);
    panic!("there is no step {m}");
}

/// A transaction that commits is held, and killed behind each step; the held update is kept and reverted, and these are killed behind each
/// step. The disk is what the port's step entry says. Opened again, it is what the port's recovery says; of a revert what the port's revert says,
/// since the next open ends it, and of puts that is the store from before.
pub fn every_step(seen: &Seen, root: &Path, recorded: &Recorded, seed: u64, number: u64) {
    if recorded.fails {
        return;
    }
    seen.updates.add(true);
    let (image, held) = (&recorded.image, recorded.image.hold().unwrap());
    for n in 0..=steps(image, Plan::Hold) {
        assert_eq!(commit_killed(root, &recorded.case, Plan::Hold, seed, number, n), *image);
        let cut = image.step(Plan::Hold, n).unwrap().0;
        opened(seen, root, recorded, &cut, &cut.recover().unwrap().image, || format!("step {n} of a hold"));
        seen.holds.add(true);
        let is_rule =
            |disk: Disk| if cut.is_held().unwrap() { recorded.disk(&held) == disk } else { recorded.expected(true) == Some(disk) };
        let holds = recorded.case.puts().is_none() || is_rule(Disk::read(root));
        seen.wrong.unless(holds, || format!("{}, step {n} of a hold", recorded.name));
    }
    for (plan, count) in [(Plan::Keep, &seen.keeps), (Plan::Revert, &seen.reverts)] {
        for m in 0..=steps(&held, plan) {
            recorded.disk(&held).lay_out(root);
            let word = if plan == Plan::Keep { "keep" } else { "revert" };
            killed(&[word.to_string(), root.display().to_string(), m.to_string()], Duration::ZERO);
            let cut = held.step(plan, m).unwrap().0;
            let ends_revert = plan == Plan::Revert && cut.is_held().unwrap();
            let end = if ends_revert { cut.revert() } else { cut.recover() }.unwrap().image;
            opened(seen, root, recorded, &cut, &end, || format!("step {m} of a {word}"));
            count.add(true);
            let before = recorded.expected(true).filter(|_| plan == Plan::Revert);
            let holds = before.is_none_or(|before| before == Disk::read(root));
            seen.wrong.unless(holds, || format!("{}, step {m} of a revert of puts", recorded.name));
        }
    }
}

fn steps(image: &Image, plan: Plan) -> u64 {
    image.steps(plan).count() as u64
}

/// The disk is that of the image at the cut; opened, it is that of the end.
fn opened(seen: &Seen, root: &Path, recorded: &Recorded, cut: &Image, end: &Image, at: impl Fn() -> String) {
    let at = || format!("{}, {}", recorded.name, at());
    seen.wrong.unless(Disk::read(root) == recorded.disk(cut), || format!("{}: the disk", at()));
    recover(root);
    seen.wrong.unless(Disk::read(root) == recorded.disk(end), at);
}

/// The child: holds one generation of twelve keys after another, keeps each second one and reverts the others, and says each hold and each end.
pub fn moments_child(root: &str, seed: u64) {
    let store = FileStore::open(root).unwrap();
    here();
    for number in 1.. {
        let mut open = store.begin().unwrap();
        for (collection, files) in generation(seed, number) {
            files.iter().for_each(|(key, content)| open.write(&collection, key, &content[..]).unwrap());
        }
        open.hold().unwrap();
        say("held");
        end(&store, is_kept(number));
        say("ended");
    }
}

fn end(store: &FileStore, keep: bool) {
    match keep {
        true => store.keep().unwrap(),
        false => assert_eq!(store.revert().unwrap(), None),
    }
}

fn is_kept(number: u64) -> bool {
    number.is_multiple_of(2)
}

/// The keys are those of the last generation that was kept, or of the next one, all of them; or that is held, and can be kept and reverted.
pub fn moments_killed(seen: &Seen, root: &Path, seed: u64) {
    Disk::at_rest(generation(seed, 0)).lay_out(root);
    let words = ["holding".to_string(), root.display().to_string(), seed.to_string()];
    let said = killed_meanwhile(&words, Random::new(seed, 98).below(4_000) as f64 / 1_000.0).len() as u64;
    let (number, answered) = (said / 2 + 1, said % 2 == 1);
    let (before, next) = (generation(seed, (number - 1) / 2 * 2), generation(seed, number));
    recover(root);
    let store = FileStore::open(root).unwrap();
    let (left, held) = (Disk::read(root), store.is_held().unwrap());
    seen.moments.add(true);
    seen.still_held.add(held);
    let is = |tree: &Tree| !held && left == Disk::at_rest(tree.clone());
    let holds = held || if answered && is_kept(number) { is(&next) } else { is(&before) };
    // What is held is ended, this way or that.
    let keep = seed.is_multiple_of(2);
    if held {
        end(&store, keep);
    }
    let end = Disk::read(root);
    let holds = holds && (!held || end == Disk::at_rest(if keep { next } else { before }));
    seen.wrong.unless(holds, || format!("held at any moment, seed {seed}, {said} said: {:?}", scan(root)));
}
