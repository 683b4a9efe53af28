//! A commit killed after every step.
use crate::{
    case::Case,
    child::{here, killed, recover, say, stand_still, stand_still_at},
    disk::{ByNumber, Disk, by_number},
    seen::{Count, Wrong},
};
use cda_store::{FileStore, Image, Plan, StoreError};
use std::{fmt, path::Path, time::Duration};

#[derive(Default)]
pub struct Seen {
    transactions: Count,
    failing: Count,
    kills: Count,
    puts: Count,
    failing_puts: Count,
    put_kills: Count,
    earlier: Count,
    standing: Count,
    waiting: Count,
    rotations: Count,
    failing_rotations: Count,
    rotation_kills: Count,
    pub lost: Count,
    pub wrong: Wrong,
}

impl fmt::Display for Seen {
    fn fmt(&self, f: &mut fmt::Formatter) -> fmt::Result {
        let Seen { transactions, failing, kills, puts, failing_puts, put_kills, earlier, standing, waiting, lost, .. } = self;
        let Seen { rotations, failing_rotations, rotation_kills, .. } = self;
        writeln!(f, "  after every step: {kills} kills of {transactions} transactions, {failing} of them refused; all as the port says")?;
        writeln!(
            f,
            "  puts alone: {put_kills} kills of {puts} transactions, {failing_puts} of them refused, the others of as many steps as the sum says; \
             {earlier} left the earlier files"
        )?;
        writeln!(
            f,
            "  rotations: {rotation_kills} kills of {rotations}, {failing_rotations} of them refused; each before or rotated, whole"
        )?;
        write!(f, "  standing keys put: {standing} seen, {waiting} of them Committing and without a backup; lost: {lost}")
    }
}

/// The child: says the transaction's image, commits or holds it, and stands still behind step n. A commit that is refused has no step:
/// there it stands still behind the answer.
pub fn child(root: &str, case: &Case, plan: Plan, n: u64) {
    let store = FileStore::open_observed(root, stand_still_at(plan, n)).unwrap();
    let mut transaction = store.begin().unwrap();
    case.record(&mut transaction);
    say(&transaction.image().bytes().iter().map(|byte| format!("{byte:02x}")).collect::<String>());
    match if plan == Plan::Hold { transaction.hold() } else { transaction.commit() } {
        Err(StoreError::Refused(_)) => here(),
        _ => panic!("there is no step {n}"),
    }
    stand_still()
}

/// Lays out the case, kills its commit, held or not, behind step n, and hands back the transaction's image.
pub fn commit_killed(root: &Path, case: &Case, plan: Plan, seed: u64, number: u64, n: u64) -> Image {
    Disk::at_rest(case.before.clone()).lay_out(root);
    let child = if plan == Plan::Hold { "hold" } else { "commit" };
    let words = [child.to_string(), root.display().to_string()].into_iter().chain([seed, number, n].map(|word| word.to_string()));
    let said = killed(&words.collect::<Vec<_>>(), Duration::ZERO);
    let [hex] = &said[..] else { panic!("seed {seed}, case {number}, step {n}: the child said {said:?}") };
    let bytes = (0..hex.len()).step_by(2).map(|at| u8::from_str_radix(&hex[at..at + 2], 16).unwrap());
    Image::new(bytes.collect()).unwrap()
}

/// A case that was recorded: the transaction's image, the contents behind its numbers, and whether its commit fails.
pub struct Recorded {
    pub case: Case,
    pub image: Image,
    pub fails: bool,
    by_number: ByNumber,
    /// Which case it is.
    pub name: String,
}

impl Recorded {
    /// Lays out the case and records it.
    fn new(root: &Path, seed: u64, number: u64) -> Recorded {
        let case = Case::new(seed, number);
        let image = commit_killed(root, &case, Plan::Commit, seed, number, 0);
        let (fails, name) = (image.commit().is_err(), format!("seed {seed}, case {number}"));
        let mut recorded = Recorded { case, image, fails, by_number: ByNumber::new(), name };
        recorded.by_number = by_number(&recorded.cut(0).contents(), root);
        recorded
    }

    /// How many steps the commit has on disk: none if it is refused.
    fn steps(&self) -> u64 {
        if self.fails { 0 } else { self.image.commit_steps().count() as u64 }
    }

    /// What stands behind n steps of the commit. One that is refused is discarded.
    pub fn cut(&self, n: u64) -> Image {
        if self.fails { self.image.rollback().unwrap() } else { self.image.commit_step(n).unwrap().0 }
    }

    /// What stands behind each number of steps of the commit.
    pub fn cuts(&self) -> impl Iterator<Item = Image> {
        (0..=self.steps()).map(|n| self.cut(n))
    }

    /// What an image of the transaction says of the disk.
    pub fn disk(&self, image: &Image) -> Disk {
        Disk::of(&image.contents(), &self.by_number)
    }

    /// What the rule says that recovery leaves, if the transaction is within its conditions.
    pub fn expected(&self, log_stood: bool) -> Option<Disk> {
        self.case.expected(log_stood || self.fails).map(Disk::at_rest)
    }
}

/// One case: kills at every step, and looks at what each left.
pub fn every_step(seen: &Seen, root: &Path, seed: u64, number: u64) -> Recorded {
    let recorded = Recorded::new(root, seed, number);
    let Recorded { case, image, fails, .. } = &recorded;
    let (is_puts, steps) = (case.puts().is_some(), recorded.steps());
    assert!(*fails || case.steps().is_none_or(|sum| sum as u64 == steps), "{}: {steps} steps", recorded.name);
    seen.transactions.add(true);
    seen.failing.add(*fails);
    seen.puts.add(is_puts);
    seen.failing_puts.add(*fails && is_puts);
    seen.rotations.add(case.is_rotation);
    seen.failing_rotations.add(*fails && case.is_rotation);
    for n in 0..=steps {
        if n > 0 {
            assert_eq!(commit_killed(root, case, Plan::Commit, seed, number, n), *image);
        }
        let at = format!("{}, step {n}", recorded.name);
        let cut = recorded.cut(n);
        let killed = Disk::read(root);
        assert_eq!(killed, recorded.disk(&cut), "{at}");
        recover(root);
        let left = Disk::read(root);
        assert_eq!(left, recorded.disk(&cut.recover().unwrap().image), "{at}");
        seen.kills.add(true);
        if let Some(expected) = recorded.expected(killed.log.is_some()) {
            if is_puts {
                look(seen, case, &killed, &left);
            }
            seen.rotation_kills.add(case.is_rotation);
            seen.wrong.unless(left == expected, || at);
        }
    }
    recorded
}

/// What a kill of a transaction of puts, and the recovery, left of the keys that were there.
fn look(seen: &Seen, case: &Case, killed: &Disk, left: &Disk) {
    let standing = case.standing();
    seen.put_kills.add(true);
    seen.earlier.add(left.tree == case.before);
    seen.standing.add(standing.len());
    seen.waiting.add(standing.iter().filter(|(collection, key)| killed.waits(collection, key)).count());
    seen.lost.add(standing.iter().filter(|(collection, key)| !left.has(collection, key)).count());
}
