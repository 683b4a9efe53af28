//! What the next open leaves of a commit, held or not, a keep or a revert that is cut behind each of its steps.
use crate::{
    count::Count,
    failure::Failure,
    operation::Operation,
    progress::Progress,
    rule::{self, Broken},
    update,
    why::{Scene, Why},
};
use cda_store::{Contents, Files, Image, Plan, Refusal, Step, Stepped, StoreError};
use std::{collections::BTreeMap, path::Path};

/// All cuts of a plan, from the one before its first step.
pub struct Cuts {
    pub plan: Plan,
    pub cuts: Vec<Cut>,
    /// Why the commit itself is refused. It is known before the first step, so nothing is done, and there is one cut.
    pub refusal: Option<Refusal>,
    /// How the number of steps comes about, where a rule says it.
    pub count: Option<Count>,
    /// The conditions of the cut rule that do not hold of a commit, held or not, that is not refused.
    pub broken: Option<Vec<Broken>>,
}

pub struct Cut {
    pub step: Option<Step>,
    pub outcome: Outcome,
}

/// What the next open leaves.
#[derive(Clone, PartialEq, Eq, Debug)]
pub enum Outcome {
    Earlier,
    Held,
    Later,
    Other(Vec<Remark>),
    Refused(Refusal),
}

/// A file, or a collection with / behind its name, that stands neither as before nor as after.
#[derive(Clone, PartialEq, Eq, Debug)]
pub struct Remark {
    pub change: Change,
    pub path: String,
    pub why: Why,
}

/// Against the earlier files, or against the later ones where the log is gone.
#[derive(Clone, Copy, PartialEq, Eq, PartialOrd, Ord, Debug)]
pub enum Change {
    Lost,
    Changed,
    Kept,
}

impl Change {
    pub fn word(self) -> &'static str {
        match self {
            Change::Lost => "lost",
            Change::Changed => "changed",
            Change::Kept => "kept",
        }
    }
}

impl Outcome {
    /// The outcome in one word: the worst that happens.
    pub fn word(&self) -> &'static str {
        match self {
            Outcome::Earlier => "earlier",
            Outcome::Held => "held",
            Outcome::Later => "later",
            Outcome::Refused(_) => "refused",
            Outcome::Other(remarks) => remarks.iter().map(|remark| remark.change).min().map_or("other", Change::word),
        }
    }
}

/// What is cut: of a keep or revert the held update; else a transaction, of these operations upon what the next open makes of the store, or
/// without operations the one that stands open there.
pub fn subject(store: &Path, plan: Plan, operations: &[Operation]) -> Result<Image, Failure> {
    let is_image = store.is_file();
    let image = update::image(store)?;
    let ends_a_hold = matches!(plan, Plan::Keep | Plan::Revert);
    if operations.is_empty() && !ends_a_hold {
        let contents = image.contents();
        let open = contents.open || !is_image;
        return Ok(Contents { open, ..contents }.image()?);
    }
    if image.contents().has_damaged_log()? {
        let path = if is_image { store.to_path_buf() } else { store.join("journal/transaction.wal") };
        return Err(StoreError::Damaged { path }.into());
    }
    let opened = update::opened(store, &image)?;
    if ends_a_hold {
        return Ok(opened);
    }
    Ok(operations.iter().try_fold(opened.begin()?, |image, operation| operation.imagine(&image))?)
}

/// What a plan can leave: the files from before, the held update, the files that a commit makes.
struct Ends {
    earlier: Option<Paths>,
    held: Option<Paths>,
    later: Option<Paths>,
}

impl Ends {
    /// And why the commit itself is refused, if it is.
    fn of(plan: Plan, start: &Image) -> Result<(Ends, Option<Refusal>), Failure> {
        let answer = match plan {
            Plan::Keep => Ok(start.keep()?),
            Plan::Revert => Ok(start.revert()?.image),
            Plan::Hold => start.hold(),
            _ => start.commit(),
        };
        let (after, refusal) = match answer {
            Ok(after) => (after, None),
            Err(error) => (error.image.ok_or(error.refusal).and(start.rollback())?, Some(error.refusal)),
        };
        let (start, after) = (paths(start), paths(&after));
        let ends = match plan {
            Plan::Keep => Ends { earlier: None, held: Some(start), later: Some(after) },
            Plan::Revert => Ends { earlier: Some(after), held: None, later: None },
            Plan::Hold => Ends { earlier: Some(start), held: Some(after), later: None },
            _ => Ends { earlier: Some(start), held: None, later: Some(after) },
        };
        Ok((ends, refusal))
    }

    fn outcome(&self, plan: Plan, scene: &Scene, cut: &Image) -> Result<Outcome, Failure> {
        // A revert that was begun is ended by the next open.
        let opened = if plan == Plan::Revert && cut.is_held()? { cut.revert() } else { cut.recover() };
        let found = match opened {
            Ok(opened) if opened.image.is_held()? => Found { held: true, paths: paths(&opened.image) },
            Ok(opened) => Found { held: false, paths: paths(&opened.image) },
            Err(refusal) => return Ok(Outcome::Refused(refusal)),
        };
        let is = |end: &Option<Paths>| end.as_ref() == Some(&found.paths);
        let log_stood = scene.cut.log.is_some();
        let wanted = if log_stood { self.earlier.as_ref().or(self.held.as_ref()) } else { self.later.as_ref().or(self.earlier.as_ref()) };
        Ok(match found.held {
            true if is(&self.held) => Outcome::Held,
            false if is(&self.earlier) => Outcome::Earlier,
            false if is(&self.later) => Outcome::Later,
            _ => Outcome::Other(remarks(scene, wanted.expect("a plan has an end"), &found.paths)),
        })
    }
}

/// What the next open leaves.
struct Found {
    held: bool,
    paths: Paths,
}

/// Cuts a plan behind each step, and before the first.
pub fn cuts(plan: Plan, start: &Image) -> Result<Cuts, Failure> {
    let (ends, refusal) = Ends::of(plan, start)?;
    let mut progress = Progress::new();
    let mut steps: Vec<Stepped> = Vec::new();
    for stepped in start.steps(plan).take_while(|_| refusal.is_none()) {
        progress.tell(|| format!("step {}", steps.len() + 1));
        steps.push(stepped?);
    }
    let before = start.contents();
    let mut cut = |n: usize| {
        progress.tell(|| format!("cut {n} of {}", steps.len()));
        let done = n.checked_sub(1).map(|i| &steps[i]);
        let image = done.map_or(start, |stepped| &stepped.image);
        let scene = Scene { before: &before, cut: image.contents() };
        Ok(Cut { step: done.map(|stepped| stepped.step.clone()), outcome: ends.outcome(plan, &scene, image)? })
    };
    let cuts = (0..=steps.len()).map(&mut cut).collect::<Result<_, Failure>>()?;
    let broken = rule::broken(&before);
    let count = Count::of(&before, &broken).filter(|_| refusal.is_none() && plan == Plan::Commit);
    let broken = (refusal.is_none() && matches!(plan, Plan::Commit | Plan::Hold)).then_some(broken);
    Ok(Cuts { plan, cuts, refusal, count, broken })
}

/// Every file with its number, and every collection with 0.
type Paths = BTreeMap<String, u32>;

fn paths(image: &Image) -> Paths {
    let of_directory = |(directory, files): (String, Files)| {
        let files: Vec<_> = files.into_iter().map(|(file, number)| (format!("{directory}/{file}"), number)).collect();
        files.into_iter().chain([(format!("{directory}/"), 0)])
    };
    image.contents().directories.into_iter().flat_map(of_directory).collect()
}

fn remarks(scene: &Scene, wanted: &Paths, found: &Paths) -> Vec<Remark> {
    let missing = wanted.keys().filter(|path| !found.contains_key(*path)).map(|path| (Change::Lost, path));
    let changed = found.iter().filter(|(path, number)| wanted.get(*path).is_some_and(|wanted| wanted != *number));
    let extra = found.keys().filter(|path| !wanted.contains_key(*path)).map(|path| (Change::Kept, path));
    let all = missing.chain(changed.map(|(path, _)| (Change::Changed, path))).chain(extra);
    all.map(|(change, path)| Remark { change, path: path.clone(), why: scene.why(change, path, found.get(path)) }).collect()
}
