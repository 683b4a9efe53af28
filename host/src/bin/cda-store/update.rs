//! Listing, recovery and transactions on a directory.
use crate::{arguments::Way, failure::Failure, operation::Operation, progress::Progress};
use cda_store::{Cause, Event, FileStore, Image, Plan, Reader, Refusal, Rotation};
use std::{
    fmt::Write as _,
    fs::{self, File},
    io::{Write as _, stderr, stdout},
    path::Path,
    process::exit,
    sync::{Arc, Mutex, MutexGuard},
};

/// The exit status after `--stop-after`.
const STOPPED: i32 = 3;

/// The store as an image: that of a directory, or the one that a file holds.
pub fn image(store: &Path) -> Result<Image, Failure> {
    if store.is_file() {
        return Ok(Image::new(fs::read(store).map_err(Failure::at(store))?)?);
    }
    Ok(Reader::open(store)?.image()?)
}

const HELD: &str = "An update is held here; cda-store keep accepts it, cda-store revert takes it back.\n";

/// What the next open makes of the store that this image was read from.
pub fn opened(store: &Path, image: &Image) -> Result<Image, Failure> {
    let ended = if !store.is_file() && Reader::open(store)?.is_reverting()? && image.is_held()? { image.revert() } else { image.recover() };
    Ok(ended?.image)
}

/// What stands in the store, with sizes. Nothing is changed.
pub fn list(store: &Path) -> Result<String, Failure> {
    let reader = Reader::open(store)?;
    let image = reader.image()?;
    let mut text = String::new();
    for (directory, files) in image.contents().directories {
        let _ = writeln!(text, "{directory}/");
        for file in files.keys() {
            let path = store.join("collections").join(&directory).join(file);
            let size = fs::metadata(&path).map_err(Failure::at(&path))?.len();
            let _ = writeln!(text, "{directory}/{file} {size}");
        }
    }
    if reader.is_reverting()? {
        text += "The revert of a held update was interrupted here; cda-store recover ends it.\n";
    } else if image.is_held()? {
        text += HELD;
    } else if image.has_pending_work()? {
        let damaged = image.contents().has_damaged_log()?;
        text += &match image.recover() {
            Ok(_) if damaged => "An update was interrupted here, and its log is damaged; see cda-store recover --help.\n".to_string(),
            Ok(_) => "An update was interrupted here; cda-store recover ends it.\n".to_string(),
            Err(refusal) => format!("An update was interrupted here; its recovery gives {refusal}. See cda-store recover --help.\n"),
        };
    }
    if let Some(backup) = image.find_backup()? {
        let _ = writeln!(text, "The first backup is {backup}.");
    }
    Ok(text)
}

/// Recovers the store and tells the steps.
pub fn recover(store: &Path, way: Way) -> Result<String, Failure> {
    let watch = Watch::new(None);
    let store = match way {
        Way::Usual => open(store, &watch)?,
        Way::Restore => FileStore::restore(store, observer(&watch))?,
        Way::Accept => FileStore::accept(store, observer(&watch))?,
    };
    let (watch, held) = (seen(&watch), store.is_held()?);
    let end = match (way, watch.recovery.len()) {
        (Way::Usual, 0) => "Nothing to recover.\n".to_string(),
        (Way::Usual, n) if watch.reverted => format!("Ended the revert, in {}.\n", steps_in_words(n)),
        (Way::Usual, n) => format!("Recovered in {}.\n", steps_in_words(n)),
        (Way::Restore, n) => format!("Put the backups back, in {}.\n", steps_in_words(n)),
        (Way::Accept, n) => format!("Kept what stands, in {}.\n", steps_in_words(n)),
    };
    Ok(told(&watch.recovery) + &end + &discarded(store.discarded()) + if held { HELD } else { "" })
}

/// Keeps or reverts the held update and tells the steps.
pub fn end(store: &Path, plan: Plan, stop_after: Option<u64>) -> Result<String, Failure> {
    let watch = Watch::new(stop_after);
    let store = open(store, &watch)?;
    seen(&watch).opened = true;
    if seen(&watch).reverted && plan == Plan::Revert {
        let (watch, cause) = (seen(&watch), discarded(store.discarded()));
        return Ok(format!("{}Ended the revert, in {}.\n{cause}", told(&watch.recovery), steps_in_words(watch.recovery.len())));
    }
    has_step(&store.image()?, plan, stop_after)?;
    let (word, cause) = match plan {
        Plan::Keep => store.keep().map(|()| ("Kept", None))?,
        _ => ("Reverted", store.revert()?),
    };
    let watch = seen(&watch);
    Ok(format!("{}{word} in {}.\n{}", told(&watch.steps), steps_in_words(watch.steps.len()), discarded(cause)))
}

/// Steps, a line each.
fn told(steps: &[String]) -> String {
    steps.iter().enumerate().map(|(i, step)| format!("{:4}  {step}\n", i + 1)).collect()
}

/// A step to stop behind must be one.
fn has_step(image: &Image, plan: Plan, stop_after: Option<u64>) -> Result<(), Failure> {
    let what = match plan {
        Plan::Keep => "keep",
        Plan::Revert => "revert",
        _ => "commit",
    };
    match stop_after {
        Some(n) if image.step(plan, n) == Err(Refusal::PastTheEnd) => Err(Failure::Usage(format!("the {what} has no step {n}"))),
        _ => Ok(()),
    }
}

/// Carries out the operations as one transaction.
pub fn update(
    store: &Path,
    operations: &[Operation],
    hold: bool,
    rotation: Option<&Rotation>,
    stop_after: Option<u64>,
    trace: Option<&Path>,
) -> Result<String, Failure> {
    let watch = Watch::new(stop_after);
    let store = open(store, &watch)?;
    seen(&watch).opened = true;
    rotation.map_or(Ok(()), |names| store.may_rotate(names))?;
    let mut transaction = store.begin()?;
    operations.iter().try_for_each(|operation| operation.record(&mut transaction))?;
    has_step(transaction.image(), if hold { Plan::Hold } else { Plan::Commit }, stop_after)?;
    if let Some(trace) = trace {
        let mut file = File::create(trace).map_err(Failure::at(trace))?;
        file.write_all(transaction.image().bytes()).map_err(Failure::at(trace))?;
        seen(&watch).trace = Some(file);
    }
    if hold {
        transaction.hold()?
    } else {
        transaction.commit()?
    }
    let watch = seen(&watch);
    let recovered = match watch.recovery.len() {
        0 => String::new(),
        n if watch.reverted => format!("Ended an interrupted revert first, in {}.\n", steps_in_words(n)),
        n => format!("Recovered an interrupted update first, in {}.\n", steps_in_words(n)),
    };
    let end = if hold { "; cda-store keep accepts it, cda-store revert takes it back" } else { "" };
    Ok(format!(
        "{recovered}{}{} in {}{end}.\n",
        discarded(store.discarded()),
        if hold { "Held" } else { "Committed" },
        steps_in_words(watch.steps.len())
    ))
}

/// How the log broke that was discarded, if one was.
fn discarded(cause: Option<Cause>) -> String {
    let told = |cause| format!("The update's log was broken, and discarded: {cause}. See cda-store log --help.\n");
    cause.map_or(String::new(), told)
}

fn steps_in_words(n: usize) -> String {
    if n == 1 { "1 step".into() } else { format!("{n} steps") }
}

fn open(store: &Path, watch: &Shared) -> Result<FileStore, Failure> {
    Ok(FileStore::open_observed(store, observer(watch))?)
}

fn observer(watch: &Shared) -> impl FnMut(&Event) + Send + 'static {
    let watch = Arc::clone(watch);
    move |event| seen(&watch).see(event)
}

/// The store's observer and the command look at the same.
type Shared = Arc<Mutex<Watch>>;

fn seen(watch: &Shared) -> MutexGuard<'_, Watch> {
    watch.lock().expect("one thread")
}

/// What was seen of the steps.
struct Watch {
    stop_after: Option<u64>,
    /// Whether the store is open: the steps before are its recovery's, those behind it the command's own.
    opened: bool,
    recovery: Vec<String>,
    /// Whether what was recovered is a revert.
    reverted: bool,
    steps: Vec<String>,
    progress: Progress,
    /// The image of an update, and behind it the fields of the steps that were carried out.
    trace: Option<File>,
}

impl Watch {
    fn new(stop_after: Option<u64>) -> Shared {
        let (opened, reverted, recovery, steps) = Default::default();
        Arc::new(Mutex::new(Watch { stop_after, opened, recovery, reverted, steps, progress: Progress::new(), trace: None }))
    }

    /// Adds a field to the trace. A trace that can't be written ends there, and the update goes on.
    fn keep_trace(&mut self, field: &[u8]) {
        if let Some(Err(error)) = self.trace.as_mut().map(|file| file.write_all(field)) {
            let _ = writeln!(stderr(), "cda-store: the trace ends here: {error}");
            self.trace = None;
        }
    }

    fn see(&mut self, event: &Event) {
        let step = event.step;
        match (event.done, self.opened) {
            (false, _) => self.progress.tell(|| format!("step {}: {step}", event.number)),
            (true, false) => self.recovery.push(step.to_string()),
            (true, true) => {
                self.steps.push(step.to_string());
                self.keep_trace(&step.field());
            }
        }
        self.reverted |= event.plan == Plan::Revert && !self.opened;
        let done = event.number - u64::from(!event.done);
        if self.opened && self.stop_after == Some(done) {
            let what = match event.plan {
                Plan::Keep => "keep",
                Plan::Revert => "revert",
                _ => "update",
            };
            let _ = writeln!(stdout(), "Stopped after step {done}; cda-store recover ends the {what}.");
            exit(STOPPED);
        }
    }
}
