//! Watches the original at work: which file step each of its file calls is, what the disk holds behind each step, and where
//! the run is cut.
use crate::disk::{Root, files};
use plain::{
    Image, Name,
    image::{DIR_LIMIT, FILE_LIMIT},
    name::NAME_LIMIT,
    step::Step,
};
use std::{cell::RefCell, collections::HashMap, ffi::c_int, os::unix::ffi::OsStrExt};

unsafe extern "C" {
    fn _exit(code: c_int) -> !;
}

pub const EIO: c_int = 5;
const ENOSPC: c_int = 28;
const ENAMETOOLONG: c_int = 36;

/// Where a run ends. Every step is done whole or not at all.
#[derive(Clone, Copy, PartialEq, Eq, Debug)]
pub enum Cut {
    /// It runs to its end, and the disk is read behind each step.
    Never,
    /// After n steps every call that would change the disk fails.
    Freeze(usize),
    /// After n steps the process exits.
    Exit(usize),
    /// It runs to its end, and nobody watches: for its time.
    Unwatched,
}

/// What a path of the store names.
#[derive(Clone, PartialEq, Eq, Debug)]
pub enum Place {
    Collections,
    Dir(Name),
    File(Name, Name),
    Journal,
    Log,
    Staging,
    Staged(Name),
    Elsewhere,
}

#[derive(Default)]
pub struct Trace {
    pub steps: Vec<Step>,
    /// The store behind each step.
    pub images: Vec<Image>,
    /// 14 or 15 by the first step of a commit that failed.
    pub failed: Option<u32>,
}

pub struct Watch {
    root: Root,
    commit: bool,
    cut: Cut,
    now: Image,
    pub trace: Trace,
    /// What stands open, and whether it was made by that.
    pub open: HashMap<c_int, (Place, bool)>,
    /// The directory of the file that was last opened to be read: a copy's source.
    pub source: Name,
    pub staging_synced: bool,
}

thread_local! { static WATCH: RefCell<Option<Watch>> = const { RefCell::new(None) }; }

/// From here on file calls on the root are watched. The disk holds the image.
pub fn start(root: &Root, image: &Image, commit: bool, cut: Cut) {
    let now = Image { open: false, ..image.clone() };
    let (trace, open, source) = Default::default();
    let watch = Watch { root: root.clone(), commit, cut, now, trace, open, source, staging_synced: false };
    WATCH.with(|w| *w.borrow_mut() = Some(watch));
}

/// What was seen, and what the disk holds, which is what the steps left.
pub fn stop() -> (Trace, Image) {
    let watch = WATCH.with(|w| w.borrow_mut().take()).unwrap();
    assert_eq!(watch.now, watch.root.get(), "a change on disk was no step");
    (watch.trace, watch.now)
}

/// Asks the watch, if there is one; file calls made meanwhile are not watched.
pub fn watched<T>(ask: impl FnOnce(&mut Watch) -> T) -> Option<T> {
    let mut watch = WATCH.try_with(|w| w.try_borrow_mut().ok()?.take()).ok()??;
    let answer = ask(&mut watch);
    WATCH.with(|w| *w.borrow_mut() = Some(watch));
    Some(answer)
}

impl Watch {
    pub fn place(&self, path: &[u8]) -> Place {
        let Some(inside) = path.strip_prefix(self.root.0.as_os_str().as_bytes()) else { return Place::Elsewhere };
        let parts: Vec<&[u8]> = inside.split(|b| *b == b'/').skip(1).collect();
        match parts[..] {
            [b"collections"] => Place::Collections,
            [b"collections", dir] => Place::Dir(dir.to_vec()),
            [b"collections", dir, file] => Place::File(dir.to_vec(), file.to_vec()),
            [b"journal"] => Place::Journal,
            [b"journal", b"transaction.wal"] => Place::Log,
            [b"journal", b"staging"] => Place::Staging,
            [b"journal", b"staging", file] => Place::Staged(file.to_vec()),
            _ => Place::Elsewhere,
        }
    }

    pub fn is_commit(&self) -> bool {
        self.commit
    }

    /// Asked before every call that changes the disk; an error number is what it shall fail with.
    pub fn may_go(&self) -> Result<(), c_int> {
        let done = self.trace.steps.len();
        match self.cut {
            Cut::Freeze(n) if done >= n => Err(EIO),
            Cut::Exit(n) if done >= n => unsafe { _exit(0) },
            _ => Ok(()),
        }
    }

    /// Document 01's limits, which the original doesn't have: the call that would pass one fails.
    pub fn within_limits(&mut self, step: &Step) -> Result<(), c_int> {
        let now = &self.now;
        let full = |dir, file| !now.has(dir, file) && now.file_count() == FILE_LIMIT;
        let (number, error) = match step {
            _ if !self.commit => return Ok(()),
            Step::RenameFile(_, _, to) | Step::RenameDirectory(_, to) if to.len() > NAME_LIMIT => (14, ENAMETOOLONG),
            Step::MoveStaged(staged, dir, key) if now.staging.contains_key(staged) && full(dir, key) => (15, ENOSPC),
            Step::CopyFile(_, dest, file) if full(dest, file) => (15, ENOSPC),
            Step::MakeDirectory(_) if now.dirs.len() == DIR_LIMIT => (15, ENOSPC),
            _ => return Ok(()),
        };
        self.failed(number);
        Err(error)
    }

    pub fn stands(&self, dir: &Name) -> bool {
        self.now.dirs.contains_key(dir)
    }

    pub fn failed(&mut self, number: u32) {
        if self.commit {
            self.trace.failed.get_or_insert(number);
        }
    }

    /// A step was done: reads from disk what it can have changed.
    pub fn done(&mut self, step: Step) {
        match &step {
            Step::MakeDirectory(dir) | Step::RemoveDirectory(dir) | Step::RenameFile(dir, ..) | Step::RemoveFile(dir, _) => {
                self.read_dir(dir)
            }
            Step::CopyFile(_, dir, _) => self.read_dir(dir),
            Step::MoveStaged(staged, dir, _) => {
                self.read_staged(staged);
                self.read_dir(dir);
            }
            Step::RenameDirectory(from, to) => {
                self.read_dir(from);
                self.read_dir(to);
            }
            Step::RemoveStaging(staged) => self.read_staged(staged),
            Step::RewriteHeader(_) | Step::RemoveLog => self.now.log = std::fs::read(self.root.log()).ok(),
            _ => {}
        }
        self.trace.steps.push(step);
        self.trace.images.push(self.now.clone());
        let _ = self.may_go(); // Cut::Exit leaves here.
    }

    fn read_dir(&mut self, dir: &Name) {
        match files(&self.root.dir(dir)) {
            Some(files) => self.now.dirs.insert(dir.clone(), files),
            None => self.now.dirs.remove(dir),
        };
    }

    fn read_staged(&mut self, staged: &Name) {
        if !self.root.staged(staged).exists() {
            self.now.staging.remove(staged);
        }
    }
}
