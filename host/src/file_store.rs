//! A store on a real directory, with the steps of the port carried out as file calls.
mod carry_out;
mod error;
mod layout;
mod lock;
mod reader;
mod rotation;
mod scan;
mod staging;
mod state;
mod transaction;

pub use error::StoreError;
pub use layout::Layout;
pub use reader::Reader;
pub use rotation::Rotation;
pub use staging::Staging;
pub use transaction::Transaction;

use crate::{
    Refusal,
    calls::{self, Calls, Lock, System},
    entries::{Plan, Recovered, Stepped},
    image::{Contents, Image},
    log::{self, Cause},
    step::Step,
};
use layout::ASIDE;
use state::{Handle, State, Status, lock};
use std::{
    ffi::OsStr,
    fmt,
    fs::File,
    panic::{AssertUnwindSafe, catch_unwind, resume_unwind},
    path::{Path, PathBuf},
    sync::{Arc, Mutex, MutexGuard, PoisonError, RwLock, RwLockReadGuard, RwLockWriteGuard},
};

/// A store on a directory that is laid out as the original's: `collections/<collection>/<key>`, `journal/transaction.wal`
/// and `journal/staging/`. For Unix.
///
/// # One process at a time
///
/// The root directory itself is locked while the store is open, against other `FileStore`s and against a [`Reader`]; it leaves no
/// entry on disk. Who finds it locked waits for a second. The original takes no such lock and must not have the directory open
/// meanwhile.
///
/// # Threads
///
/// A store is `Send` and `Sync`. [`FileStore::begin_shared`] begins a transaction that owns its part of a store in an [`Arc`] and is `Send`.
/// One is open at a time, whoever began it. Who looks at the files waits for the steps of a commit, and the other way, so that no update's
/// middle is seen.
///
/// # What a cut leaves
///
/// A process that ends anywhere leaves a store that the next open recovers. Document 01's cut rule says what comes of it
/// where each step is done whole or not at all. On disk each step is one call that the file system does whole, except:
///
/// - a copy, and a log that is marked Held, is made as `copy.tmp` in the staging directory and moved into its place. A cut inside leaves that
///   file, which is no part of the store's image, and the next open removes it: the step was not done;
/// - the removal of a directory removes its files one by one. Where a cut leaves a part of them, the next open removes the
///   rest.
///
/// For Writes that were recorded by this version the rule speaks of every step, the first ones too: a key that was there is
/// not lost. Their recovery may be cut as well, any number of times: once one runs to its end, the store is the same as if the
/// first had.
///
/// A log of an older version does not say which keys were there; a written key is lost where the cut comes after that log is
/// marked Committing and before the key's rename to its backup. Outside the rule's conditions files can be lost, as with the
/// original. docs/FINDINGS.md has the cases.
///
/// # Held updates
///
/// [`Transaction::hold`] commits an update and keeps its log and the backups. Opening the store leaves them; [`FileStore::begin`] is refused
/// meanwhile. [`FileStore::keep`] ends as an ordinary commit does, [`FileStore::revert`] gives back what stood before. A cut of a hold leaves the
/// earlier files or the held update; of a keep, the held update or the later files; a revert that is cut is ended by the next open.
///
/// # What a loss of power leaves
///
/// What is not synced can be lost with the power. The steps have the original's syncs. Those that are added are told around each step
/// ([`Stepped::syncs`](crate::Stepped::syncs)), by one rule, which crates/power/specs/Loss.antt states:
///
/// - recovery and revert, where a log stands: every collection and the directory of the collections before the log is removed, and the
///   journal behind it;
/// - recovery where no log stands: the journal, before anything else.
///
/// With them it is proved of Writes and deletions of keys that a loss leaves the earlier files or the later ones, on a model of what a disk
/// loses. That model takes for granted, and this store sees to it, that all of the store is on the disk when a commit starts and that what is
/// moved into its place is whole. So these are synced beside the steps:
///
/// - [`FileStore::begin`]: every collection and the directory of the collections, the root, and, behind the new log, the journal;
/// - a deletion that renames a key to its lowered name: the collection;
/// - a copy: its content, before it is moved into its place;
/// - a log that is marked Held: its bytes, before it is moved into its place, and the journal behind it;
/// - a revert: the journal, behind the mark that it was begun and before its first step;
/// - [`FileStore::make_collection`]: the directory of the collections and the root, before it answers.
///
/// That this code does so is tested (`tests/power_loss.rs`, `tests/held.rs`, `tests/mounted.rs`) and not proved. docs/ANNEX.md has the
/// assumptions on file system and disk.
///
/// # What stands below the root
///
/// A symbolic link below the root is [`StoreError::Foreign`], and none is followed where a file or directory is opened. The root
/// itself may be reached by links. Whoever replaces a directory of an open store by a link is not noticed by the renames and removals
/// in it: the standard library has no such calls relative to an open directory.
pub struct FileStore {
    layout: Layout,
    _lock: Option<File>,
    status: Mutex<Status>,
    /// Held while it is decided who may begin, keep, revert, recover or make a collection next.
    turn: Mutex<()>,
    /// Shared while files are looked at, alone while they are changed.
    files: RwLock<()>,
    discarded: Mutex<Option<Cause>>,
    observer: Mutex<Observer>,
}

type Observer = Box<dyn FnMut(&Event) + Send>;

/// A step that is about to be carried out, or was.
#[derive(Clone, Copy, PartialEq, Eq, Debug)]
pub struct Event<'a> {
    /// Whether the step was carried out.
    pub done: bool,
    /// The plan that the step belongs to.
    pub plan: Plan,
    /// The step's number in the plan, from 1.
    pub number: u64,
    /// The step.
    pub step: &'a Step,
}

/// Reads a store from its directory into an image, with the files numbered from 1. Nothing is changed and nothing recovered. No lock
/// is taken: beside a running update this may show its middle, which a [`Reader`] does not.
pub fn scan(root: impl Into<PathBuf>) -> Result<Image, StoreError> {
    Ok(scan::scan(&Layout::new(root, System))?.image()?)
}

impl FileStore {
    /// Opens the store at this directory, which must exist, and recovers it if an interrupted transaction left work. Else
    /// nothing is written: the directories below are made by the first [`FileStore::begin`].
    ///
    /// Other entries of the root than `collections` and `journal` are left alone. Below these two, whatever an image can't
    /// hold is [`StoreError::Foreign`]. A log with a damaged header beside backups is [`StoreError::Damaged`].
    pub fn open(root: impl Into<PathBuf>) -> Result<FileStore, StoreError> {
        FileStore::open_observed(root, |_| {})
    }

    /// Opens the store with an observer, which is told of every step of every plan before and after it is carried
    /// out, and must not call the store. If it panics, the store is stopped as by a failed file call ([`StoreError::Stopped`]).
    pub fn open_observed(root: impl Into<PathBuf>, observer: impl FnMut(&Event) + Send + 'static) -> Result<FileStore, StoreError> {
        FileStore::open_with(System, root, observer)
    }

    /// Opens the store with other file calls.
    #[doc(hidden)]
    pub fn open_with(
        calls: impl Calls + 'static,
        root: impl Into<PathBuf>,
        observer: impl FnMut(&Event) + Send + 'static,
    ) -> Result<FileStore, StoreError> {
        let store = FileStore::locked(calls, root, observer)?;
        store.settle()?;
        Ok(store)
    }

    /// Recovers the store, or ends a revert that was begun.
    fn settle(&self) -> Result<(), StoreError> {
        let contents = scan::scan(&self.layout)?;
        if contents.has_damaged_log()? {
            return Err(StoreError::Damaged { path: self.layout.log() });
        }
        let image = contents.image()?;
        if scan::is_reverting(&self.layout)? && image.is_held()? {
            let cause = self.revert_image(&image)?;
            *lock(&self.discarded) = cause;
        } else {
            self.recover(&image)?;
        }
        self.clear_up()
    }

    /// Recovers a store that was stopped ([`StoreError::Stopped`]) in its place, as opening it anew does, and lets it go on. A transaction from
    /// before stays stopped. Where the store was not stopped, nothing is done.
    pub fn reopen(&self) -> Result<(), StoreError> {
        let _turn = lock(&self.turn);
        if lock(&self.status).state == State::Stopped {
            *lock(&self.discarded) = None;
            self.settle()?;
            lock(&self.status).begin_era(State::Idle);
        }
        Ok(())
    }

    /// Opens a store whose recovery is refused for its log ([`StoreError::Damaged`], [`Refusal::UndecodablePayload`],
    /// [`Refusal::LogTooLong`], [`Refusal::Corruption`]): every backup is put back in the place of its original, then the log and
    /// the staging files go. So a key or collection that stood before the update is as before, as far as its backup stands; one
    /// that the update made stays. The steps are those of a recovery from a log without operations: a file whose name ends in .tmp
    /// goes too. The same of a held update whose revert is refused for its log. Elsewhere it is [`StoreError::Sound`].
    pub fn restore(root: impl Into<PathBuf>, observer: impl FnMut(&Event) + Send + 'static) -> Result<FileStore, StoreError> {
        let (store, contents) = FileStore::refused(root, observer)?;
        if contents.image()?.is_held()? {
            store.stop_at_error(store.mark_reverting())?;
        }
        let [_, committing] = log::empty()?;
        let mut image = Contents { log: committing, ..contents }.image()?;
        // A collection that is put back can hold backups itself: then the log stays for another turn.
        while image.recover()?.image.has_pending_work()? {
            image = store.run_to_the_log(&image)?;
        }
        store.recover(&image)?;
        store.clear_up()?;
        Ok(store)
    }

    /// Opens a store whose recovery is refused for its log, as [`FileStore::restore`] does, but keeps what stands: the log, the
    /// staging files and then the backups go.
    pub fn accept(root: impl Into<PathBuf>, observer: impl FnMut(&Event) + Send + 'static) -> Result<FileStore, StoreError> {
        let (store, contents) = FileStore::refused(root, observer)?;
        let [recording, _] = log::empty()?;
        store.recover(&Contents { log: recording, ..contents }.image()?)?;
        store.recover(&store.image()?)?;
        store.clear_up()?;
        Ok(store)
    }

    /// Locks a store whose recovery, or revert, is refused for its log: the store, and what stands.
    fn refused(root: impl Into<PathBuf>, observer: impl FnMut(&Event) + Send + 'static) -> Result<(FileStore, Contents), StoreError> {
        let store = FileStore::locked(System, root, observer)?;
        let contents = scan::scan(&store.layout)?;
        let image = contents.image()?;
        let ended = if image.is_held()? { image.revert() } else { image.recover() };
        if !contents.has_damaged_log()? && ended.is_ok() {
            return Err(StoreError::Sound { path: store.layout.root().to_path_buf() });
        }
        Ok((store, contents))
    }

    fn locked(
        calls: impl Calls + 'static,
        root: impl Into<PathBuf>,
        observer: impl FnMut(&Event) + Send + 'static,
    ) -> Result<FileStore, StoreError> {
        let layout = Layout::new(root, calls);
        let lock = lock::lock(&layout, Lock::Exclusive)?;
        let observer = Mutex::new(Box::new(observer) as Observer);
        let (status, turn, files, discarded) = Default::default();
        Ok(FileStore { layout, _lock: lock, status, turn, files, discarded, observer })
    }

    /// Where the parts of the store stand.
    pub fn layout(&self) -> &Layout {
        &self.layout
    }

    /// How the log broke that the recovery discarded which opened this store: the interrupted update had a truncated log, and had done nothing
    /// yet. None where recovery had no such log.
    pub fn discarded(&self) -> Option<Cause> {
        *lock(&self.discarded)
    }

    /// Begins a transaction. [`Refusal::TransactionBusy`] if one is open, [`Refusal::HeldUpdate`] if one is held: keep or revert that first. A
    /// failed file call stops the store.
    pub fn begin(&self) -> Result<Transaction<'_>, StoreError> {
        self.begun(Handle::Borrowed(self))
    }

    /// Begins a transaction, as [`FileStore::begin`] does, that has its own part of the store: it can be sent to another thread, and the
    /// directory stays locked as long as it lives.
    pub fn begin_shared(self: &Arc<Self>) -> Result<Transaction<'static>, StoreError> {
        self.begun(Handle::Shared(Arc::clone(self)))
    }

    fn begun<'a>(&self, handle: Handle<'a>) -> Result<Transaction<'a>, StoreError> {
        let _turn = self.idle()?;
        let image = self.scanned()?.image()?.begin()?;
        {
            let _alone = self.alone();
            self.stop_at_error(self.prepare(&image.contents()))?;
        }
        let era = lock(&self.status).begin_era(State::Recording);
        Ok(Transaction::new(handle, era, image))
    }

    /// Makes a collection outside a transaction, unless it stands: whether it was made. It is one directory, which is made whole or not at all,
    /// and synced. [`Refusal::TransactionBusy`] if a transaction is open; else it is refused as a transaction would be that creates it.
    pub fn make_collection(&self, name: &str) -> Result<bool, StoreError> {
        if self.image()?.contents().directories.contains_key(name) {
            return Ok(false);
        }
        let _turn = self.idle()?;
        let image = self.scanned()?.image()?;
        if image.contents().directories.contains_key(name) {
            return Ok(false);
        }
        image.begin()?.create_collection(name)?.commit().map_err(|error| error.refusal)?;
        let _alone = self.alone();
        let collections = self.layout.collections();
        self.layout.make_missing(&collections)?;
        self.layout.make_missing(&self.layout.directory(name))?;
        self.layout.sync(&collections)?;
        self.layout.sync(self.layout.root())?;
        Ok(true)
    }

    /// Whether an update is held ([`Transaction::hold`]).
    pub fn is_held(&self) -> Result<bool, StoreError> {
        Ok(self.image()?.is_held()?)
    }

    /// Accepts the held update: its log goes, then every backup. [`Refusal::NothingHeld`] if there is none. Where a file call failed behind the
    /// step that removes the log, the update is kept, and the next open only clears up; before it, the update is still held.
    pub fn keep(&self) -> Result<(), StoreError> {
        let _turn = lock(&self.turn);
        let image = self.image()?;
        image.keep()?;
        self.run(Plan::Keep, &image)
    }

    /// Takes the held update back, as recovery undoes an interrupted one: what stood before stands again. [`Refusal::NothingHeld`] if there is
    /// none; [`Refusal::UndecodablePayload`], [`Refusal::LogTooLong`] and [`Refusal::Corruption`], which change nothing, if its log is damaged
    /// ([`FileStore::restore`] puts the backups back then). How the log broke, if a truncated one was discarded and no operation was done.
    ///
    /// A keep after a part of the revert's steps would lose keys. So a revert that was begun is ended by the next open, whatever stopped it; a
    /// mark beside the log, which is no part of an image, says that it was begun.
    pub fn revert(&self) -> Result<Option<Cause>, StoreError> {
        let _turn = lock(&self.turn);
        let cause = self.revert_image(&self.image()?)?;
        self.clear_up()?;
        Ok(cause)
    }

    /// Carries out a revert, with the mark before its first step.
    fn revert_image(&self, image: &Image) -> Result<Option<Cause>, StoreError> {
        let Recovered { cause, .. } = image.revert()?;
        self.stop_at_error(self.mark_reverting())?;
        self.run(Plan::Revert, image)?;
        Ok(cause)
    }

    /// The mark that a revert was begun, on the disk for good.
    fn mark_reverting(&self) -> Result<(), StoreError> {
        let mark = self.layout.reverting();
        self.layout.calls.write(&mark, b"").map_err(StoreError::at(&mark))?;
        self.layout.sync(&self.layout.journal())
    }

    /// The store as it stands on disk, with the files numbered from 1.
    pub fn image(&self) -> Result<Image, StoreError> {
        Ok(self.scanned()?.image()?)
    }

    /// The names of the collections.
    pub fn collections(&self) -> Result<Vec<String>, StoreError> {
        Ok(self.image()?.contents().directories.into_keys().collect())
    }

    /// The keys of a collection, lowered; none if the collection is missing.
    pub fn list(&self, collection: &str) -> Result<Vec<String>, StoreError> {
        Ok(self.image()?.list_keys(collection)?)
    }

    /// Opens a key's file to be read. A file of that name in other letter cases is found too; other than in the original it
    /// isn't renamed. [`Refusal::CollectionNotFound`] and [`Refusal::KeyNotFound`] say what is missing.
    pub fn read(&self, collection: &str, key: &str) -> Result<File, StoreError> {
        let _looking = self.looking()?;
        let path = self.found(collection, key)?;
        calls::open(&path).map_err(StoreError::at(&path))
    }

    /// The path of a key's file, as [`FileStore::read`] finds it. The next commit may replace or remove what stands there.
    pub fn path(&self, collection: &str, key: &str) -> Result<PathBuf, StoreError> {
        let _looking = self.looking()?;
        self.found(collection, key)
    }

    fn found(&self, collection: &str, key: &str) -> Result<PathBuf, StoreError> {
        let directories = scan::scan(&self.layout)?.image()?.contents().directories;
        let files = directories.get(collection).ok_or(Refusal::CollectionNotFound)?;
        let key = key.to_ascii_lowercase();
        let is_key = |name: &str| !matches!(Path::new(name).extension().and_then(OsStr::to_str), Some("bak" | "tmp"));
        let listed = |name: &&String| is_key(name) && name.eq_ignore_ascii_case(&key);
        let name = files.keys().find(|name| **name == key).or_else(|| files.keys().find(listed)).ok_or(Refusal::KeyNotFound)?;
        Ok(self.layout.file(collection, name))
    }

    /// Makes the directories that are missing, sees that all of the store is on the disk, and writes a new log.
    fn prepare(&self, begun: &Contents) -> Result<(), StoreError> {
        let layout = &self.layout;
        for directory in [layout.collections(), layout.journal(), layout.staging()] {
            layout.make_missing(&directory)?;
        }
        layout.sync_collections(begun)?;
        layout.sync(layout.root())?;
        let log = layout.log();
        layout.calls.write(&log, begun.log.as_deref().unwrap_or_default()).map_err(StoreError::at(&log))?;
        layout.sync(&layout.journal())
    }

    /// Recovers the store, if there is work.
    fn recover(&self, image: &Image) -> Result<(), StoreError> {
        if !image.has_pending_work()? {
            return Ok(());
        }
        let Recovered { cause, .. } = image.recover()?;
        *lock(&self.discarded) = cause;
        self.run(Plan::Recover, image)
    }

    /// Removes what a copy left that was stopped before it was in its place, and the mark of a revert, whose log is gone.
    fn clear_up(&self) -> Result<(), StoreError> {
        let own =
            [(scan::has_aside(&self.layout)?, self.layout.staged(ASIDE)), (scan::is_reverting(&self.layout)?, self.layout.reverting())];
        for (_, path) in own.into_iter().filter(|(stands, _)| *stands) {
            self.stop_at_error(self.layout.calls.remove_file(&path).map_err(StoreError::at(&path)))?;
        }
        Ok(())
    }

    /// Carries out a plan, step by step. A refusal of the whole plan comes before its first step.
    fn run(&self, plan: Plan, image: &Image) -> Result<(), StoreError> {
        let _alone = self.alone();
        image.steps(plan).try_for_each(|stepped| self.carry_out(plan, &stepped?))
    }

    /// Carries out a recovery's steps before the removal of the log: the image there.
    fn run_to_the_log(&self, image: &Image) -> Result<Image, StoreError> {
        let _alone = self.alone();
        let mut reached = image.clone();
        for stepped in image.recover_steps() {
            let stepped = stepped?;
            if stepped.step == Step::RemoveLog {
                break;
            }
            self.carry_out(Plan::Recover, &stepped)?;
            reached = stepped.image;
        }
        Ok(reached)
    }

    fn carry_out(&self, plan: Plan, stepped: &Stepped) -> Result<(), StoreError> {
        self.tell(false, plan, stepped);
        self.stop_at_error(self.layout.carry_out(stepped))?;
        self.tell(true, plan, stepped);
        Ok(())
    }

    /// Tells the observer of a step. Where it panics, the store is stopped.
    fn tell(&self, done: bool, plan: Plan, stepped: &Stepped) {
        let event = Event { done, plan, number: stepped.number, step: &stepped.step };
        let told = catch_unwind(AssertUnwindSafe(|| (lock(&self.observer))(&event)));
        if let Err(panic) = told {
            lock(&self.status).state = State::Stopped;
            resume_unwind(panic)
        }
    }

    /// The turn to change something outside a transaction, where none is open.
    fn idle(&self) -> Result<MutexGuard<'_, ()>, StoreError> {
        let busy = || match lock(&self.status).state {
            State::Idle => Ok(()),
            State::Recording => Err(StoreError::Refused(Refusal::TransactionBusy)),
            State::Stopped => Err(StoreError::Stopped),
        };
        busy()?;
        let turn = lock(&self.turn);
        busy().map(|()| turn)
    }

    /// What stands on disk, when nobody changes it.
    fn scanned(&self) -> Result<Contents, StoreError> {
        let _looking = self.looking()?;
        scan::scan(&self.layout)
    }

    /// Keeps who changes files away. A commit that was waited for may have stopped the store.
    fn looking(&self) -> Result<RwLockReadGuard<'_, ()>, StoreError> {
        let looking = self.files.read().unwrap_or_else(PoisonError::into_inner);
        if lock(&self.status).state == State::Stopped { Err(StoreError::Stopped) } else { Ok(looking) }
    }

    fn alone(&self) -> RwLockWriteGuard<'_, ()> {
        self.files.write().unwrap_or_else(PoisonError::into_inner)
    }

    /// Hands on a result; after an error the store must be opened anew.
    fn stop_at_error<T>(&self, result: Result<T, StoreError>) -> Result<T, StoreError> {
        result.inspect_err(|_| lock(&self.status).state = State::Stopped)
    }
}

impl fmt::Debug for FileStore {
    fn fmt(&self, f: &mut fmt::Formatter) -> fmt::Result {
        f.debug_struct("FileStore").field("root", &self.layout.root()).field("state", &lock(&self.status).state).finish_non_exhaustive()
    }
}
