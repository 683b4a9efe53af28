//! The original behind the entries: an image is put on disk, the original's own code works on it, the disk is read
//! back.
//!
//! Where document 01 added a rule, the original has no opinion (`NO_OPINION`): numbers 1, 2, 4, 5, 10, 12, and 6 for a name
//! that the original takes. Document 01's limits are laid upon it as failing calls (`Watch::within_limits`), so 14 for a
//! long backup name and 15 are 01's, and what follows them is the original's.
//!
//! The original has no marked Write (document 02, item 4): a log with some is put on disk with Writes of kind 1 in their
//! place, and its answers have such a log too. Nor has it a cause (item 1): it says that a log is truncated, and not how. Nor can it hold an update
//! (item 6): it has no opinion of a store with a Held log.
mod calls;
mod disk;
mod listing;
mod trace;

pub use disk::Root;
pub use trace::{Cut, Trace};

use cda_interfaces::storage_api::{Collection, CollectionName, Operation, Storage, StorageError, Transaction, staging_folder};
use cda_storage::{LocalStorage, WalStatus, collection, has_pending_work, open_wal, read_wal, sanitize};
use plain::{
    Image,
    image::{self, LOG_LIMIT, STAGING_LIMIT, put_field},
    log::{OPERATION_LIMIT, is_held},
    name::is_valid,
};
use std::cell::Cell;
use std::path::Path;
use std::time::{Duration, Instant};
use store::{Answer, Call, HIT_ROOM, IMAGE_ROOM, KEYS_ROOM, Lent, NO_OPINION, Out, Plan, STEP_ROOM, Store, ask};
use tokio::block_on;

pub struct Original {
    pub root: Root,
    /// How long the original's own code worked in the last call.
    took: Cell<Duration>,
}

/// `None`: the original has no opinion.
type Opinion<T> = Option<T>;

/// The end of a commit or recovery, and what was seen on the way.
pub struct Run {
    pub number: u32,
    pub image: Image,
    pub trace: Trace,
}

impl Original {
    /// The original at work in a folder of its own, in memory where the system has such a file system.
    pub fn new() -> Original {
        let memory = Path::new("/dev/shm");
        let folder = if memory.is_dir() { memory.to_path_buf() } else { std::env::temp_dir() };
        Original { root: Root(folder.join(format!("cda-oracle-{}", std::process::id()))), took: Cell::default() }
    }

    fn timed<T>(&self, own_code: impl FnOnce() -> T) -> T {
        let start = Instant::now();
        let value = own_code();
        self.took.set(start.elapsed());
        value
    }

    /// How long the original's own code takes over a call, unwatched. The disk is made ready before and read back behind.
    pub fn time(&self, call: &Call, image: &[u8]) -> Duration {
        let run = |plan| decode(image, true).and_then(|image| self.run(plan, &image, Cut::Unwatched));
        let done = match call {
            Call::Commit => run(Plan::Commit).is_some(),
            Call::Recover => run(Plan::Recover).is_some(),
            _ => ask(self, call, image, Lent::AMPLE).number == 0,
        };
        assert!(done, "{call:?} is done");
        self.took.get()
    }

    /// A store that stands open over the image on disk, with the image's transaction if it has an open mark. A new store
    /// would recover what it finds: it is opened while the disk is empty.
    fn open(&self, image: &Image) -> (LocalStorage, Option<Transaction>) {
        self.root.clear();
        staging_folder(self.root.staging().to_str().unwrap());
        let storage = LocalStorage::new(&self.root.0).unwrap();
        let transaction = image.open.then(|| storage.begin_transaction().unwrap());
        self.root.put(image);
        (storage, transaction)
    }

    fn read_back(&self, storage: &LocalStorage) -> Image {
        let image = self.root.get();
        Image { open: is_open(storage), ..image }
    }

    /// Number 4 is added: the operations of a Recording log that the original reads untruncated.
    fn recorded(&self) -> Opinion<Vec<Operation>> {
        let (WalStatus::Recording, log) = open_wal(&self.root.log()).ok()?? else { return None };
        let read = read_wal(&log).ok()?;
        (!read.truncated && read.operations.len() <= OPERATION_LIMIT).then_some(read.operations)
    }

    /// Runs the original's own code up to a cut: its result, what was seen, and what the disk holds then.
    fn until<T>(&self, cut: Cut, image: &Image, commit: bool, own_code: impl FnOnce() -> T) -> (T, Trace, Image) {
        if cut == Cut::Unwatched {
            return (self.timed(own_code), Trace::default(), self.root.get());
        }
        trace::start(&self.root, image, commit, cut);
        let result = own_code();
        let (trace, image) = trace::stop();
        (result, trace, image)
    }

    /// A commit or recovery up to a cut.
    pub fn run(&self, plan: Plan, image: &Image, cut: Cut) -> Opinion<Run> {
        match plan {
            Plan::Commit => self.commit_until(image, cut),
            Plan::Recover => self.recover_until(image, cut),
            Plan::Hold | Plan::Keep | Plan::Revert => None,
        }
    }

    fn commit_until(&self, image: &Image, cut: Cut) -> Opinion<Run> {
        let (storage, transaction) = self.open(image);
        let mut transaction = transaction?;
        self.recorded()?.into_iter().for_each(|o| transaction.record(o));
        let (result, trace, image) = self.until(cut, image, true, || block_on(transaction.commit()));
        let number = trace.failed.unwrap_or(0);
        assert!(cut != Cut::Never || result.is_err() == (number != 0), "a failed commit has a failing step: {result:?}");
        Some(Run { number, image: Image { open: is_open(&storage), ..image }, trace })
    }

    fn recover_until(&self, image: &Image, cut: Cut) -> Opinion<Run> {
        if over_the_limit(image.log.as_deref().unwrap_or_default()) {
            return None;
        }
        self.root.clear();
        self.root.put(image);
        Some(self.recover_in_place(image, cut))
    }

    /// Recovery of what stands on disk, which is this image.
    pub fn recover_in_place(&self, image: &Image, cut: Cut) -> Run {
        let (result, trace, image) = self.until(cut, image, false, || LocalStorage::new(&self.root.0));
        let number = match result {
            _ if cut != Cut::Never => 0,
            Ok(_) => 0,
            Err(StorageError::Corruption(_)) => 13,
            Err(StorageError::Other(_)) => 11,
            Err(error) => panic!("recovery: {error}"),
        };
        assert!(number == 0 || trace.steps.is_empty(), "a refusal changes nothing");
        Run { number, image, trace }
    }

    /// Opens a store over what the image says, whatever its names, and says what came of it.
    pub fn restart(&self, image: &Image) -> (Result<(), String>, Image) {
        self.root.clear();
        self.root.put(image);
        let opened = LocalStorage::new(&self.root.0).map(|_| ()).map_err(|error| error.to_string());
        (opened, self.root.get())
    }

    /// Records one operation, or has no opinion: numbers 4 and 5, and what `added` says.
    fn record(&self, image: &[u8], out: &mut Out, added: impl FnOnce(&Image) -> bool, call: Call) -> u32 {
        let opinion = || {
            let image = decode(image, out.bytes.len() >= IMAGE_ROOM)?;
            let (storage, transaction) = self.open(&image);
            let mut transaction = transaction?;
            if self.recorded()?.len() == OPERATION_LIMIT || added(&image) {
                return None;
            }
            let result = self.timed(|| self.carry_out(&call, &storage, &mut transaction));
            let after = self.read_back(&storage);
            assert!(result.is_ok() || after == image, "a refusal changes nothing");
            Some(result.map(|()| after))
        };
        match opinion() {
            None => NO_OPINION,
            Some(Ok(image)) => {
                out.put(&image.encode());
                0
            }
            Some(Err(StorageError::CollectionNotFound(_))) => 7,
            Some(Err(StorageError::KeyNotFound(_))) => 8,
            Some(Err(StorageError::TransactionConflict(_))) => 9,
            Some(Err(StorageError::Other(_))) => 6,
            Some(Err(error)) => panic!("recording: {error}"),
        }
    }

    /// The original's own recording of an operation, whose names can be given.
    fn carry_out(&self, call: &Call, storage: &LocalStorage, transaction: &mut Transaction) -> Result<(), StorageError> {
        let handle = |folder: &[u8]| {
            let folder = given(folder).unwrap();
            sanitize(folder).map(|()| collection(&self.root.collections(), folder))
        };
        match call {
            Call::Write { collection, key, staged, number } => {
                let handle = handle(collection)?;
                uuid::name_next(given(staged).unwrap());
                block_on(handle.write(transaction, std::str::from_utf8(key).unwrap(), &mut &number.to_le_bytes()[..]))
            }
            Call::Delete { collection, key } => block_on(handle(collection)?.delete(transaction, std::str::from_utf8(key).unwrap())),
            Call::DeleteAll { collection } => block_on(handle(collection)?.delete_all(transaction)),
            Call::CreateCollection { name } => block_on(storage.create_collection(transaction, &custom(name))).map(|_| ()),
            Call::DeleteCollection { name } => block_on(storage.delete_collection(transaction, &custom(name))),
            Call::CopyCollection { source, dest } => {
                // A destination that can't be given is not looked at where the source is missing.
                let dest = if given(dest).is_some() { dest } else { &b"unused"[..] };
                block_on(storage.copy_collection(transaction, &custom(source), &custom(dest)))
            }
            other => panic!("{other:?} records nothing"),
        }
    }

    /// The steps of a commit by another hand, as its file calls show them. The disk holds the image.
    pub fn watch(&self, image: &Image, commit: impl FnOnce()) -> Trace {
        trace::start(&self.root, image, true, Cut::Never);
        commit();
        trace::stop().0
    }

    /// Opens what stands on disk, which recovers it.
    pub fn reopen(&self) -> Opened<'_> {
        staging_folder(self.root.staging().to_str().unwrap());
        Opened { original: self, storage: LocalStorage::new(&self.root.0).unwrap(), transaction: None }
    }

    fn whole(&self, plan: Plan, image: &[u8], out: &mut Out) -> u32 {
        let run = decode(image, out.bytes.len() >= IMAGE_ROOM).and_then(|image| self.run(plan, &image, Cut::Never));
        let Some(run) = run else { return NO_OPINION };
        if matches!(run.number, 0 | 14 | 15) {
            out.put(&run.image.encode());
        }
        run.number
    }

    fn step(&self, plan: Plan, image: &[u8], n: u64, out: &mut Out, step: &mut Out) -> u32 {
        if out.bytes.len() < IMAGE_ROOM || step.bytes.len() < STEP_ROOM {
            return NO_OPINION;
        }
        let (_, answers) = self.plan(plan, image);
        let answer = &answers[usize::try_from(n).unwrap_or(usize::MAX).min(answers.len() - 1)];
        if answer.number == 0 {
            out.put(answer.out.as_ref().unwrap());
            step.put(answer.step.as_ref().unwrap());
        }
        answer.number
    }
}

/// A store that stands open over what is on disk, and its transaction.
pub struct Opened<'a> {
    original: &'a Original,
    storage: LocalStorage,
    transaction: Option<Transaction>,
}

impl Opened<'_> {
    pub fn begin(&mut self) {
        self.transaction = Some(self.storage.begin_transaction().unwrap());
    }

    /// Whether the original took the operation.
    pub fn record(&mut self, call: &Call) -> bool {
        self.original.carry_out(call, &self.storage, self.transaction.as_mut().unwrap()).is_ok()
    }

    /// Commits the transaction, which is this image, up to a cut.
    pub fn commit(&mut self, image: &Image, cut: Cut) {
        trace::start(&self.original.root, image, true, cut);
        let _ = block_on(self.transaction.take().unwrap().commit());
        trace::stop();
    }
}

impl Drop for Original {
    fn drop(&mut self) {
        let _ = std::fs::remove_dir_all(&self.root.0);
    }
}

/// The open mark, which the original keeps in memory: begin is busy. Where it isn't, the disk has changed.
fn is_open(storage: &LocalStorage) -> bool {
    matches!(storage.begin_transaction(), Err(StorageError::TransactionBusy))
}

/// The store of an image, with an old log. Status 0x02 is added: the original would take such a log for none.
fn decode(image: &[u8], room: bool) -> Opinion<Image> {
    Image::decode(image).filter(|image| room && !is_held(image.log.as_deref())).map(Image::unmarked)
}

/// An answer as the original gives it: its image has an old log.
pub fn old(answer: &Answer) -> Answer {
    Answer { out: answer.out.as_deref().map(image::unmarked), ..answer.clone() }
}

/// Number 12 is added: a Committing log of which the original reads 32 operations and that goes on.
fn over_the_limit(log: &[u8]) -> bool {
    plain::log::status(log) == Some(plain::log::Status::Committing) && goes_on(log)
}

fn goes_on(log: &[u8]) -> bool {
    let mut end = 8usize;
    for _ in 0..OPERATION_LIMIT {
        let Some(length) = log.get(end + 4..end + 8) else { return false };
        end = end.saturating_add(8).saturating_add(u32::from_le_bytes(length.try_into().unwrap()) as usize);
    }
    let whole = |log: &[u8]| read_wal(log).is_ok_and(|read| !read.truncated && read.operations.len() == OPERATION_LIMIT);
    log.get(..end).is_some_and(|first| first.len() < log.len() && whole(first))
}

/// A given name as the original takes it. `None` is a name that 01 refuses and the original doesn't, or can't be given.
fn given(name: &[u8]) -> Opinion<&str> {
    std::str::from_utf8(name).ok().filter(|text| is_valid(name) || sanitize(text).is_err())
}

fn custom(name: &[u8]) -> CollectionName {
    CollectionName::Custom(given(name).unwrap().to_string())
}

impl Store for Original {
    fn name(&self) -> &'static str {
        "original"
    }

    fn begin(&self, image: &[u8], out: &mut Out) -> u32 {
        let Some(image) = decode(image, out.bytes.len() >= IMAGE_ROOM) else { return NO_OPINION };
        let (storage, _transaction) = self.open(&image);
        let begun = self.timed(|| storage.begin_transaction());
        match &begun {
            Ok(_) => {
                out.put(&self.read_back(&storage).encode());
                0
            }
            Err(StorageError::TransactionBusy) => 3,
            Err(error) => panic!("begin: {error}"),
        }
    }

    fn write(&self, image: &[u8], folder: &[u8], key: &[u8], staged: &[u8], number: u32, out: &mut Out) -> u32 {
        let key = key.to_ascii_lowercase();
        let added = |image: &Image| {
            let (Some(folder), Some(key), true) = (given(folder), given(&key), is_valid(staged)) else { return true };
            let refused = sanitize(folder).is_err() || sanitize(key).is_err();
            !refused && (number == 0 || image.staging.len() == STAGING_LIMIT || image.staging.contains_key(staged))
        };
        let (collection, staged) = (folder.to_vec(), staged.to_vec());
        self.record(image, out, added, Call::Write { collection, key: key.clone(), staged, number })
    }

    fn delete(&self, image: &[u8], folder: &[u8], key: &[u8], out: &mut Out) -> u32 {
        let added = |_: &Image| given(folder).is_none() || given(&key.to_ascii_lowercase()).is_none();
        self.record(image, out, added, Call::Delete { collection: folder.to_vec(), key: key.to_vec() })
    }

    fn delete_all(&self, image: &[u8], folder: &[u8], out: &mut Out) -> u32 {
        let added = |_: &Image| given(folder).is_none();
        self.record(image, out, added, Call::DeleteAll { collection: folder.to_vec() })
    }

    fn create_collection(&self, image: &[u8], name: &[u8], out: &mut Out) -> u32 {
        let added = |_: &Image| given(name).is_none();
        self.record(image, out, added, Call::CreateCollection { name: name.to_vec() })
    }

    fn delete_collection(&self, image: &[u8], name: &[u8], out: &mut Out) -> u32 {
        let added = |_: &Image| given(name).is_none();
        self.record(image, out, added, Call::DeleteCollection { name: name.to_vec() })
    }

    fn copy_collection(&self, image: &[u8], source: &[u8], dest: &[u8], out: &mut Out) -> u32 {
        let added = |image: &Image| given(source).is_none() || image.dirs.contains_key(source) && given(dest).is_none();
        self.record(image, out, added, Call::CopyCollection { source: source.to_vec(), dest: dest.to_vec() })
    }

    fn commit(&self, image: &[u8], out: &mut Out) -> u32 {
        self.whole(Plan::Commit, image, out)
    }

    fn commit_step(&self, image: &[u8], n: u64, out: &mut Out, step: &mut Out) -> u32 {
        self.step(Plan::Commit, image, n, out, step)
    }

    fn rollback(&self, image: &[u8], out: &mut Out) -> u32 {
        let opinion = || {
            let image = decode(image, out.bytes.len() >= IMAGE_ROOM)?;
            let (storage, transaction) = self.open(&image);
            self.recorded()?;
            let transaction = transaction?;
            self.timed(|| transaction.rollback());
            Some(self.read_back(&storage))
        };
        let Some(image) = opinion() else { return NO_OPINION };
        out.put(&image.encode());
        0
    }

    fn has_pending_work(&self, image: &[u8], pending: &mut u32) -> u32 {
        let Some(image) = decode(image, true) else { return NO_OPINION };
        self.root.clear();
        self.root.put(&image);
        let (journal, collections) = (self.root.journal(), self.root.collections());
        *pending = u32::from(self.timed(|| has_pending_work(&journal, &collections)));
        0
    }

    fn recover(&self, image: &[u8], out: &mut Out, _cause: &mut u32) -> u32 {
        self.whole(Plan::Recover, image, out)
    }

    fn recover_step(&self, image: &[u8], n: u64, out: &mut Out, step: &mut Out) -> u32 {
        self.step(Plan::Recover, image, n, out, step)
    }

    fn list_keys(&self, image: &[u8], folder: &[u8], out: &mut Out) -> u32 {
        let Some(image) = decode(image, out.bytes.len() >= KEYS_ROOM) else { return NO_OPINION };
        let Some(folder) = given(folder) else { return NO_OPINION };
        if sanitize(folder).is_err() {
            return 6;
        }
        self.root.clear();
        self.root.put(&image);
        let handle = collection(&self.root.collections(), folder);
        let mut keys = Vec::new();
        for key in self.timed(|| block_on(handle.list())).unwrap() {
            put_field(&mut keys, 0x03, &[key.as_bytes()]);
        }
        out.put(&keys);
        0
    }

    /// The original doesn't name its hit, so it has an opinion where no backup stands: its search is what is left of `has_pending_work` without
    /// log and staging files.
    fn find_backup(&self, image: &[u8], out: &mut Out) -> u32 {
        let Some(image) = decode(image, out.bytes.len() >= HIT_ROOM) else { return NO_OPINION };
        let mut pending = 0;
        self.has_pending_work(&Image { log: None, staging: Default::default(), ..image }.encode(), &mut pending);
        if pending != 0 {
            return NO_OPINION;
        }
        out.put(&[]);
        0
    }

    /// The original doesn't say how a log broke, so it has an opinion where none is: of a whole log, and of a payload that doesn't decode. A
    /// log over a limit, and one without a valid header, are the documents'.
    fn log_cause(&self, log: &[u8], cause: &mut u32) -> u32 {
        if log.len() > LOG_LIMIT || plain::log::status(log).is_none() || is_held(Some(log)) || goes_on(log) {
            return NO_OPINION;
        }
        match read_wal(log) {
            Ok(read) if read.truncated => NO_OPINION,
            Ok(_) => {
                *cause = 0;
                0
            }
            Err(_) => 11,
        }
    }

    /// The original makes none, and holds no update.
    fn inventory(&self, _: &[u8], _: &mut Out) -> u32 {
        NO_OPINION
    }
    fn hold(&self, _: &[u8], _: &mut Out) -> u32 {
        NO_OPINION
    }
    fn hold_step(&self, _: &[u8], _: u64, _: &mut Out, _: &mut Out) -> u32 {
        NO_OPINION
    }
    fn keep(&self, _: &[u8], _: &mut Out) -> u32 {
        NO_OPINION
    }
    fn keep_step(&self, _: &[u8], _: u64, _: &mut Out, _: &mut Out) -> u32 {
        NO_OPINION
    }
    fn revert(&self, _: &[u8], _: &mut Out, _: &mut u32) -> u32 {
        NO_OPINION
    }
    fn revert_step(&self, _: &[u8], _: u64, _: &mut Out, _: &mut Out) -> u32 {
        NO_OPINION
    }

    /// All answers by one run.
    fn plan(&self, plan: Plan, image: &[u8]) -> (Answer, Vec<Answer>) {
        let run = decode(image, true).and_then(|image| Some((self.run(plan, &image, Cut::Never)?, image)));
        let (run, start) = match run {
            None => return (Answer::refusal(NO_OPINION), vec![Answer::refusal(NO_OPINION)]),
            Some((run, _)) if (11..=13).contains(&run.number) => {
                return (Answer::refusal(run.number), vec![Answer::refusal(run.number)]);
            }
            Some(done) => done,
        };
        let whole = Answer { number: run.number, out: Some(run.image.encode()), ..Answer::default() };
        let last = run.trace.steps.len();
        let images = std::iter::once(start).chain(run.trace.images);
        let fields = std::iter::once(Vec::new()).chain(run.trace.steps.iter().map(|step| step.field()));
        let answer = |(n, (image, field)): (usize, (Image, Vec<u8>))| {
            let image = Image { open: plan == Plan::Commit && n < last, ..image };
            Answer { out: Some(image.encode()), step: Some(field), ..Answer::default() }
        };
        let steps = images.zip(fields).enumerate().map(answer);
        (whole, steps.chain([Answer::refusal(16)]).collect())
    }
}
