//! The host (host/) and the original on one directory, in turns, by lot. Each opens what stands there, which recovers it, records
//! a transaction, and is ended by its process's exit after some step of the commit; now and then a recovery is ended too, or a
//! file is put there from outside. Behind every call the disk is held to what the port says, as the original's side reads it
//! and as the host does. A commit of the host that runs to its end is watched as the original's are, unless it has copies,
//! which the host makes on the side: its file calls, syncs included, are the plan's steps. A commit that is refused is discarded
//! by the host and has no steps.
//!
//! The host records marked Writes (document 02, item 4), the original Writes of kind 1, which the port is held to but for kind
//! and mark. A log that the host left is opened by the host as it is; for the original its Writes are turned into such of kind 1.
use crate::child;
use crate::generate::Rng;
use crate::panel::Panel;
use crate::text;
use cda_store::{Event, FileStore, StoreError, Transaction, scan};
use original::{Cut, Original};
use plain::{
    Image,
    image::Files,
    log::{self, Status},
    step::Step,
};
use std::{
    path::Path,
    sync::{
        Arc,
        atomic::{AtomicU64, Ordering},
    },
    time::Instant,
};
use store::{Call, Lent, Plan, Store, ask};

const DIRS: [&str; 5] = ["c", "c.bak", "d", "C", "e.tmp"];
const KEYS: [&str; 7] = ["a", "a.bak", "b", "A", "a.tmp", "B.x", "....bak"];
const PROVISIONED: &str = "Q";

struct Turns<'a> {
    original: &'a Original,
    port: &'a dyn Store,
    /// What stands on disk.
    model: Image,
    cut: u64,
    watched: u64,
    refused: u64,
    recoveries: u64,
    disks: u64,
    /// Committing logs with marked Writes that the host opened, and those that the original was given as old ones.
    marked: u64,
    unmarked: u64,
}

/// Opens the store for the host, whose process ends after as many steps as are set.
fn open(root: &Path, steps: &Arc<AtomicU64>) -> FileStore {
    let steps = Arc::clone(steps);
    let end = move |event: &Event| {
        let done = if event.done { event.number } else { event.number - 1 };
        if done == steps.load(Ordering::Relaxed) {
            child::end()
        }
    };
    FileStore::open_observed(root, end).unwrap()
}

fn after(n: u64) -> Arc<AtomicU64> {
    Arc::new(AtomicU64::new(n))
}

impl Turns<'_> {
    fn host(&mut self, rng: &mut Rng) {
        let (original, steps) = (self.original, after(u64::MAX));
        self.marked += u64::from(self.is_marked());
        let store = open(&original.root.0, &steps);
        self.told(&Call::Recover, true);
        let mut transaction = store.begin().unwrap();
        self.told(&Call::Begin, true);
        for call in calls(rng) {
            let accepted = record(&mut transaction, &call);
            self.told(&call, accepted);
        }
        if ask(self.port, &Call::Commit, &self.model.encode(), Lent::AMPLE).number != 0 {
            let answer = transaction.commit();
            self.agree(&Call::Commit, matches!(answer, Err(StoreError::Refused(_))));
            self.told(&Call::Rollback, true);
            self.refused += 1;
            return;
        }
        let plan = self.plan(Plan::Commit);
        let n = choose(rng, plan.len());
        let copies = plan.iter().any(|field| field[0] == 0x27);
        if n == plan.len() && !copies {
            let trace = original.watch(&self.model, || drop(transaction.commit()));
            self.agree(&Call::Commit, trace.steps.iter().map(Step::field).eq(plan));
            self.watched += 1;
            self.ended(0, Plan::Commit, n);
        } else {
            steps.store(n as u64, Ordering::Relaxed);
            let status = child::run(|| drop(transaction.commit()));
            self.ended(status, Plan::Commit, n);
        }
    }

    fn original(&mut self, rng: &mut Rng) {
        let original = self.original;
        self.put_old_log();
        let mut opened = original.reopen();
        self.told(&Call::Recover, true);
        opened.begin();
        self.told(&Call::Begin, true);
        for call in calls(rng) {
            let accepted = opened.record(&call);
            self.held(&call, accepted, Image::unmarked);
        }
        let (n, image) = (choose(rng, self.plan(Plan::Commit).len()), self.model.clone());
        let status = child::run(move || opened.commit(&image, Cut::Exit(n)));
        self.ended(status, Plan::Commit, n);
    }

    /// A file is put into a collection from outside, with a name that isn't lowered.
    fn provision(&mut self, rng: &mut Rng) {
        let number = rng.below(1000) as u32 + 1;
        if let Some((dir, files)) = self.model.dirs.iter_mut().next() {
            files.insert(PROVISIONED.into(), number);
            std::fs::write(self.original.root.dir(dir).join(PROVISIONED), number.to_le_bytes()).unwrap();
        }
    }

    /// A recovery, by either, that is ended too.
    fn recovery(&mut self, rng: &mut Rng) {
        let by_host = rng.one_in(2);
        if by_host {
            self.marked += u64::from(self.is_marked());
        } else {
            self.put_old_log();
        }
        let steps = self.plan(Plan::Recover).len();
        if steps == 0 {
            return;
        }
        let (n, original) = (rng.below(steps) + 1, self.original);
        let status = if by_host {
            child::run(|| drop(open(&original.root.0, &after(n as u64))))
        } else {
            child::run(|| drop(original.recover_in_place(&self.model, Cut::Exit(n))))
        };
        self.ended(status, Plan::Recover, n);
        self.recoveries += 1;
    }

    /// Whether a log stands that is recovered by its marks.
    fn is_marked(&self) -> bool {
        let committing = |log: &&Vec<u8>| log::status(log) == Some(Status::Committing);
        self.model.log.as_ref().filter(committing).is_some_and(|log| log::unmarked(log) != *log)
    }

    /// Turns the Writes of the log on disk into such of kind 1: the original knows no other.
    fn put_old_log(&mut self) {
        self.unmarked += u64::from(self.is_marked());
        self.model = std::mem::take(&mut self.model).unmarked();
        if let Some(log) = &self.model.log {
            std::fs::write(self.original.root.log(), log).unwrap();
        }
    }

    /// The fields of a plan's steps, by the port.
    fn plan(&self, plan: Plan) -> Vec<Vec<u8>> {
        let answers = self.port.plan(plan, &self.model.encode()).1;
        answers.into_iter().skip(1).filter_map(|answer| answer.step).collect()
    }

    /// A call of the host's, or one that records no Write.
    fn told(&mut self, call: &Call, accepted: bool) {
        self.held(call, accepted, |image| image);
    }

    /// A call was accepted or refused on disk: so it is by the port, and the disk holds what the port hands back, recorded as it would be
    /// there. A Write's staging file has the name that was found for it.
    fn held(&mut self, call: &Call, accepted: bool, recorded: fn(Image) -> Image) {
        let mut call = call.clone();
        if let Call::Write { staged, .. } = &mut call {
            let standing = self.original.root.get().staging;
            *staged = standing.into_keys().find(|name| !self.model.staging.contains_key(name)).unwrap_or(staged.clone());
        }
        let answer = ask(self.port, &call, &self.model.encode(), Lent::AMPLE);
        self.agree(&call, (answer.number == 0) == accepted);
        if let Some(image) = answer.out {
            self.model = recorded(Image::decode(&image).expect("an image"));
        }
        self.same_disk(&call);
        self.disks += 1;
    }

    /// A process ended after n steps.
    fn ended(&mut self, status: i32, plan: Plan, n: usize) {
        let call = plan.step(n as u64);
        self.agree(&call, status == 0);
        self.told(&call, true);
        self.cut += u64::from(self.model.open);
        self.model.open = false;
    }

    /// The disk holds the model, by both readers.
    fn same_disk(&self, call: &Call) {
        let model = Image { open: false, ..self.model.clone() };
        let disk = self.original.root.get();
        self.agree(call, disk == model && by_host(&self.original.root.0) == model);
    }

    fn agree(&self, call: &Call, holds: bool) {
        if !holds {
            println!("\nDIFFERENCE at {call:?}");
            println!("    port     {}\n    disk     {}", text::store(&self.model), text::store(&self.original.root.get()));
            let _ = std::fs::remove_dir_all(&self.original.root.0);
            std::process::exit(1)
        }
    }
}

/// After how many steps of a commit its process is to end.
fn choose(rng: &mut Rng, steps: usize) -> usize {
    if rng.one_in(3) { steps } else { rng.below(steps + 1) }
}

/// The store as the host scans it, with each file's content as its number.
fn by_host(root: &Path) -> Image {
    let contents = scan(root).unwrap().contents();
    let files = |folder: &Path, files: cda_store::Files| -> Files {
        let content = |name: &str| u32::from_le_bytes(std::fs::read(folder.join(name)).unwrap().try_into().expect("four bytes"));
        files.into_keys().map(|name| (name.clone().into_bytes(), content(&name))).collect()
    };
    let dirs = contents.directories.into_iter();
    Image {
        dirs: dirs.map(|(dir, inside)| (dir.clone().into_bytes(), files(&root.join("collections").join(dir), inside))).collect(),
        staging: files(&root.join("journal/staging"), contents.staging),
        log: contents.log,
        open: false,
    }
}

/// Whether the host took the operation.
fn record(transaction: &mut Transaction, call: &Call) -> bool {
    let result = match call {
        Call::Write { collection, key, number, .. } => transaction.write(utf8(collection), utf8(key), &number.to_le_bytes()[..]),
        Call::Delete { collection, key } => transaction.delete(utf8(collection), utf8(key)),
        Call::DeleteAll { collection } => transaction.delete_all(utf8(collection)),
        Call::CreateCollection { name } => transaction.create_collection(utf8(name)),
        Call::DeleteCollection { name } => transaction.delete_collection(utf8(name)),
        Call::CopyCollection { source, dest } => transaction.copy_collection(utf8(source), utf8(dest)),
        other => panic!("{other:?} records nothing"),
    };
    match result {
        Ok(()) => true,
        Err(StoreError::Refused(_)) => false,
        Err(error) => panic!("{error}"),
    }
}

fn utf8(name: &[u8]) -> &str {
    std::str::from_utf8(name).unwrap()
}

/// The operations of a transaction.
fn calls(rng: &mut Rng) -> Vec<Call> {
    let count = rng.below(7);
    (0..count).map(|i| one(rng, format!("o{i}.tmp").into())).collect()
}

fn one(rng: &mut Rng, staged: Vec<u8>) -> Call {
    let (collection, key) = (rng.pick(&DIRS).into(), rng.pick(&KEYS).into());
    match rng.below(10) {
        0..=4 => Call::Write { collection, key, staged, number: rng.below(1000) as u32 + 1 },
        5 if rng.one_in(2) => Call::Delete { collection, key: PROVISIONED.into() },
        5 => Call::Delete { collection, key },
        6 => Call::DeleteAll { collection },
        7 => Call::CreateCollection { name: collection },
        8 => Call::DeleteCollection { name: collection },
        _ => Call::CopyCollection { source: collection, dest: rng.pick(&DIRS).into() },
    }
}

pub fn run(panel: &mut Panel, seed: u64, turns: u64) {
    let started = Instant::now();
    let original = panel.original.take().expect("the original");
    let port = panel.port.take().expect("the port");
    original.root.clear();
    let (model, port) = (Image::default(), port.as_ref());
    let mut all =
        Turns { original: &original, port, model, cut: 0, watched: 0, refused: 0, recoveries: 0, disks: 0, marked: 0, unmarked: 0 };
    for turn in 0..turns {
        let rng = &mut Rng::new(seed, turn);
        if rng.one_in(4) {
            all.recovery(rng);
        }
        if rng.one_in(2) {
            all.provision(rng);
        }
        if rng.one_in(2) {
            all.host(rng)
        } else {
            all.original(rng)
        }
        panel.inputs = all.disks;
        panel.progress("host", turn, turns);
    }
    println!(
        "host, seed {seed}: original, host and port agree; {turns} turns on one directory, {} commits and {} recoveries cut, {} commits of the \
         host watched and {} refused, {} disks compared; logs of cut commits with marked Writes: {} opened by the host, {} by the original as old ones; {:.1} s",
        all.cut,
        all.recoveries,
        all.watched,
        all.refused,
        all.disks,
        all.marked,
        all.unmarked,
        started.elapsed().as_secs_f64()
    );
}
