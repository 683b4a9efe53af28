//! Losses of power on real file systems. A file system in an image file is mounted as a loop device, and a store on it is updated. At
//! every step the image is copied as it is then: what the file system has not written to its device is not in the copy. The copies are
//! mounted, the stores in them opened, which recovers them, and their files compared: exactly the earlier ones or exactly the later ones.
//! Recoveries of puts are copied at every step too, and those copies recovered. Each update follows another one at once.
//!
//! What is found of puts, before it is recovered, is among what the model of crates/power/specs/Loss.antt lets be found (`common/loss.rs`): the
//! model is not kinder than the file system.
//!
//! It runs where mounting is allowed and the file system's mkfs is found, and says so where not. Without words it is for ext4;
//! `mounted ext4 btrfs xfs` runs all three.
#[path = "common/mod.rs"]
mod common;

use cda_store::{Event, FileStore, Plan, Step, Transaction};
use common::{
    Folder, Tree,
    loss::{Area, History, Stood},
};
use std::{
    cell::Cell,
    env, fs,
    path::{Path, PathBuf},
    process::Command,
    sync::{Arc, Mutex},
    time::Instant,
};

struct FileSystem {
    name: &'static str,
    megabytes: u64,
    mkfs: &'static [&'static str],
}

const FILE_SYSTEMS: [FileSystem; 3] = [
    FileSystem { name: "ext4", megabytes: 16, mkfs: &["-q", "-F"] },
    FileSystem { name: "btrfs", megabytes: 128, mkfs: &["-q", "-f"] },
    FileSystem { name: "xfs", megabytes: 300, mkfs: &["-q", "-f"] },
];

/// Runs a program: nothing, or what it says.
fn run(program: &str, words: &[&str]) -> Result<(), String> {
    let output = Command::new(program).args(words).output().map_err(|error| format!("{program}: {error}"))?;
    let said = String::from_utf8_lossy(&output.stderr).trim().replace('\n', " ");
    if output.status.success() { Ok(()) } else { Err(format!("{program}: {said}")) }
}

fn text(path: &Path) -> &str {
    path.to_str().unwrap()
}

/// A mounted image, until it is dropped.
struct Mounted<'a>(&'a Path);

impl<'a> Mounted<'a> {
    fn new(image: &Path, at: &'a Path) -> Result<Mounted<'a>, String> {
        run("mount", &["-o", "loop", text(image), text(at)]).map(|()| Mounted(at))
    }
}

impl Drop for Mounted<'_> {
    fn drop(&mut self) {
        if let Err(error) = run("umount", &[text(self.0)]) {
            eprintln!("{error}");
        }
    }
}

/// An update: what is recorded upon which files.
struct Update {
    name: &'static str,
    /// Files that stand beside those of `FILES`.
    beside: &'static [&'static str],
    record: fn(&mut Transaction),
    /// Whether the model speaks of it: no collection is made, moved or removed. Then its recoveries are copied too.
    in_place: bool,
}

const FILES: &[&str] = &["current/a=11", "current/b=12", "db/a=1", "db/b=2", "db/c=3", "fonts/f=4", "next/a=21", "next/c=23"];

const UPDATES: [Update; 4] = [
    Update { name: "puts", beside: &[], record: puts, in_place: true },
    Update { name: "a copy to a new collection", beside: &[], record: |t| t.copy_collection("db", "new").unwrap(), in_place: false },
    Update { name: "a copy in place of another", beside: &[], record: |t| t.copy_collection("db", "fonts").unwrap(), in_place: false },
    Update { name: "a rotation", beside: &["backup/b=5"], record: rotation, in_place: false },
];

/// The update before, which leaves the removal of its backups unsynced.
fn first(transaction: &mut Transaction) {
    for (collection, key) in [("db", "a"), ("db", "c"), ("fonts", "f"), ("next", "a")] {
        transaction.write(collection, key, &[b'f'; 3_000][..]).unwrap();
    }
}

fn commit(store: &FileStore, record: fn(&mut Transaction)) {
    let mut transaction = store.begin().unwrap();
    record(&mut transaction);
    transaction.commit().unwrap();
}

fn puts(transaction: &mut Transaction) {
    for (collection, key) in [("db", "a"), ("db", "b"), ("db", "new"), ("fonts", "f")] {
        transaction.write(collection, key, &[b'n'; 5_000][..]).unwrap();
    }
}

fn rotation(transaction: &mut Transaction) {
    transaction.copy_collection("current", "backup").unwrap();
    transaction.copy_collection("next", "current").unwrap();
    transaction.delete_collection("next").unwrap();
}

/// A copy of the image, and what stood until it was taken.
#[derive(Clone)]
struct Copy {
    image: PathBuf,
    history: Option<History>,
}

/// Copies of the image, one for each step.
#[derive(Clone, Default)]
struct Copies(Arc<Mutex<(Vec<Copy>, Option<History>)>>);

impl Copies {
    fn take(&self, image: &Path, to: &Path) {
        let (taken, history) = &mut *self.0.lock().unwrap();
        let copy = to.join(format!("{}.image", taken.len()));
        run("cp", &["--sparse=always", text(image), text(&copy)]).unwrap();
        taken.push(Copy { image: copy, history: history.clone() });
    }

    /// Tells the history of a step, with the syncs that are added around it. It starts before the first step: all of the store is on the disk
    /// there, but for what a commit's log was appended.
    fn tell(&self, event: &Event, stood: Stood) {
        let history = &mut self.0.lock().unwrap().1;
        if !event.done {
            return if event.number == 1 {
                *history = Some(History::new(event.plan == Plan::Commit, stood))
            };
        }
        let Some(history) = history else { return };
        let recovers = event.plan == Plan::Recover;
        if recovers && event.number == 1 && history.last().log.is_none() {
            history.tell(Some(Area::Journal), history.last().clone());
        }
        if recovers && *event.step == Step::RemoveLog {
            let files = stood.tree.keys().map(|collection| Area::Files(collection.clone()));
            files.chain([Area::Collections]).for_each(|area| history.tell(Some(area), history.last().clone()));
            history.tell(None, stood.clone());
            return history.tell(Some(Area::Journal), stood);
        }
        let area = match event.step {
            Step::SyncDirectory { directory } => Some(Area::Files(directory.clone())),
            Step::SyncCollections => Some(Area::Collections),
            Step::SyncJournal => Some(Area::Journal),
            Step::SyncLog => Some(Area::Log),
            _ => None,
        };
        history.tell(area, stood);
    }

    fn taken(&self) -> Vec<Copy> {
        std::mem::take(&mut self.0.lock().unwrap().0)
    }
}

/// What stands in a store.
fn stood(store: &Path) -> Stood {
    Stood { tree: common::tree(store), log: fs::read(store.join("journal/transaction.wal")).ok() }
}

#[derive(Default)]
struct Seen {
    commits: Cell<u64>,
    recoveries: Cell<u64>,
    in_model: Cell<u64>,
    earlier: Cell<u64>,
    later: Cell<u64>,
}

fn count(cell: &Cell<u64>) {
    cell.set(cell.get() + 1);
}

/// Where the images stand, and where they are mounted.
struct Bench {
    folder: Folder,
    image: PathBuf,
    mount: PathBuf,
    seen: Seen,
}

impl Bench {
    /// A file system, or why there is none.
    fn new(system: &FileSystem) -> Result<Bench, String> {
        let folder = Folder::new();
        let (image, mount) = (folder.0.join("image"), folder.0.join("mount"));
        fs::create_dir(&mount).unwrap();
        ["commit", "recovery"].iter().for_each(|copies| fs::create_dir(folder.0.join(copies)).unwrap());
        fs::File::create(&image).unwrap().set_len(system.megabytes << 20).unwrap();
        run(&format!("mkfs.{}", system.name), &[system.mkfs, &[text(&image)]].concat())?;
        drop(Mounted::new(&image, &mount)?);
        Ok(Bench { folder, image, mount, seen: Seen::default() })
    }

    fn store(&self) -> PathBuf {
        self.mount.join("store")
    }

    /// Opens the store on an image, and copies the image before each step and behind the last.
    fn copied(&self, image: &Path, to: &str, before: impl FnOnce(), work: impl FnOnce(FileStore)) -> Vec<Copy> {
        let _mounted = Mounted::new(image, &self.mount).unwrap();
        before();
        let (copies, image, to) = (Copies::default(), image.to_path_buf(), self.folder.0.join(to));
        let (observed, watched, aside, store) = (copies.clone(), image.clone(), to.clone(), self.store());
        let observer = move |event: &Event| {
            observed.tell(event, stood(&store));
            if event.number == 1 || event.done {
                observed.take(&watched, &aside);
            }
        };
        work(FileStore::open_observed(self.store(), observer).unwrap());
        copies.take(&image, &to);
        copies.taken()
    }

    /// The files that recovery makes of a copy.
    fn recovered(&self, copy: &Copy, in_place: bool, at: &str) -> Tree {
        let _mounted = Mounted::new(&copy.image, &self.mount).unwrap();
        if let Some(history) = copy.history.as_ref().filter(|_| in_place) {
            let found = stood(&self.store());
            assert!(history.survives(&found), "{at}: the model does not let this be found: {found:?}\n{history:?}");
            count(&self.seen.in_model);
        }
        FileStore::open(self.store()).unwrap();
        assert!(!self.store().join("journal/transaction.wal").exists());
        common::tree(&self.store())
    }

    fn is_earlier_or_later(&self, copy: &Copy, in_place: bool, [earlier, later]: [&Tree; 2], at: &str) {
        let left = self.recovered(copy, in_place, at);
        assert!(left == *earlier || left == *later, "{at}: {left:?}");
        count(if left == *earlier { &self.seen.earlier } else { &self.seen.later });
    }

    fn update(&self, update: &Update) {
        let (earlier, later) = self.lay_out(update);
        let before = || commit(&FileStore::open(self.store()).unwrap(), first);
        let copies = self.copied(&self.image, "commit", before, |store| commit(&store, update.record));
        for (n, copy) in copies.iter().enumerate() {
            let at = format!("{}, step {n}", update.name);
            count(&self.seen.commits);
            if n + 1 == copies.len() {
                assert_eq!(self.recovered(copy, update.in_place, &at), later, "{at}: the commit has answered");
                break;
            }
            if update.in_place {
                let cut = self.folder.0.join("cut");
                run("cp", &["--sparse=always", text(&copy.image), text(&cut)]).unwrap();
                for (m, copy) in self.copied(&cut, "recovery", || {}, drop).iter().enumerate() {
                    count(&self.seen.recoveries);
                    self.is_earlier_or_later(copy, true, [&earlier, &later], &format!("{at}, then {m} of the recovery"));
                }
            }
            self.is_earlier_or_later(copy, update.in_place, [&earlier, &later], &at);
        }
    }

    /// Lays out files, all of it on the device: what the first update makes of them, and what the other then makes of that.
    fn lay_out(&self, update: &Update) -> (Tree, Tree) {
        let folder = Folder::with(&[update.beside, FILES].concat());
        {
            let _mounted = Mounted::new(&self.image, &self.mount).unwrap();
            let _ = fs::remove_dir_all(self.store());
            run("cp", &["-r", text(&folder.0), text(&self.store())]).unwrap();
        }
        let store = FileStore::open(&folder.0).unwrap();
        commit(&store, first);
        let earlier = common::tree(&folder.0);
        commit(&store, update.record);
        (earlier, common::tree(&folder.0))
    }
}

fn main() {
    let words: Vec<String> = env::args().skip(1).collect();
    let asked = |system: &&FileSystem| words.iter().any(|word| word == system.name) || words.is_empty() && system.name == "ext4";
    for system in FILE_SYSTEMS.iter().filter(asked) {
        let started = Instant::now();
        match Bench::new(system) {
            Err(why) => println!("{}: skipped, {why}", system.name),
            Ok(bench) => {
                UPDATES.iter().for_each(|update| bench.update(update));
                let Seen { commits, recoveries, in_model, earlier, later } = &bench.seen;
                println!(
                    "{}: {} losses of power in commits, {} in recoveries, {} found as the model has it; {} left the earlier files, {} the later; {:.1} s",
                    system.name,
                    commits.get(),
                    recoveries.get(),
                    in_model.get(),
                    earlier.get(),
                    later.get() + UPDATES.len() as u64,
                    started.elapsed().as_secs_f64()
                );
            }
        }
    }
}
