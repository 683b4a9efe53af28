//! A store on a real directory: what the calls do, what is refused, and what a failed file call leaves.
mod common;

use cda_storage_sys::LOG_LIMIT;
use cda_store::{Cause, Event, FileStore, Plan, Reader, Refusal, Step, StoreError, Transaction, scan};
use common::{COMMITTING, Folder, OLD_WRITE, RECORDING, crc32};
use std::{
    fs,
    io::{self, Read},
    os::unix::fs::symlink,
    panic::{AssertUnwindSafe, catch_unwind},
    path::{Path, PathBuf},
    sync::{Arc, Mutex},
    thread,
    time::{Duration, SystemTime},
};

fn refusal(result: Result<(), StoreError>) -> Refusal {
    match result {
        Err(StoreError::Refused(refusal)) => refusal,
        other => panic!("{other:?}"),
    }
}

/// What a transaction makes of these files.
fn committed(files: &[&str], record: impl FnOnce(&mut Transaction)) -> Vec<String> {
    let folder = Folder::with(files);
    let store = FileStore::open(&folder.0).unwrap();
    let mut transaction = store.begin().unwrap();
    record(&mut transaction);
    transaction.commit().unwrap();
    assert!(!store.image().unwrap().has_pending_work().unwrap());
    folder.files()
}

#[test]
fn open_creates_nothing() {
    let folder = Folder::new();
    let store = FileStore::open(&folder.0).unwrap();
    assert_eq!(store.collections().unwrap(), [""; 0]);
    assert_eq!(store.list("db").unwrap(), [""; 0]);
    assert!(folder.everything().is_empty());
    store.begin().unwrap();
    assert_eq!(folder.everything().len(), 3);
}

#[test]
fn a_store_can_be_handed_to_another_thread() {
    let folder = Folder::with(&["db/a=1"]);
    let store = FileStore::open(&folder.0).unwrap();
    assert_eq!(std::thread::spawn(move || store.list("db").unwrap()).join().unwrap(), ["a"]);
}

#[test]
fn a_missing_root_is_an_error() {
    let folder = Folder::new();
    let missing = folder.0.join("none");
    match FileStore::open(&missing) {
        Err(StoreError::Io { path, step: None, source }) => assert_eq!((path, source.kind()), (missing.clone(), io::ErrorKind::NotFound)),
        other => panic!("{other:?}"),
    }
    let store = FileStore::open(&folder.0).unwrap();
    fs::remove_dir_all(&folder.0).unwrap();
    assert!(matches!(store.begin(), Err(StoreError::Io { .. })));
    assert!(!folder.0.exists());
}

#[test]
fn one_store_at_a_time() {
    let folder = Folder::new();
    let store = FileStore::open(&folder.0).unwrap();
    assert!(matches!(FileStore::open(&folder.0), Err(StoreError::Locked { path }) if path == folder.0));
    drop(store);
    FileStore::open(&folder.0).unwrap();
}

#[test]
fn a_reader_waits_for_an_update() {
    let folder = Folder::with(&["db/a=1"]);
    let store = FileStore::open(&folder.0).unwrap();
    assert!(matches!(Reader::open(&folder.0), Err(StoreError::Running { path }) if path == folder.0));
    let update = thread::spawn(move || {
        let mut transaction = store.begin().unwrap();
        transaction.write("db", "a", &b"2"[..]).unwrap();
        thread::sleep(Duration::from_millis(200));
        transaction.commit().unwrap();
    });
    let reader = Reader::open(&folder.0).unwrap();
    assert!(!reader.image().unwrap().has_pending_work().unwrap());
    update.join().unwrap();
    Reader::open(&folder.0).unwrap();
    let other = thread::spawn(move || {
        thread::sleep(Duration::from_millis(200));
        drop(reader);
    });
    FileStore::open(&folder.0).unwrap();
    other.join().unwrap();
}

#[test]
fn writes_are_seen_when_committed() {
    let folder = Folder::with(&["db/a=old"]);
    let store = FileStore::open(&folder.0).unwrap();
    let mut transaction = store.begin().unwrap();
    transaction.write("db", "A", &b"new"[..]).unwrap();
    transaction.write("db", "b", &b""[..]).unwrap();
    transaction.write("fonts", "f", &[7; 100_000][..]).unwrap();
    assert_eq!(folder.files(), ["db/", "db/a=old"]);
    assert_eq!(store.list("db").unwrap(), ["a"]);
    assert_eq!(transaction.image().contents().staging.len(), 3);
    transaction.commit().unwrap();
    assert_eq!(store.collections().unwrap(), ["db", "fonts"]);
    assert_eq!(store.list("db").unwrap(), ["a", "b"]);
    let mut content = Vec::new();
    store.read("fonts", "F").unwrap().read_to_end(&mut content).unwrap();
    assert_eq!(content, [7; 100_000]);
    assert!(!folder.0.join("journal/transaction.wal").exists());
    assert!(common::contents(&folder.0.join("journal/staging")).is_empty());
}

#[test]
fn operations() {
    assert_eq!(committed(&["db/a=1", "db/b=2"], |t| t.delete("db", "a").unwrap()), ["db/", "db/b=2"]);
    assert_eq!(committed(&["db/a=1", "db/b=2", "db/c=3"], |t| t.delete_keys("db", &["a", "C", "A"]).unwrap()), ["db/", "db/b=2"]);
    assert_eq!(committed(&["db/a=1", "db/b=2"], |t| t.delete_all("db").unwrap()), ["db/"]);
    assert_eq!(committed(&["db/a=1"], |t| t.create_collection("new").unwrap()), ["db/", "db/a=1", "new/"]);
    assert_eq!(committed(&["db/a=1", "c/"], |t| t.delete_collection("db").unwrap()), ["c/"]);
    let copied = ["c/", "c/a=1", "c/b=2", "db/", "db/a=1", "db/b=2"];
    assert_eq!(committed(&["db/a=1", "db/b=2", "c/x=3"], |t| t.copy_collection("db", "c").unwrap()), copied);
    assert_eq!(committed(&["db/a=1"], |t| t.copy_collection("db", "db").unwrap()), ["db/"]);
}

#[test]
fn a_rollback_and_a_drop_leave_the_files() {
    let folder = Folder::with(&["db/a=1", "db/K=2"]);
    let store = FileStore::open(&folder.0).unwrap();
    for by_drop in [true, false] {
        let mut transaction = store.begin().unwrap();
        transaction.write("db", "a", &b"9"[..]).unwrap();
        transaction.delete("db", "k").unwrap();
        if by_drop {
            drop(transaction)
        } else {
            transaction.rollback().unwrap()
        }
        assert_eq!(folder.files(), ["db/", "db/a=1", "db/k=2"], "the case rename stays");
        assert!(!store.image().unwrap().has_pending_work().unwrap());
    }
}

#[test]
fn a_key_is_found_in_other_letter_cases() {
    let folder = Folder::with(&["db/K.odx=2", "db/x.BAK=1"]);
    let store = FileStore::open(&folder.0).unwrap();
    let mut text = String::new();
    store.read("db", "k.ODX").unwrap().read_to_string(&mut text).unwrap();
    assert_eq!(text, "2");
    assert_eq!(refusal(store.read("db", "no").map(|_| ())), Refusal::KeyNotFound);
    assert_eq!(refusal(store.read("no", "k").map(|_| ())), Refusal::CollectionNotFound);
    let mut transaction = store.begin().unwrap();
    transaction.delete("db", "K.ODX").unwrap();
    transaction.commit().unwrap();
    assert_eq!(folder.files(), ["db/", "db/x.BAK=1"]);
}

#[test]
fn refused_calls_record_nothing() {
    let folder = Folder::with(&["db/a=1"]);
    let store = FileStore::open(&folder.0).unwrap();
    let mut transaction = store.begin().unwrap();
    let before = folder.everything();
    assert_eq!(refusal(store.begin().map(|_| ())), Refusal::TransactionBusy);
    assert_eq!(refusal(transaction.write("db", "a/b", &b""[..])), Refusal::InvalidName);
    assert_eq!(refusal(transaction.delete_collection("no")), Refusal::CollectionNotFound);
    assert_eq!(refusal(transaction.delete("db", "no")), Refusal::KeyNotFound);
    assert_eq!(refusal(transaction.delete_keys("db", &["a", "no"])), Refusal::KeyNotFound);
    assert_eq!(refusal(transaction.delete_keys("db", &[""; 0])), Refusal::InvalidName);
    assert_eq!(refusal(transaction.create_collection("db")), Refusal::CollectionExists);
    assert_eq!(folder.everything(), before);
    (0..32).for_each(|i| transaction.write("db", &format!("k{i}"), &b"x"[..]).unwrap());
    assert_eq!(refusal(transaction.delete_all("db")), Refusal::TooManyOperations);
    transaction.commit().unwrap();
    assert_eq!(folder.files().len(), 34);
}

/// Commits what is recorded, which is refused: no step is carried out, and every file below the store is as it was.
fn refused_commit(folder: &Folder, refused: Refusal, record: impl FnOnce(&mut Transaction)) {
    let store = FileStore::open_observed(&folder.0, |event| panic!("{event:?}")).unwrap();
    drop(store.begin().unwrap());
    let before = (folder.everything(), changed(&folder.0.join("collections")));
    let mut transaction = store.begin().unwrap();
    record(&mut transaction);
    assert_eq!(refusal(transaction.commit()), refused);
    assert_eq!((folder.everything(), changed(&folder.0.join("collections"))), before);
    drop(store.begin().unwrap());
}

/// When each directory of collections was changed last.
fn changed(collections: &Path) -> Vec<(PathBuf, SystemTime)> {
    let directories = fs::read_dir(collections).unwrap().map(|entry| entry.unwrap().path()).chain([collections.to_path_buf()]);
    directories.map(|path| (path.clone(), fs::metadata(path).unwrap().modified().unwrap())).collect()
}

#[test]
fn a_refused_commit_touches_no_collection() {
    refused_commit(&Folder::with(&["c/a=1", "d/b=2"]), Refusal::StepFailed, |t| {
        t.write("d", "b", &b"3"[..]).unwrap();
        t.delete_collection("c").unwrap();
        t.copy_collection("c", "d").unwrap();
    });
    let long = "k".repeat(61);
    refused_commit(&Folder::with(&["c/a=1", &format!("c/{long}=2")]), Refusal::StepFailed, |t| {
        ["a", &long, "new"].iter().for_each(|key| t.write("c", key, &b"3"[..]).unwrap());
    });
    let files: Vec<String> = (0..126).map(|i| format!("c/f{i}=x")).collect();
    let full = Folder::with(&[&files.iter().map(String::as_str).collect::<Vec<_>>()[..], &["c/a=1", "d/b=2"]].concat());
    refused_commit(&full, Refusal::StoreFull, |t| t.write("d", "new", &b"3"[..]).unwrap());
}

#[test]
fn a_copy_that_was_stopped_counts_no_staging_file() {
    let folder = Folder::with(&["db/a=1"]);
    let store = FileStore::open(&folder.0).unwrap();
    let mut transaction = store.begin().unwrap();
    (0..32).for_each(|i| transaction.write("db", &format!("k{i}"), &b"x"[..]).unwrap());
    std::mem::forget(transaction);
    drop(store);
    let aside = folder.0.join("journal/staging/copy.tmp");
    fs::write(&aside, "part").unwrap();
    assert_eq!(scan(&folder.0).unwrap().contents().staging.len(), 32);
    FileStore::open(&folder.0).unwrap();
    assert_eq!((folder.files(), aside.exists()), (vec!["db/".to_string(), "db/a=1".to_string()], false));
}

#[test]
fn content_that_cannot_be_read_is_not_recorded() {
    struct Broken;
    impl Read for Broken {
        fn read(&mut self, _: &mut [u8]) -> io::Result<usize> {
            Err(io::Error::other("broken"))
        }
    }
    let folder = Folder::with(&["db/"]);
    let store = FileStore::open(&folder.0).unwrap();
    let mut transaction = store.begin().unwrap();
    let error = transaction.write("db", "a", (&b"part"[..]).chain(Broken)).unwrap_err();
    assert!(error.to_string().ends_with("1.tmp: broken"), "{error}");
    assert!(common::contents(&folder.0.join("journal/staging")).is_empty());
    transaction.write("db", "b", &b"whole"[..]).unwrap();
    transaction.commit().unwrap();
    assert_eq!(folder.files(), ["db/", "db/b=whole"]);
}

/// Opening is refused for what stands at this path, and nothing is changed.
fn foreign(folder: &Folder, path: &str) {
    let before = folder.everything();
    match FileStore::open(&folder.0) {
        Err(StoreError::Foreign { path: named, why }) => assert_eq!(named, folder.0.join(path), "{why}"),
        other => panic!("{path}: {other:?}"),
    }
    assert_eq!(folder.everything(), before);
}

/// A store with work for recovery and one thing more.
fn store_and(make: impl FnOnce(&Path)) -> Folder {
    let folder = Folder::with(&["db/a=1", "db/b.bak=2"]);
    fs::create_dir_all(folder.0.join("journal/staging")).unwrap();
    fs::write(folder.0.join("journal/staging/s.tmp"), "3").unwrap();
    make(&folder.0);
    folder
}

#[test]
fn foreign_content_is_named_and_left() {
    for path in
        ["collections/db/sub", "journal/staging/sub", "journal/other", "journal/transaction.wal", "collections/a b", "collections/..bak"]
    {
        foreign(&store_and(|root| fs::create_dir(root.join(path)).unwrap()), path);
    }
    let long = format!("collections/db/{}", "x".repeat(65));
    for path in ["collections/file", "collections/db/a b", "collections/db/\u{e9}", "collections/db/...bak", "journal/staging/a\\b", &long]
    {
        foreign(&store_and(|root| fs::write(root.join(path), "").unwrap()), path);
    }
    foreign(&store_and(|root| symlink("a", root.join("collections/db/link")).unwrap()), "collections/db/link");
    let other =
        |root: &Path| fs::rename(root.join("collections"), root.join("other")).and_then(|()| fs::write(root.join("collections"), ""));
    foreign(&store_and(|root| other(root).unwrap()), "collections");
}

/// A directory of the store is a link to one of the same content outside.
#[test]
fn a_link_that_leads_out_of_the_store_is_foreign() {
    for path in ["collections", "collections/db", "journal", "journal/staging", "journal/staging/s.tmp", "journal/transaction.wal"] {
        let outside = Folder::new();
        let link = |root: &Path| {
            fs::write(root.join("journal/transaction.wal"), COMMITTING).unwrap();
            fs::rename(root.join(path), outside.0.join("it")).unwrap();
            symlink(outside.0.join("it"), root.join(path)).unwrap();
        };
        let store = store_and(link);
        let before = outside.everything();
        foreign(&store, path);
        assert!(matches!(scan(&store.0), Err(StoreError::Foreign { .. })));
        assert_eq!(outside.everything(), before, "{path}");
    }
}

/// A link in the place of a file or directory that was scanned is not followed by the call that opens it.
#[test]
fn a_link_that_comes_later_is_not_opened() {
    for (number, path) in [(1, "journal/transaction.wal"), (3, "journal/transaction.wal"), (6, "collections/db"), (9, "journal")] {
        let outside = Folder::new();
        fs::create_dir(outside.0.join("directory")).unwrap();
        fs::write(outside.0.join("file"), "outside").unwrap();
        let (before, target) = (outside.everything(), outside.0.clone());
        let (_folder, error) = fails_at(number, move |root| {
            let target = target.join(if root.join(path).is_dir() { "directory" } else { "file" });
            fs::rename(root.join(path), root.join("aside")).unwrap();
            symlink(target, root.join(path)).unwrap();
        });
        assert!(matches!(&error, StoreError::Io { path: named, .. } if named.ends_with(path)), "{error}");
        assert_eq!(outside.everything(), before);
    }
}

/// The store may be reached by a link: what is named is the caller's.
#[test]
fn the_root_may_be_a_link() {
    let (store, outside) = (Folder::with(&["db/a=1"]), Folder::new());
    symlink(&store.0, outside.0.join("link")).unwrap();
    assert_eq!(FileStore::open(outside.0.join("link")).unwrap().list("db").unwrap(), ["a"]);
}

#[test]
fn what_is_over_a_limit_is_named_and_left() {
    let fill = |root: &Path, folder: &str, count: usize| {
        (0..count).for_each(|i| fs::write(root.join(folder).join(format!("f{i:03}")), "").unwrap());
    };
    foreign(&store_and(|root| fill(root, "collections/db", 127)), "collections/db/f126");
    foreign(&store_and(|root| fill(root, "journal/staging", 32)), "journal/staging/s.tmp");
    let directories = |root: &Path| (0..16).for_each(|i| fs::create_dir(root.join(format!("collections/e{i:02}"))).unwrap());
    foreign(&store_and(directories), "collections/e15");
    foreign(&store_and(|root| fs::write(root.join("journal/transaction.wal"), [0; LOG_LIMIT + 1]).unwrap()), "journal/transaction.wal");
}

#[test]
fn other_entries_of_the_root_are_left_alone() {
    let folder = store_and(|root| fs::create_dir(root.join("lost+found")).unwrap());
    FileStore::open(&folder.0).unwrap();
    assert!(folder.0.join("lost+found").is_dir());
    assert_eq!(folder.files(), ["db/", "db/a=1"]);
}

/// A commit of a Write to db/a that meets a failing call at this step; `disturb` provokes it before the step.
fn fails_at(number: u64, disturb: impl Fn(&Path) + Send + 'static) -> (Folder, StoreError) {
    let folder = Folder::with(&["db/a=old"]);
    let root = folder.0.clone();
    let observer = move |event: &Event| {
        if !event.done && event.number == number {
            disturb(&root);
        }
    };
    let store = FileStore::open_observed(&folder.0, observer).unwrap();
    let mut transaction = store.begin().unwrap();
    transaction.write("db", "a", &b"new"[..]).unwrap();
    let error = transaction.commit().unwrap_err();
    assert!(matches!(store.begin(), Err(StoreError::Stopped)) && matches!(store.list("db"), Err(StoreError::Stopped)));
    drop(store);
    (folder, error)
}

#[test]
fn a_failed_call_stops_and_the_next_open_recovers() {
    // A directory in the way of the rename to a.bak; it is taken away again before the store is opened.
    let (folder, error) = fails_at(4, |root| fs::create_dir(root.join("collections/db/a.bak")).unwrap());
    let step = Step::RenameFile { directory: "db".into(), from: "a".into(), to: "a.bak".into() };
    assert!(matches!(&error, StoreError::Io { step: Some(at), path, .. } if *at == step && path.ends_with("db/a")), "{error}");
    assert!(error.to_string().ends_with("(step: rename db/a to db/a.bak)"), "{error}");
    assert!(matches!(FileStore::open(&folder.0), Err(StoreError::Foreign { .. })));
    fs::remove_dir(folder.0.join("collections/db/a.bak")).unwrap();
    FileStore::open(&folder.0).unwrap();
    assert_eq!(folder.files(), ["db/", "db/a=old"], "a key that has no backup yet");

    // The staged content is gone; the backup stands and is restored.
    let (folder, error) = fails_at(5, |root| fs::remove_dir_all(root.join("journal/staging")).unwrap());
    assert!(matches!(error, StoreError::Io { step: Some(Step::MoveStaged { .. }), .. }));
    FileStore::open(&folder.0).unwrap();
    assert_eq!(folder.files(), ["db/", "db/a=old"]);

    // The last step fails: the commit stands.
    let (folder, error) = fails_at(10, |root| fs::remove_file(root.join("collections/db/a.bak")).unwrap());
    assert!(matches!(error, StoreError::Io { step: Some(Step::RemoveFile { .. }), .. }));
    FileStore::open(&folder.0).unwrap();
    assert_eq!(folder.files(), ["db/", "db/a=new"]);
}

#[test]
fn a_lost_log_stops_the_recording() {
    let folder = Folder::with(&["db/a=1"]);
    let store = FileStore::open(&folder.0).unwrap();
    let mut transaction = store.begin().unwrap();
    fs::remove_file(folder.0.join("journal/transaction.wal")).unwrap();
    assert!(matches!(transaction.delete_all("db"), Err(StoreError::Io { step: None, .. })));
    assert!(matches!(transaction.delete_all("db"), Err(StoreError::Stopped)));
    assert!(matches!(transaction.commit(), Err(StoreError::Stopped)));
    drop(store);
    FileStore::open(&folder.0).unwrap();
    assert_eq!(folder.files(), ["db/", "db/a=1"]);
}

/// A store with these files and this log; opened, it is recovered or refused.
fn with_log(files: &[&str], log: &[u8]) -> Folder {
    let folder = Folder::with(files);
    fs::create_dir(folder.0.join("journal")).unwrap();
    fs::write(folder.0.join("journal/transaction.wal"), log).unwrap();
    folder
}

/// What opening such a store leaves of its files.
fn recovered(files: &[&str], log: &[u8]) -> Vec<String> {
    let folder = with_log(files, log);
    FileStore::open(&folder.0).unwrap();
    assert!(!folder.0.join("journal/transaction.wal").exists());
    folder.files()
}

/// Opening such a store is refused for its torn log, and nothing is changed.
fn refused(files: &[&str], log: &[u8]) {
    let folder = with_log(files, log);
    let before = folder.everything();
    assert_eq!(refusal(FileStore::open(&folder.0).map(|_| ())), Refusal::Corruption);
    assert_eq!(folder.everything(), before);
}

/// The log of a Write to db/a, marked Committing, behind which it is torn.
fn torn(files: &[&str]) -> Vec<u8> {
    let image = scan(&Folder::with(files).0).unwrap();
    let committing = image.begin().unwrap().write("db", "a", "s", 9).unwrap().commit_step(1).unwrap().0;
    [&committing.contents().log.unwrap()[..], b"?"].concat()
}

#[test]
fn a_refused_recovery_changes_nothing() {
    refused(&["db/a=2", "db/a.bak=1"], &torn(&["db/a=1"]));
    refused(&["db/a=2"], &torn(&["db/"]));
}

#[test]
fn a_log_torn_before_anything_was_done_is_discarded() {
    assert_eq!(recovered(&["db/a=1"], &torn(&["db/a=1"])), ["db/", "db/a=1"]);
    assert_eq!(recovered(&["db/"], &torn(&["db/"])), ["db/"]);
    let discarded = |log: &[u8]| FileStore::open(&with_log(&["db/a=1"], log).0).unwrap().discarded();
    let whole = torn(&["db/a=1"]);
    let (whole, wrong) = (&whole[..whole.len() - 1], [0; 4]);
    assert_eq!(discarded(whole), None);
    assert_eq!(discarded(&torn(&["db/a=1"])), Some(Cause::HeaderShort));
    assert_eq!(discarded(&whole[..whole.len() - 1]), Some(Cause::PayloadMissing));
    assert_eq!(discarded(&[&whole[..8], &wrong, &whole[12..]].concat()), Some(Cause::ChecksumWrong));
    assert_eq!(discarded(&[RECORDING, &wrong].concat()), None, "it is discarded unread");
}

/// A log of an older version does not say whether a was there: by the old rule a written key without backup is taken for new.
#[test]
fn an_old_log_is_recovered_by_the_old_rule() {
    let (recording, committing) = ([RECORDING, OLD_WRITE].concat(), [COMMITTING, OLD_WRITE].concat());
    assert_eq!(recovered(&["db/a=1"], &recording), ["db/", "db/a=1"]);
    assert_eq!(recovered(&["db/a=1", "db/b=2"], &committing), ["db/", "db/b=2"], "a is lost (docs/FINDINGS.md, 2)");
    assert_eq!(recovered(&["db/a.bak=1"], &committing), ["db/", "db/a=1"]);
    assert_eq!(recovered(&["db/a=2", "db/a.bak=1"], &committing), ["db/", "db/a=1"]);
    refused(&["db/a=1"], &[&committing[..], b"?"].concat());
}

/// The header of a log, damaged in each way that the port takes for no log.
fn damaged_logs() -> Vec<Vec<u8>> {
    let damaged = |at: usize, byte: u8| {
        let mut log = [COMMITTING, OLD_WRITE].concat();
        log[at] = byte;
        log
    };
    let short = (0..8).map(|length| COMMITTING[..length].to_vec());
    short.chain([damaged(0, 0xCB), damaged(1, 0), damaged(1, 2), damaged(4, 0), damaged(7, 0), vec![0; 40]]).collect()
}

/// Backups of a file and of a collection, as an update that is interrupted leaves them.
const WITH_BACKUPS: [&str; 4] = ["c.bak/k=1", "db/a=new", "db/a.bak=old", "db/b=2"];

#[test]
fn a_damaged_log_beside_backups_is_refused() {
    for log in damaged_logs() {
        for files in [&WITH_BACKUPS[..], &["db/a=new", "db/a.bak=old"], &["c.bak/k=1"]] {
            let folder = with_log(files, &log);
            let before = folder.everything();
            match FileStore::open(&folder.0) {
                Err(StoreError::Damaged { path }) => assert!(path.ends_with("journal/transaction.wal")),
                other => panic!("{log:?}: {other:?}"),
            }
            assert_eq!(folder.everything(), before);
        }
        assert_eq!(recovered(&["db/a=1"], &log), ["db/", "db/a=1"], "no backup stands: the log is discarded");
    }
    assert_eq!(recovered(&["db/a=1", "db/b.bak=2"], RECORDING), ["db/", "db/a=1", "db/b.bak=2"]);
    let folder = Folder::with(&["db/a=new", "db/a.bak=old"]);
    FileStore::open(&folder.0).unwrap();
    assert_eq!(folder.files(), ["db/", "db/a=new"], "no log: the ordinary end of a commit");
}

/// Logs for which recovery is refused with 11, 12 and 13, upon `WITH_BACKUPS`.
fn refused_logs() -> [(Refusal, Vec<u8>); 3] {
    let undecodable = [b"\x00\x00\x00\x00\x01\0\0\0\xff".as_slice()].concat();
    let entry = |payload: &[u8]| [&crc32(payload).to_le_bytes()[..], &(payload.len() as u32).to_le_bytes(), payload].concat();
    [
        (Refusal::UndecodablePayload, [COMMITTING, &entry(&undecodable[8..])].concat()),
        (Refusal::LogTooLong, [COMMITTING, &OLD_WRITE.repeat(33)].concat()),
        (Refusal::Corruption, [COMMITTING, OLD_WRITE, b"?"].concat()),
    ]
}

#[test]
fn what_recovery_refuses_can_be_restored_or_accepted() {
    let logs = damaged_logs().into_iter().chain(refused_logs().map(|(refused, log)| {
        assert_eq!(refusal(FileStore::open(&with_log(&WITH_BACKUPS, &log).0).map(|_| ())), refused);
        log
    }));
    for log in logs {
        let with_staging = || {
            let folder = with_log(&WITH_BACKUPS, &log);
            fs::create_dir(folder.0.join("journal/staging")).unwrap();
            fs::write(folder.0.join("journal/staging/3.tmp"), "new").unwrap();
            folder
        };
        let restored = with_staging();
        let store = FileStore::restore(&restored.0, |_| {}).unwrap();
        assert_eq!(restored.files(), ["c/", "c/k=1", "db/", "db/a=old", "db/b=2"], "{log:?}");
        assert!(!store.image().unwrap().has_pending_work().unwrap());
        let accepted = with_staging();
        let store = FileStore::accept(&accepted.0, |_| {}).unwrap();
        assert_eq!(accepted.files(), ["db/", "db/a=new", "db/b=2"], "{log:?}");
        assert!(!store.image().unwrap().has_pending_work().unwrap());
    }
}

/// Backups inside a collection's backup are put back too.
#[test]
fn every_backup_is_restored() {
    let files = ["c/a=3", "c.bak/a=2", "c.bak/a.bak=1", "db/a.bak.bak=5"];
    let restored = with_log(&files, b"?");
    FileStore::restore(&restored.0, |_| {}).unwrap();
    assert_eq!(restored.files(), ["c/", "c/a=1", "db/", "db/a=5"]);
    let accepted = with_log(&files, b"?");
    FileStore::accept(&accepted.0, |_| {}).unwrap();
    assert_eq!(accepted.files(), ["c/", "c/a=3", "db/"]);
}

#[test]
fn what_recovery_ends_is_not_restored_or_accepted() {
    for (files, log) in
        [(&["db/a=new", "db/a.bak=old"][..], &b""[..]), (&["db/a=1"], RECORDING), (&WITH_BACKUPS, COMMITTING), (&["db/a=1"], b"?")]
    {
        let folder = with_log(files, log);
        if log.is_empty() {
            fs::remove_file(folder.0.join("journal/transaction.wal")).unwrap();
        }
        let before = folder.everything();
        assert!(matches!(FileStore::restore(&folder.0, |_| {}), Err(StoreError::Sound { path }) if path == folder.0));
        assert!(matches!(FileStore::accept(&folder.0, |_| {}), Err(StoreError::Sound { .. })));
        assert_eq!(folder.everything(), before);
    }
}

/// db/a=old, and an update of it to new that is held, with db/b beside it.
fn held() -> Folder {
    let folder = Folder::with(&["db/a=old"]);
    let store = FileStore::open(&folder.0).unwrap();
    let mut transaction = store.begin().unwrap();
    transaction.write("db", "a", &b"new"[..]).unwrap();
    transaction.write("db", "b", &b"2"[..]).unwrap();
    transaction.hold().unwrap();
    folder
}

const HELD: [&str; 4] = ["db/", "db/a=new", "db/a.bak=old", "db/b=2"];

#[test]
fn an_update_is_held_until_it_is_kept_or_reverted() {
    for keep in [true, false] {
        let folder = held();
        assert_eq!(folder.files(), HELD);
        // An open leaves it, and what is read is the new content.
        let store = FileStore::open(&folder.0).unwrap();
        assert!(store.is_held().unwrap());
        assert_eq!((folder.files(), store.list("db").unwrap()), (HELD.map(String::from).to_vec(), vec!["a".to_string(), "b".to_string()]));
        assert_eq!(refusal(store.begin().map(|_| ())), Refusal::HeldUpdate);
        if keep {
            store.keep().unwrap();
            assert_eq!(folder.files(), ["db/", "db/a=new", "db/b=2"]);
        } else {
            assert_eq!(store.revert().unwrap(), None);
            assert_eq!(folder.files(), ["db/", "db/a=old"]);
        }
        assert!(!store.is_held().unwrap() && !store.image().unwrap().has_pending_work().unwrap());
        assert_eq!(refusal(store.keep()), Refusal::NothingHeld);
        assert_eq!(refusal(store.revert().map(|_| ())), Refusal::NothingHeld);
        let mut transaction = store.begin().unwrap();
        assert_eq!(refusal(store.keep()), Refusal::NothingHeld, "a transaction is open");
        transaction.delete("db", "a").unwrap();
        transaction.commit().unwrap();
        let names: Vec<PathBuf> = folder.everything().into_keys().filter(|path| path.starts_with(folder.0.join("journal"))).collect();
        assert_eq!(names, [folder.0.join("journal"), folder.0.join("journal/staging")], "no mark is left");
    }
}

#[test]
fn a_refused_hold_touches_no_collection() {
    let folder = Folder::with(&["db/a=old"]);
    let store = FileStore::open(&folder.0).unwrap();
    let mut transaction = store.begin().unwrap();
    transaction.delete_collection("db").unwrap();
    transaction.copy_collection("db", "e").unwrap();
    assert_eq!(refusal(transaction.hold()), Refusal::StepFailed);
    assert!(!store.is_held().unwrap());
    assert_eq!(folder.files(), ["db/", "db/a=old"]);
}

/// Stops the revert before this step, by an observer that panics.
fn revert_stopped(folder: &Folder, number: u64) {
    let observer = move |event: &Event| assert!(event.done || event.number != number, "stopped");
    let store = FileStore::open_observed(&folder.0, observer).unwrap();
    assert!(catch_unwind(AssertUnwindSafe(|| store.revert())).is_err());
    assert!(matches!(store.keep(), Err(StoreError::Stopped)), "a keep here would lose keys");
    drop(store);
}

#[test]
fn a_revert_that_was_begun_is_ended_by_the_next_open() {
    for number in 1..=4 {
        let folder = held();
        revert_stopped(&folder, number);
        let reader = Reader::open(&folder.0).unwrap();
        assert!(reader.is_reverting().unwrap() && reader.image().unwrap().is_held().unwrap(), "step {number}");
        drop(reader);
        let told = Arc::new(Mutex::new(Vec::new()));
        let seen = Arc::clone(&told);
        let store = FileStore::open_observed(&folder.0, move |event| seen.lock().unwrap().push(event.plan)).unwrap();
        assert!(told.lock().unwrap().iter().all(|plan| *plan == Plan::Revert) && !store.is_held().unwrap());
        assert_eq!(folder.files(), ["db/", "db/a=old"], "step {number}");
        assert!(!folder.0.join("journal/reverting").exists());
    }
}

/// A mark whose revert came to the removal of its log is cleared away; it is no part of an image.
#[test]
fn a_mark_without_a_held_log_is_cleared_away() {
    for log in [None, Some(RECORDING), Some(COMMITTING)] {
        let folder = with_log(&["db/a=1"], log.unwrap_or_default());
        let mark = folder.0.join("journal/reverting");
        fs::write(&mark, "").unwrap();
        if log.is_none() {
            fs::remove_file(folder.0.join("journal/transaction.wal")).unwrap();
        }
        assert_eq!(scan(&folder.0).unwrap().contents().log.as_deref(), log);
        FileStore::open(&folder.0).unwrap();
        assert!(!mark.exists());
        assert_eq!(folder.files(), ["db/", "db/a=1"]);
    }
    let folder = store_and(|root| fs::create_dir_all(root.join("journal/reverting")).unwrap());
    foreign(&folder, "journal/reverting");
}

/// Adds bytes to the log of the held update.
fn torn_held() -> Folder {
    let folder = held();
    let log = folder.0.join("journal/transaction.wal");
    fs::write(&log, [fs::read(&log).unwrap(), b"?".to_vec()].concat()).unwrap();
    folder
}

#[test]
fn a_held_update_with_a_damaged_log_is_kept_or_restored() {
    let folder = torn_held();
    let store = FileStore::open(&folder.0).unwrap();
    let before = folder.everything();
    assert_eq!(refusal(store.revert().map(|_| ())), Refusal::Corruption);
    assert_eq!(folder.everything(), before, "no mark either");
    store.keep().unwrap();
    assert_eq!(folder.files(), ["db/", "db/a=new", "db/b=2"]);
    drop(store);
    let folder = torn_held();
    FileStore::accept(&folder.0, |_| {}).unwrap();
    assert_eq!(folder.files(), ["db/", "db/a=new", "db/b=2"]);
    // A restore that is stopped halfway leaves no update that could be kept: it is begun again.
    let folder = torn_held();
    let stop = |event: &Event| assert!(event.number < 2, "stopped");
    assert!(catch_unwind(AssertUnwindSafe(|| FileStore::restore(&folder.0, stop).map(|_| ()))).is_err());
    assert_eq!(folder.files(), ["db/", "db/a.bak=old", "db/b=2"]);
    assert_eq!(refusal(FileStore::open(&folder.0).map(|_| ())), Refusal::Corruption);
    FileStore::restore(&folder.0, |_| {}).unwrap();
    assert_eq!(folder.files(), ["db/", "db/a=old", "db/b=2"], "what the update put anew stays");
    assert!(!FileStore::open(&folder.0).unwrap().is_held().unwrap());
    let folder = held();
    assert!(matches!(FileStore::restore(&folder.0, |_| {}), Err(StoreError::Sound { .. })));
}
