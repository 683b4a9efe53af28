//! A store that is shared between threads, and transactions that own their part of it.
mod common;

use cda_store::{FileStore, Layout, Plan, Refusal, Staging, Step, StoreError, Transaction, scan};
use common::{Folder, Random};
use std::{
    fs,
    io::{Read, Write},
    sync::{
        Arc,
        atomic::{AtomicBool, AtomicU64, Ordering},
    },
    thread,
    time::Duration,
};

fn is_shared<T: Send + Sync + 'static>() {}

fn refusal<T>(result: Result<T, StoreError>) -> Option<Refusal> {
    match result {
        Err(StoreError::Refused(refusal)) => Some(refusal),
        _ => None,
    }
}

#[test]
fn the_types_can_be_sent_and_shared() {
    is_shared::<FileStore>();
    is_shared::<Transaction<'static>>();
    is_shared::<Staging<'static>>();
    is_shared::<Layout>();
    is_shared::<StoreError>();
}

#[test]
fn a_transaction_outlives_the_handle_that_began_it() {
    let folder = Folder::with(&["db/a=old"]);
    let store = Arc::new(FileStore::open(&folder.0).unwrap());
    let mut transaction = store.begin_shared().unwrap();
    drop(store);
    assert!(matches!(FileStore::open(&folder.0), Err(StoreError::Locked { .. })), "it keeps the lock");
    let committed = thread::spawn(move || {
        transaction.write("db", "a", &b"new"[..]).unwrap();
        transaction.commit()
    });
    committed.join().unwrap().unwrap();
    FileStore::open(&folder.0).unwrap();
    assert_eq!(folder.files(), ["db/", "db/a=new"]);
}

/// Eight threads write one key each, and both keys of a pair, whenever no other has a transaction open; two more look all the while. What these
/// see is whole: the two keys of the pair stand together, and so do their contents.
#[test]
fn eight_threads_write_and_two_look() {
    let folder = Folder::with(&["db/"]);
    let store = Arc::new(FileStore::open(&folder.0).unwrap());
    let (over, busy) = (AtomicBool::new(false), AtomicU64::new(0));
    let (over, busy, store) = (&over, &busy, &store);
    let looked: u64 = thread::scope(|scope| {
        let look = move || {
            let mut looked = 0;
            while !over.load(Ordering::Relaxed) {
                let keys = store.list("db").unwrap();
                assert_eq!(keys.contains(&"left".to_string()), keys.contains(&"right".to_string()), "{keys:?}");
                assert!(keys.iter().all(|key| !key.ends_with(".bak")) && store.image().unwrap().find_backup().unwrap().is_none());
                if let Ok(mut file) = store.read("db", "left") {
                    let mut text = String::new();
                    file.read_to_string(&mut text).unwrap();
                    assert_eq!(text.len(), 40, "{text}");
                }
                looked += 1;
            }
            looked
        };
        let lookers = [scope.spawn(look), scope.spawn(look)];
        let writers: Vec<_> = (0..8)
            .map(|writer| {
                scope.spawn(move || {
                    let mut done = 0;
                    while done < 10 {
                        let mut transaction = match store.begin_shared() {
                            Ok(transaction) => transaction,
                            Err(StoreError::Refused(Refusal::TransactionBusy)) => {
                                busy.fetch_add(1, Ordering::Relaxed);
                                thread::sleep(Duration::from_micros(200));
                                continue;
                            }
                            Err(error) => panic!("{error}"),
                        };
                        let text = format!("{:40}", format!("{writer} {done}"));
                        transaction.write("db", &format!("own{writer}"), text.as_bytes()).unwrap();
                        transaction.write("db", "left", text.as_bytes()).unwrap();
                        transaction.write("db", "right", text.as_bytes()).unwrap();
                        match done % 5 {
                            3 => drop(transaction),
                            4 => transaction.rollback().unwrap(),
                            _ => transaction.commit().unwrap(),
                        }
                        done += 1;
                    }
                })
            })
            .collect();
        writers.into_iter().for_each(|writer| writer.join().unwrap());
        over.store(true, Ordering::Relaxed);
        lookers.into_iter().map(|looker| looker.join().unwrap()).sum()
    });
    let files = common::tree(&folder.0).remove("db").unwrap();
    assert_eq!(files.len(), 10);
    assert_eq!(files["left"], files["right"]);
    (0..8).for_each(|writer| assert_eq!(files[&format!("own{writer}")], format!("{:40}", format!("{writer} 7")).into_bytes()));
    assert!(looked > 0, "{looked} looks, {} times busy", busy.load(Ordering::Relaxed));
}

#[test]
fn content_is_staged_piece_by_piece() {
    let folder = Folder::with(&["db/a=old"]);
    let store = FileStore::open(&folder.0).unwrap();
    let mut transaction = store.begin().unwrap();
    assert_eq!(refusal(transaction.stage("no name", "a")), Some(Refusal::InvalidName));
    let mut staging = transaction.stage("db", "A").unwrap();
    ["one, ", "", "two"].iter().for_each(|piece| staging.write_all(piece.as_bytes()).unwrap());
    transaction.write_staged(staging).unwrap();
    let mut dropped = transaction.stage("db", "b").unwrap();
    dropped.write_all(b"nothing comes of it").unwrap();
    drop(dropped);
    assert_eq!(fs::read_dir(folder.0.join("journal/staging")).unwrap().count(), 1, "the dropped one is gone");
    let late = transaction.stage("db", "late").unwrap();
    assert!(matches!(transaction.stage("db", "b"), Err(StoreError::Io { .. })), "one at a time");
    transaction.commit().unwrap();
    assert_eq!(folder.files(), ["db/", "db/a=one, two"]);
    let mut next = store.begin().unwrap();
    assert_eq!(refusal(next.write_staged(late)), Some(Refusal::StagingRefused), "it is not this one's");
    next.write("db", "b", &b"next"[..]).unwrap();
    next.commit().unwrap();
    assert_eq!(folder.files(), ["db/", "db/a=one, two", "db/b=next"]);
    assert_eq!(fs::read_dir(folder.0.join("journal/staging")).unwrap().count(), 0);
}

/// A store that a failed file call stopped is recovered in its place; the transaction from before stays stopped, and drops nothing of the next.
#[test]
fn a_stopped_store_is_reopened() {
    let folder = Folder::with(&["db/a=old"]);
    let store = Arc::new(FileStore::open(&folder.0).unwrap());
    store.reopen().unwrap();
    let mut stopped = store.begin_shared().unwrap();
    stopped.write("db", "a", &b"new"[..]).unwrap();
    fs::remove_file(folder.0.join("journal/transaction.wal")).unwrap();
    assert!(matches!(stopped.delete_all("db"), Err(StoreError::Io { .. })));
    assert!(matches!(store.list("db"), Err(StoreError::Stopped)) && matches!(store.begin(), Err(StoreError::Stopped)));
    assert!(matches!(stopped.write("db", "b", &b""[..]), Err(StoreError::Stopped)));
    store.reopen().unwrap();
    assert!(matches!(stopped.delete_all("db"), Err(StoreError::Stopped)));
    let mut next = store.begin_shared().unwrap();
    next.write("db", "b", &b"next"[..]).unwrap();
    drop(stopped);
    next.commit().unwrap();
    assert_eq!(folder.files(), ["db/", "db/a=old", "db/b=next"]);
    fs::rename(folder.0.join("collections"), folder.0.join("away")).unwrap();
    fs::write(folder.0.join("collections"), "").unwrap();
    assert!(matches!(store.begin(), Err(StoreError::Foreign { .. })), "nothing was done, and nothing is stopped");
    fs::remove_file(folder.0.join("collections")).unwrap();
    fs::rename(folder.0.join("away"), folder.0.join("collections")).unwrap();
    store.begin().unwrap();
}

#[test]
fn a_collection_is_made_outside_a_transaction() {
    let folder = Folder::new();
    let store = FileStore::open(&folder.0).unwrap();
    assert!(store.make_collection("db").unwrap() && !store.make_collection("db").unwrap());
    assert_eq!(folder.everything().len(), 2, "collections and collections/db");
    assert_eq!(refusal(store.make_collection("..bak")), Some(Refusal::InvalidName));
    let transaction = store.begin().unwrap();
    assert!(!store.make_collection("db").unwrap(), "it stands");
    assert_eq!(refusal(store.make_collection("other")), Some(Refusal::TransactionBusy));
    drop(transaction);
    (1..16).for_each(|i| assert!(store.make_collection(&format!("c{i}")).unwrap()));
    assert_eq!(refusal(store.make_collection("c16")), Some(Refusal::StoreFull));
    assert_eq!(store.path("db", "a").err().map(|error| error.to_string()), Some(Refusal::KeyNotFound.to_string()));
}

/// An integrator's own loop over the steps does what the store does.
#[test]
fn the_steps_can_be_carried_out_by_hand() {
    let random = &mut Random::new(1, 34);
    for _ in 0..20 {
        let tree = common::suited::files(random);
        let operations = common::suited::operations(random, &tree);
        let [by_store, by_hand] = [0, 1].map(|_| {
            let folder = Folder::new();
            for (collection, files) in &tree {
                let directory = folder.0.join("collections").join(collection);
                fs::create_dir_all(&directory).unwrap();
                files.iter().for_each(|(name, content)| fs::write(directory.join(name), content).unwrap());
            }
            folder
        });
        for folder in [&by_store, &by_hand] {
            let store = FileStore::open(&folder.0).unwrap();
            let mut transaction = store.begin().unwrap();
            common::suited::record(&operations, &mut transaction).unwrap();
            if folder.0 == by_store.0 {
                let _ = transaction.commit();
                continue;
            }
            let (layout, image) = (store.layout(), transaction.image().clone());
            assert_eq!(layout.log(), folder.0.join("journal/transaction.wal"));
            if image.commit().is_ok() {
                let mut steps = image.steps(Plan::Commit).map(|stepped| stepped.unwrap());
                steps.by_ref().for_each(|stepped| layout.carry_out(&stepped).unwrap());
                std::mem::forget(transaction);
            } else {
                drop(transaction);
            }
        }
        assert_eq!(by_store.files(), by_hand.files());
        let pending = scan(&by_hand.0).unwrap().has_pending_work().unwrap();
        assert!(!pending, "{:?}", Step::RemoveLog);
    }
}
