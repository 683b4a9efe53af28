//! An observer that panics stops the store; opened anew, it is recovered.
mod common;

use cda_store::{Event, FileStore, StoreError};
use common::Folder;
use std::panic::{AssertUnwindSafe, catch_unwind};

/// An observer that panics at this step, before or after it is carried out.
fn panics_at(number: u64, done: bool) -> impl FnMut(&Event) + Send {
    move |event| {
        if (event.number, event.done) == (number, done) {
            panic!("the observer's")
        }
    }
}

/// db/a=old, and a commit of a Write to it that its observer ends so.
fn interrupted(number: u64, done: bool) -> Folder {
    let folder = Folder::with(&["db/a=old"]);
    let store = FileStore::open_observed(&folder.0, panics_at(number, done)).unwrap();
    let mut transaction = store.begin().unwrap();
    transaction.write("db", "a", &b"new"[..]).unwrap();
    assert!(catch_unwind(AssertUnwindSafe(|| transaction.commit())).is_err());
    assert!(matches!(store.begin(), Err(StoreError::Stopped)), "step {number}");
    assert!(matches!(store.list("db"), Err(StoreError::Stopped)), "step {number}");
    folder
}

#[test]
fn a_commit_is_stopped() {
    for (number, done) in (1..=10).flat_map(|number| [(number, false), (number, true)]) {
        let folder = interrupted(number, done);
        FileStore::open(&folder.0).unwrap();
        let log_gone = number - u64::from(!done) >= 8;
        assert_eq!(folder.files(), ["db/", if log_gone { "db/a=new" } else { "db/a=old" }], "step {number}");
    }
}

#[test]
fn a_recovery_is_stopped() {
    for (number, done) in (1..=3).flat_map(|number| [(number, false), (number, true)]) {
        let folder = interrupted(5, true);
        assert!(catch_unwind(|| FileStore::open_observed(&folder.0, panics_at(number, done))).is_err());
        FileStore::open(&folder.0).unwrap();
        assert_eq!(folder.files(), ["db/", "db/a=old"], "step {number}");
    }
}
