//! A log that another program wrote, such as the original with its own payloads, is told apart from a damaged one.
mod common;

use cda_store::{Contents, FileStore, Refusal, StoreError};
use common::{COMMITTING, Folder, RECORDING, crc32, ten_steps};
use std::{fs, process::Command};

/// A log's entry: checksum, length, payload.
fn entry(payload: &[u8]) -> Vec<u8> {
    [&crc32(payload).to_le_bytes(), &u32::try_from(payload.len()).unwrap().to_le_bytes(), payload].concat()
}

/// An entry in another format: a path, then numbers and short names at even places.
fn other() -> Vec<u8> {
    entry(b"/var/lib/store/journal/staging/7d0f2c1e.tmp\0\0\0\0\0\x04\0\0\0db\xff\xff\xff\xff\xff\xffa\xff\xff\xff\xff\xff\xff\xff\xab\0\0\0\xc8\xff\xff\xff")
}

/// A store in the middle of an update, with this log.
fn interrupted(log: &[u8]) -> Folder {
    let folder = Folder::with(&["db/a=new", "db/a.bak=old"]);
    fs::create_dir_all(folder.0.join("journal/staging")).unwrap();
    fs::write(folder.0.join("journal/transaction.wal"), log).unwrap();
    folder
}

/// How opening such a store is refused, with nothing changed.
fn refused(log: &[u8]) -> StoreError {
    let folder = interrupted(log);
    let before = folder.everything();
    let error = FileStore::open(&folder.0).unwrap_err();
    assert_eq!(folder.everything(), before);
    error
}

#[test]
fn whole_entries_of_another_format_are_no_damage() {
    let own = &ten_steps().contents().log.unwrap()[8..];
    let torn = [COMMITTING, &other(), &other()[..40]].concat();
    let long = [COMMITTING, &other().repeat(100)].concat();
    for log in [[COMMITTING, &other()].concat(), [COMMITTING, own, &other()].concat(), torn, long] {
        let error = refused(&log);
        assert!(matches!(error, StoreError::Refused(Refusal::UndecodablePayload)), "{error}");
        assert!(error.to_string().ends_with("another program's log, the original's for one; let that program recover"), "{error}");
    }
}

#[test]
fn damage_is_not_taken_for_another_format() {
    let mut first = other();
    first[20] ^= 1;
    for log in [[COMMITTING, &first].concat(), [COMMITTING, &other()[..40]].concat()] {
        assert!(matches!(refused(&log), StoreError::Refused(Refusal::Corruption)), "both formats are torn alike");
    }
    let long = [COMMITTING, &first.repeat(100)].concat();
    assert!(matches!(refused(&long), StoreError::Foreign { .. }));
    let whole = ten_steps().commit_step(1).unwrap().0.contents();
    let log = whole.log.clone().unwrap();
    for bit in 8 * 8..log.len() * 8 {
        let mut log = log.clone();
        log[bit / 8] ^= 1 << (bit % 8);
        let recovered = Contents { log: Some(log), ..whole.clone() }.image().unwrap().recover();
        assert_ne!(recovered.err(), Some(Refusal::UndecodablePayload), "bit {bit}");
    }
}

#[test]
fn a_recording_of_another_format_is_discarded() {
    let folder = Folder::with(&["db/a=1"]);
    fs::create_dir_all(folder.0.join("journal/staging")).unwrap();
    fs::write(folder.0.join("journal/staging/7d0f2c1e.tmp"), "2").unwrap();
    fs::write(folder.0.join("journal/transaction.wal"), [RECORDING, &other()].concat()).unwrap();
    FileStore::open(&folder.0).unwrap();
    assert_eq!(folder.files(), ["db/", "db/a=1"]);
    assert!(!folder.0.join("journal/transaction.wal").exists() && common::contents(&folder.0.join("journal/staging")).is_empty());
}

#[test]
fn the_command_tells_it() {
    let folder = interrupted(&[COMMITTING, &other()].concat());
    let run = |command: &str| {
        let output = Command::new(env!("CARGO_BIN_EXE_cda-store")).arg(command).arg(&folder.0).output().unwrap();
        (output.status.code().unwrap(), String::from_utf8([output.stdout, output.stderr].concat()).unwrap())
    };
    let sentence = Refusal::UndecodablePayload.to_string();
    let (status, told) = run("recover");
    assert!(status == 1 && told.starts_with(&format!("cda-store: {sentence}\n")), "{told}");
    let listed = "db/\ndb/a 3\ndb/a.bak 3\nAn update was interrupted here; its recovery gives ";
    assert_eq!(run("list"), (0, format!("{listed}{sentence}. See cda-store recover --help.\nThe first backup is db/a.bak.\n")));
}
