//! The entries on images, every refusal, and every step in words.
mod common;

use cda_storage_sys::{self as sys, HIT_ROOM, IMAGE_ROOM, INVENTORY_ROOM, LOG_LIMIT, Output};
use cda_store::{Backup, Cause, Contents, Files, Image, Log, Logged, Plan, Recovered, Refusal, Status, Step, Write};
use common::{COMMITTING, OLD_WRITE, RECORDING, crc32, ten_steps};
use std::collections::BTreeMap;

fn store(files: &[(&str, &[(&str, u32)])]) -> Contents {
    let files_of = |files: &[(&str, u32)]| files.iter().map(|(name, number)| (name.to_string(), *number)).collect::<Files>();
    let directories = files.iter().map(|(directory, files)| (directory.to_string(), files_of(files))).collect();
    Contents { directories, ..Contents::default() }
}

fn begun(files: &[(&str, &[(&str, u32)])]) -> Image {
    store(files).image().unwrap().begin().unwrap()
}

/// db/a=7 and b=8, and the ten-step case's Write to a as an older version recorded it.
fn old_log() -> Image {
    let log = Some([RECORDING, OLD_WRITE].concat());
    let staging = Files::from([("s".into(), 9)]);
    Contents { staging, log, open: true, ..store(&[("db", &[("a", 7), ("b", 8)])]) }.image().unwrap()
}

/// An image whose log is another.
fn with_log(image: &Image, log: impl FnOnce(&mut Vec<u8>)) -> Image {
    let mut contents = image.contents();
    log(contents.log.as_mut().unwrap());
    contents.image().unwrap()
}

#[test]
fn an_image_is_document_01s_bytes() {
    let image = store(&[("db", &[("a", 7)])]).image().unwrap();
    assert_eq!(image.bytes(), b"\x10\x02\0db\x11\x05\0\x07\0\0\0a");
    assert_eq!(image.contents(), store(&[("db", &[("a", 7)])]));
    assert_eq!(Image::default().contents(), Contents::default());
    let open = ten_steps().contents();
    assert!(open.open && open.staging == Files::from([("s.tmp".into(), 9)]));
    assert_eq!(open.image().unwrap(), ten_steps());
}

#[test]
fn the_ten_step_case() {
    let image = ten_steps();
    let words: Vec<String> = image.commit_steps().map(|stepped| stepped.unwrap().step.to_string()).collect();
    let told = [
        "mark the log Committing",
        "sync the staging files",
        "sync the log",
        "rename db/a to db/a.bak",
        "move staged s.tmp to db/a",
        "sync directory db",
        "sync the collections",
        "remove the log",
        "sync the journal",
        "remove db/a.bak",
    ];
    assert_eq!(words, told);
    assert_eq!(image.commit().unwrap().contents(), store(&[("db", &[("a", 9)])]));
    assert_eq!(image.commit_step(0).unwrap(), (image.clone(), None));
    for n in 0..=10 {
        let cut = image.commit_step(n).unwrap().0;
        let left = if n < 8 { 7 } else { 9 };
        let recovered = cut.recover().unwrap().image;
        assert_eq!(recovered.contents(), store(&[("db", &[("a", left)])]), "cut after {n}");
        assert_eq!(cut.recover_steps().last().map_or(cut.clone(), |stepped| stepped.unwrap().image), recovered, "cut after {n}");
        assert!(!recovered.has_pending_work().unwrap());
    }
}

#[test]
fn a_write_remembers_whether_its_key_was_there() {
    let log = |key| begun(&[("db", &[("a", 7), ("B", 8)])]).write("db", key, "s", 9).unwrap().contents().log.unwrap();
    let marked = |key: &[u8], mark| [b"\x01\x01\0\x07\x02\x02\0db\x03\x01\0", key, b"\x04\x01\0s\x07\x01\0", &[mark]].concat();
    assert!(log("a").ends_with(&marked(b"a", 1)) && log("A").ends_with(&marked(b"a", 1)));
    assert!(log("b").ends_with(&marked(b"b", 0)) && log("x").ends_with(&marked(b"x", 0)), "B is another file than b");
}

#[test]
fn the_writes_of_a_transaction_are_told() {
    let write = |key: &str, staged: &str, mark| Write { collection: "db".into(), key: key.into(), staged: staged.into(), mark };
    let mixed = old_log().write("db", "B", "t", 10).unwrap().write("db", "c", "u", 11).unwrap();
    assert_eq!(mixed.contents().writes().unwrap(), [write("a", "s", None), write("b", "t", Some(true)), write("c", "u", Some(false))]);
    assert_eq!(begun(&[]).contents().writes(), Some(Vec::new()));
    assert_eq!(mixed.delete_all("db").unwrap().contents().writes(), None);
    assert_eq!(Contents::default().writes(), None);
}

#[test]
fn an_old_write_keeps_its_meaning() {
    let told = |image: &Image| image.commit_steps().map(|stepped| stepped.unwrap().step.to_string()).collect::<Vec<_>>();
    let alone = old_log();
    assert_eq!(told(&alone), told(&ten_steps()).into_iter().map(|step| step.replace("s.tmp", "s")).collect::<Vec<_>>());
    // A Write that is recorded behind it is a marked one: b stays where a is lost.
    let mixed = alone.write("db", "b", "t", 10).unwrap();
    for (image, log_goes, b) in [(alone, 8, 8), (mixed, 10, 10)] {
        for n in 0..=told(&image).len() as u64 {
            let left: &[(&str, u32)] = match n {
                1..=3 => &[("b", 8)],
                _ if n < log_goes => &[("a", 7), ("b", 8)],
                _ => &[("a", 9), ("b", b)],
            };
            let recovered = image.commit_step(n).unwrap().0.recover().unwrap().image;
            assert_eq!(recovered.contents(), store(&[("db", left)]), "cut after {n}");
        }
    }
}

/// The image after every list of so many cuts of its recovery, one upon the other.
fn cut_recoveries(image: &Image, cuts: u32) -> Vec<Image> {
    if cuts == 0 {
        return vec![image.clone()];
    }
    let each = (0..).map_while(|m| image.recover_step(m).ok());
    each.flat_map(|(left, _)| cut_recoveries(&left, cuts - 1)).collect()
}

#[test]
fn a_recovery_that_was_cut_is_done_by_the_next() {
    let two = ten_steps().write("db", "b", "t", 10).unwrap();
    let cuts = |image: &Image| image.commit_steps().map(|stepped| stepped.unwrap().image).chain([image.clone()]).collect::<Vec<_>>();
    for cut in [ten_steps(), two].iter().flat_map(cuts) {
        let first = cut.recover().unwrap();
        (0..4).flat_map(|cuts| cut_recoveries(&cut, cuts)).for_each(|left| assert_eq!(left.recover().unwrap(), first));
    }
    // An old log does not say that a, restored, is not new.
    let restored = old_log().commit_step(5).unwrap().0.recover_step(2).unwrap().0;
    assert_eq!(restored.contents().directories, store(&[("db", &[("a", 7), ("b", 8)])]).directories);
    assert_eq!(restored.recover().unwrap().image.contents(), store(&[("db", &[("b", 8)])]));
}

#[test]
fn the_largest_image_has_room() {
    let name = |i: u32| format!("{i:064}");
    let files = |count| (0..count).map(|i| (name(i), 1)).collect::<Files>();
    let directories = (0..16).map(|i| (name(i), files(8))).collect();
    let begun = Contents { directories, ..Contents::default() }.image().and_then(|image| image.begin()).unwrap();
    let image = (0..32).fold(begun, |image, i| image.write(&name(0), &name(i), &name(i), 1).unwrap());
    assert_eq!((image.contents().log.unwrap().len(), image.bytes().len()), (LOG_LIMIT, IMAGE_ROOM));
    assert_eq!(image.commit_step(0).unwrap().0, image);
    let mut longer = image.contents();
    longer.log.as_mut().unwrap().push(0);
    assert_eq!(longer.image(), Err(Refusal::InvalidImage));
}

#[test]
fn every_step_in_words() {
    let field = |tag: u8, value: &[u8]| [&[tag, value.len() as u8, 0], value].concat();
    let told: [(u8, &[u8], &str); 15] = [
        (0x20, b"", "mark the log Committing"),
        (0x21, b"", "sync the staging files"),
        (0x22, b"", "sync the log"),
        (0x23, b"c", "make directory c"),
        (0x24, b"c\0a\0b", "rename c/a to c/b"),
        (0x25, b"s\0c\0a", "move staged s to c/a"),
        (0x26, b"c\0d", "rename directory c to d"),
        (0x27, b"c\0d\0a", "copy c/a to d/a"),
        (0x28, b"c\0a", "remove c/a"),
        (0x29, b"c", "remove directory c"),
        (0x2B, b"", "remove the log"),
        (0x2C, b"s", "remove staged s"),
        (0x2D, b"c", "sync directory c"),
        (0x2D, b"", "sync the collections"),
        (0x2E, b"", "sync the journal"),
    ];
    for (tag, value, words) in told {
        assert_eq!(Step::from_field(&field(tag, value)).unwrap().to_string(), words);
    }
    for (tag, value) in [(0x2A, &b""[..]), (0x23, b""), (0x24, b"c\0a"), (0x22, b"c"), (0x28, b"c\0a\0b")] {
        assert_eq!(Step::from_field(&field(tag, value)), None);
    }
}

#[test]
fn refusals_have_numbers_names_and_sentences() {
    for (number, refusal) in (1..=21).zip(Refusal::all()) {
        assert_eq!((refusal.number(), refusal.name()), (number, format!("{refusal:?}").as_str()));
        assert_eq!(Refusal::from_number(number), Some(refusal));
    }
    assert_eq!(Refusal::all().last(), Some(Refusal::NoWholeLog));
    assert_eq!((Refusal::from_number(0), Refusal::from_number(22)), (None, None));
    assert_eq!(Refusal::TransactionBusy.to_string(), "refusal 3 (TransactionBusy): a transaction is open already");
}

#[test]
fn recording_is_refused() {
    let open = begun(&[("db", &[("a", 7)])]);
    assert_eq!(Image::new(vec![0xFF]), Err(Refusal::InvalidImage));
    assert_eq!(open.begin(), Err(Refusal::TransactionBusy));
    assert_eq!(Image::default().delete_all("db"), Err(Refusal::NoTransaction));
    assert_eq!(Image::default().rollback(), Err(Refusal::NoTransaction));
    let full = (0..32).fold(open.clone(), |image, _| image.delete_all("db").unwrap());
    assert_eq!(full.delete_all("db"), Err(Refusal::TooManyOperations));
    assert_eq!(open.create_collection("a/b"), Err(Refusal::InvalidName));
    assert_eq!(open.list_keys("a b"), Err(Refusal::InvalidName));
    assert_eq!(open.delete_collection("no"), Err(Refusal::CollectionNotFound));
    assert_eq!(open.copy_collection("no", "db"), Err(Refusal::CollectionNotFound));
    assert_eq!(open.delete("db", "no"), Err(Refusal::KeyNotFound));
    assert_eq!(open.create_collection("db"), Err(Refusal::CollectionExists));
    assert_eq!(open.write("db", "a", "s.tmp", 0), Err(Refusal::StagingRefused));
    assert_eq!(ten_steps().write("db", "b", "s.tmp", 1), Err(Refusal::StagingRefused));
    let (mut room, mut written) = ([0; IMAGE_ROOM - 1], 0);
    assert_eq!(sys::begin(b"", Output { bytes: &mut room, written: &mut written }), Refusal::OutputTooShort.number());
}

#[test]
fn recovery_is_refused() {
    let committing = ten_steps().commit_step(1).unwrap().0;
    let undecodable = with_log(&committing, |log| log.extend([&crc32(b"?").to_le_bytes()[..], &[1, 0, 0, 0], b"?"].concat()));
    assert_eq!(undecodable.recover(), Err(Refusal::UndecodablePayload));
    assert_eq!(undecodable.recover_steps().collect::<Vec<_>>(), [Err(Refusal::UndecodablePayload)]);
    let full = (0..32).fold(begun(&[]), |image, _| image.delete_all("db").unwrap()).commit_step(1).unwrap().0;
    assert_eq!(with_log(&full, |log| log.push(0)).recover(), Err(Refusal::LogTooLong));
    let torn = |n| with_log(&ten_steps().commit_step(n).unwrap().0, |log| log.push(0)).recover();
    (4..=7).for_each(|n| assert_eq!(torn(n), Err(Refusal::Corruption)));
    (1..=3).for_each(|n| {
        let Recovered { image, cause } = torn(n).unwrap();
        assert_eq!((image.contents(), cause), (store(&[("db", &[("a", 7)])]), Some(Cause::HeaderShort)), "nothing was applied");
    });
    let old = with_log(&old_log().commit_step(1).unwrap().0, |log| log.push(0));
    assert_eq!(old.recover(), Err(Refusal::Corruption), "a standing key may be one that it wrote");
}

#[test]
fn a_failing_commit_hands_back_the_rolled_back_image() {
    let mut missing = ten_steps().contents();
    missing.staging.clear();
    let error = missing.image().unwrap().commit().unwrap_err();
    assert_eq!((error.refusal, error.image.unwrap().contents()), (Refusal::StepFailed, store(&[("db", &[("a", 7)])])));

    let files: BTreeMap<String, u32> = (0..128).map(|i| (format!("f{i}"), 1)).collect();
    let full = Contents { directories: BTreeMap::from([("db".to_string(), files)]), ..Contents::default() };
    let error = full.image().unwrap().begin().unwrap().write("db", "x", "s", 2).unwrap().commit().unwrap_err();
    assert_eq!((error.refusal, error.image.unwrap().contents()), (Refusal::StoreFull, full));

    let error = Image::default().commit().unwrap_err();
    assert_eq!((error.refusal, error.image), (Refusal::NoTransaction, None));
    assert_eq!(ten_steps().commit_step(11), Err(Refusal::PastTheEnd));
}

#[test]
fn an_update_is_held_then_kept_or_reverted() {
    let image = ten_steps();
    let words = |image: &Image, plan| image.steps(plan).map(|stepped| stepped.unwrap().step.to_string()).collect::<Vec<_>>();
    let told = words(&image, Plan::Hold);
    assert_eq!(told[..7], words(&image, Plan::Commit)[..7]);
    assert_eq!(told[7..], ["mark the log Held", "sync the log"]);
    let held = image.hold().unwrap();
    assert_eq!(held.contents().directories, store(&[("db", &[("a", 9), ("a.bak", 7)])]).directories);
    assert!(held.is_held().unwrap() && held.has_pending_work().unwrap() && !image.is_held().unwrap());
    assert_eq!(Log::read(&held.contents().log.unwrap()).unwrap().status, Status::Held);
    assert_eq!(held.recover().unwrap().image, held);
    assert_eq!(held.keep().unwrap(), image.commit().unwrap());
    assert_eq!(held.revert().unwrap(), Recovered { image: store(&[("db", &[("a", 7)])]).image().unwrap(), cause: None });
    assert_eq!(words(&held, Plan::Keep), ["remove the log", "sync the journal", "remove db/a.bak"]);
    assert_eq!(words(&held, Plan::Revert), ["remove db/a", "rename db/a.bak to db/a", "remove the log"]);
    // A keep after a part of a revert loses the key.
    assert_eq!(held.step(Plan::Revert, 1).unwrap().0.keep().unwrap().contents(), store(&[("db", &[])]));
    assert_eq!(held.begin(), Err(Refusal::HeldUpdate));
    assert_eq!((image.keep(), image.revert()), (Err(Refusal::NothingHeld), Err(Refusal::NothingHeld)));
    let torn = with_log(&held, |log| log.push(0));
    assert_eq!((torn.revert(), torn.keep()), (Err(Refusal::Corruption), image.commit().map_err(|error| error.refusal)));
    let discarded = with_log(&store(&[("e", &[])]).image().unwrap().begin().unwrap().hold().unwrap(), |log| log.push(0));
    assert_eq!(discarded.revert().unwrap().cause, Some(Cause::HeaderShort));
    let mut missing = ten_steps().contents();
    missing.staging.clear();
    let error = missing.image().unwrap().hold().unwrap_err();
    assert_eq!((error.refusal, error.image.unwrap().contents()), (Refusal::StepFailed, store(&[("db", &[("a", 7)])])));
}

#[test]
fn a_rotation_is_one_transaction() {
    let before = store(&[("current", &[("a", 1)]), ("db", &[("x", 9)]), ("next", &[("a", 2), ("b", 3)])]).image().unwrap();
    let after = before.rotate().unwrap();
    assert_eq!(after.contents(), store(&[("backup", &[("a", 1)]), ("current", &[("a", 2), ("b", 3)]), ("db", &[("x", 9)])]));
    let recorded = before.begin().unwrap().copy_collection("current", "backup").unwrap();
    let recorded = recorded.copy_collection("next", "current").unwrap().delete_collection("next").unwrap();
    assert_eq!(recorded.commit().unwrap(), after);
    for step in recorded.commit_steps() {
        let cut = step.unwrap().image;
        let left = cut.recover().unwrap().image;
        assert_eq!(left, if cut.contents().log.is_some() { before.clone() } else { after.clone() });
    }
}

#[test]
fn a_rotation_is_turned_away() {
    let refused = |image: Image| image.rotate().map_err(|error| (error.refusal, error.image.map(|image| image.contents())));
    let of = |files: &[(&str, &[(&str, u32)])]| refused(store(files).image().unwrap());
    assert_eq!(of(&[("next", &[("a", 1)])]), Err((Refusal::CurrentMissing, None)));
    assert_eq!(of(&[]), Err((Refusal::CurrentMissing, None)));
    assert_eq!(of(&[("current", &[("a", 1)])]), Err((Refusal::NextMissing, None)));
    assert_eq!(of(&[("current", &[]), ("next", &[])]), Err((Refusal::NextMissing, None)));
    assert_eq!(refused(begun(&[])), Err((Refusal::TransactionBusy, None)));
    assert_eq!(refused(ten_steps().hold().unwrap()), Err((Refusal::HeldUpdate, None)));
    let many: Vec<(String, u32)> = (1..=64).map(|i| (format!("f{i:02}"), i)).collect();
    let many: Vec<(&str, u32)> = many.iter().map(|(name, number)| (&name[..], *number)).collect();
    let full: &[(&str, &[(&str, u32)])] = &[("current", &many), ("next", &[("a", 1)])];
    assert_eq!(of(full), Err((Refusal::StoreFull, Some(store(full)))));
}

#[test]
fn keys_are_listed_lowered() {
    let image = store(&[("db", &[("A", 1), ("a", 2), ("b.bak", 3), ("c.tmp", 4)])]).image().unwrap();
    assert_eq!(image.list_keys("db").unwrap(), ["a", "a"]);
    assert_eq!(image.list_keys("none").unwrap(), [""; 0]);
}

#[test]
fn the_first_backup_is_named() {
    let found = |files: &[(&str, &[(&str, u32)])]| store(files).image().unwrap().find_backup().unwrap();
    let file = |collection: &str, name: &str, number| Some(Backup::File { collection: collection.into(), name: name.into(), number });
    let later: &[(&str, u32)] = &[("y.bak", 2), ("z.bak", 3)];
    assert_eq!(found(&[("a.bak", &[("x", 1)]), ("b", later)]), file("b", "y.bak", 2), "a file before a directory");
    assert_eq!(found(&[("a.bak", &[("x.bak", 1)]), ("b", later)]), file("a.bak", "x.bak", 1));
    assert_eq!(found(&[("a", &[("x", 1)]), ("b.bak", &[("y", 2)]), ("c.bak", &[])]), Some(Backup::Directory("b.bak".into())));
    assert_eq!(found(&[("db", &[("a", 7)])]), None);
    let (mut room, mut written) = ([0; HIT_ROOM - 1], 0);
    assert_eq!(sys::find_backup(b"", Output { bytes: &mut room, written: &mut written }), Refusal::OutputTooShort.number());
}

/// The entry of a payload, with its checksum.
fn entry(payload: &[u8]) -> Vec<u8> {
    [&crc32(payload).to_le_bytes(), &u32::try_from(payload.len()).unwrap().to_le_bytes(), payload].concat()
}

/// What stands behind a log's last entry, and how the log broke by it.
fn breaks() -> [(Vec<u8>, Cause); 5] {
    let wrong = [&[0; 4], &entry(b"x")[4..]].concat();
    [
        (vec![0], Cause::HeaderShort),
        (vec![0; 7], Cause::HeaderShort),
        (entry(b""), Cause::PayloadMissing),
        (entry(b"xy")[..9].to_vec(), Cause::PayloadMissing),
        (wrong, Cause::ChecksumWrong),
    ]
}

#[test]
fn recovery_says_how_the_log_broke_that_it_discards() {
    let committing = ten_steps().commit_step(1).unwrap().0;
    let before = store(&[("db", &[("a", 7)])]);
    let recovered = |image: &Image| image.recover().map(|recovered| (recovered.image.contents(), recovered.cause)).unwrap();
    assert_eq!(recovered(&committing), (before.clone(), None));
    for (behind, cause) in breaks() {
        let torn = |image: &Image| with_log(image, |log| log.extend(&behind));
        assert_eq!(recovered(&torn(&committing)), (before.clone(), Some(cause)));
        assert_eq!(recovered(&torn(&ten_steps())), (before.clone(), None), "a Recording log is discarded unread");
        assert_eq!(torn(&ten_steps().commit_step(4).unwrap().0).recover(), Err(Refusal::Corruption));
        assert_eq!(torn(&ten_steps()).rollback(), Err(Refusal::NoTransaction));
    }
}

#[test]
fn a_log_is_read_up_to_where_it_breaks() {
    let image = begun(&[("c", &[("a", 1)]), ("d", &[])]);
    let image = image.write("c", "a", "s", 2).and_then(|image| image.write("c", "b", "t", 3)).unwrap();
    let image = image.delete("c", "a").and_then(|image| image.delete_all("d")).and_then(|image| image.create_collection("e")).unwrap();
    let image = image.delete_collection("d").and_then(|image| image.copy_collection("c", "d")).unwrap();
    let bytes = image.copy_collection("c", "f").unwrap().contents().log.unwrap();
    let bytes = [bytes, OLD_WRITE.to_vec()].concat();
    let words = [
        "write staged s to c/a; the key was there",
        "write staged t to c/b; the key is new",
        "delete c/a",
        "delete all files of d",
        "create collection e",
        "delete collection d",
        "copy collection c to d, which was there",
        "copy collection c to f, which is new",
        "write staged s to db/a",
    ];
    let whole = Log::read(&bytes).unwrap();
    assert_eq!(whole.operations.iter().map(Logged::to_string).collect::<Vec<_>>(), words);
    assert_eq!((whole.status, whole.end, whole.broke, whole.clone().writes()), (Status::Recording, bytes.len(), Ok(None), None));
    let undecodable = (entry(b"?"), Err(Refusal::UndecodablePayload));
    for (behind, broke) in breaks().map(|(behind, cause)| (behind, Ok(Some(cause)))).into_iter().chain([undecodable]) {
        let broken = Log::read(&[&bytes[..], &behind].concat()).unwrap();
        assert_eq!(broken, Log { broke, ..whole.clone() });
    }
    let long = [COMMITTING, &entry(b"\x01\x01\0\x03\x02\x01\0d").repeat(33)].concat();
    let long = Log::read(&long).unwrap();
    assert_eq!((long.status, long.operations.len(), long.broke), (Status::Committing, 32, Err(Refusal::LogTooLong)));
}

#[test]
fn what_is_no_log_is_refused() {
    for bytes in [&b""[..], &RECORDING[..7], b"\xca\x02\0\0\0\0\0\0", &[0; LOG_LIMIT]] {
        assert_eq!(Log::read(bytes), Err(Refusal::NoWholeLog));
    }
    assert_eq!(Log::read(&[RECORDING, &[0; LOG_LIMIT]].concat()), Err(Refusal::InvalidImage));
    let mut cause = 9;
    assert_eq!((sys::log_cause(b"", &mut cause), cause), (Refusal::NoWholeLog.number(), 9), "a refusal leaves the cause");
}

#[test]
fn a_step_is_its_field() {
    let image = begun(&[("c", &[("a", 1)]), ("d", &[("k", 2)]), ("e", &[])]);
    let image = image.write("c", "a", "s", 2).and_then(|image| image.write("n", "b", "t", 3)).unwrap();
    let image = image.copy_collection("c", "d").and_then(|image| image.delete_collection("e")).unwrap();
    let steps: Vec<Step> = image.commit_steps().map(|stepped| stepped.unwrap().step).collect();
    assert!(steps.len() > 12);
    for step in steps {
        assert_eq!(Step::from_field(&step.field()), Some(step));
    }
}

/// Document 02, item 12: all three statuses; all seven kinds stand in the log of `a_log_is_read_up_to_where_it_breaks`.
#[test]
fn a_log_has_one_way_to_be_written() {
    let image = begun(&[("c", &[("a", 1)]), ("d", &[])]);
    let image = image.write("c", "a", "s", 2).and_then(|image| image.delete_all("d")).unwrap();
    let logs = [image.clone(), image.commit_step(1).unwrap().0, image.hold().unwrap()].map(|image| image.contents().log.unwrap());
    for log in &logs {
        let other = [&log[..2], &[7, 9], &log[4..]].concat();
        assert_eq!(Log::read(&other), Log::read(log), "bytes 2 and 3 say nothing");
        assert_eq!((Log::canonical(&other).as_ref(), Log::canonical(log).as_ref()), (Ok(log), Ok(log)));
    }
    assert!(logs[0] != logs[1] && logs[1] != logs[2]);
    for (behind, _) in breaks() {
        assert_eq!(Log::canonical(&[&logs[2][..], &behind].concat()), Err(Refusal::NoWholeLog));
    }
    assert_eq!(Log::canonical(&[&logs[2][..], &entry(b"?")].concat()), Err(Refusal::UndecodablePayload));
    let long = [COMMITTING, &entry(b"\x01\x01\0\x03\x02\x01\0d").repeat(33)].concat();
    assert_eq!(Log::canonical(&long), Err(Refusal::LogTooLong));
    assert_eq!(Log::canonical(b""), Err(Refusal::NoWholeLog));
    assert_eq!(Log::canonical(&[0; LOG_LIMIT + 1]), Err(Refusal::InvalidImage));
    let (mut room, mut written) = ([5; 8], 6);
    let short = sys::canonical_log(b"\xca\x03\0\0\0\0\0\0", Output { bytes: &mut room[..7], written: &mut written });
    assert_eq!((short, room, written), (Refusal::OutputTooShort.number(), [5; 8], 6), "2 comes before 21, and leaves output and counter");
}

#[test]
fn an_inventory_is_one_object() {
    let text = |files: &[(&str, &[(&str, u32)])]| store(files).image().unwrap().inventory().unwrap();
    assert_eq!(text(&[("db", &[("a", 7)])]), r#"{"db":{"a":7}}"#);
    assert_eq!(text(&[]), "{}");
    assert_eq!(text(&[("\"", &[("a\"b", 1), ("c", u32::MAX)]), ("db.bak", &[])]), r#"{"\"":{"a\"b":1,"c":4294967295},"db.bak":{}}"#);
    assert_eq!(ten_steps().inventory().unwrap(), r#"{"db":{"a":7}}"#, "staging file, log and open mark are not shown");
}

#[test]
fn an_inventory_is_refused_where_its_text_is_longer_than_the_output() {
    let image = store(&[("db", &[("a", 7)])]).image().unwrap();
    let (mut room, mut written) = ([b'.'; 15], 99);
    assert_eq!(sys::inventory(image.bytes(), Output { bytes: &mut room[..13], written: &mut written }), Refusal::OutputTooShort.number());
    assert_eq!((&room[..], written), (&b"..............."[..], 99));
    assert_eq!(sys::inventory(image.bytes(), Output { bytes: &mut room, written: &mut written }), 0);
    assert_eq!((&room[..], written), (&br#"{"db":{"a":7}}."#[..], 14));
    assert_eq!(sys::inventory(b"\x10", Output { bytes: &mut [], written: &mut written }), Refusal::InvalidImage.number());
}

#[test]
fn the_longest_inventory_has_room() {
    // Names of 64 bytes, as many double quotes in them as can be: one name of quotes alone, the others with one byte more.
    let names = |count: u8| (0..count).map(|i| format!("{}{}", "\"".repeat(63), if i == 0 { '"' } else { char::from(b'a' + i) }));
    let files: Files = names(8).map(|name| (name, u32::MAX)).collect();
    let full = Contents { directories: names(16).map(|name| (name, files.clone())).collect(), ..Contents::default() };
    assert_eq!(full.image().unwrap().inventory().unwrap().len(), INVENTORY_ROOM);
}
