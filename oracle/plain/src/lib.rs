//! A plain reading of document 01, and of items 1, 2, 4, 6 and 9 of document 02: a store in memory, on ordered maps, with nothing in mind but the text.
pub mod image;
pub mod log;
pub mod name;
mod run;
pub mod step;

pub use image::Image;
pub use log::Operation;
pub use name::Name;

use log::{Ending, OPERATION_LIMIT, Status};
use name::{backup, is_backup, is_tmp, is_valid};
use run::{Recovery, Run, Stop};
use std::collections::BTreeMap;
use store::{HIT_ROOM, IMAGE_ROOM, KEYS_ROOM, Out, STEP_ROOM, Store};

pub struct Plain;

/// A refusal's number.
type Refused<T> = Result<T, u32>;

fn refuse_unless(test: bool, number: u32) -> Refused<()> {
    if test { Ok(()) } else { Err(number) }
}

fn decode(image: &[u8], room: bool) -> Refused<Image> {
    let image = Image::decode(image).ok_or(1u32)?;
    refuse_unless(room, 2)?;
    Ok(image)
}

/// Number 4: the operations of the open transaction.
fn transaction(image: &Image) -> Refused<Vec<Operation>> {
    let log = image.log.as_ref().filter(|l| image.open && log::status(l) == Some(Status::Recording)).ok_or(4u32)?;
    match log::operations(log) {
        (operations, Ending::Whole) => Ok(operations),
        _ => Err(4),
    }
}

/// An entry that hands an image back.
fn answer(out: &mut Out, image: &[u8], entry: impl FnOnce(&mut Image) -> Refused<()>) -> u32 {
    let result = decode(image, out.bytes.len() >= IMAGE_ROOM).and_then(|mut image| entry(&mut image).map(|()| image));
    match result {
        Ok(image) => {
            out.put(&image.encode());
            0
        }
        Err(number) => number,
    }
}

/// An entry that records an operation: 4, 5, its own tests, the operation into the log.
fn record(out: &mut Out, image: &[u8], entry: impl FnOnce(&mut Image) -> Refused<Operation>) -> u32 {
    answer(out, image, |image| {
        refuse_unless(transaction(image)?.len() < OPERATION_LIMIT, 5)?;
        let operation = entry(image)?;
        log::append(image.log.as_mut().expect("a transaction has a log"), &operation.encode());
        Ok(())
    })
}

/// Deleting "k" where only "K" stands renames K to k at once.
fn rename_case(image: &mut Image, collection: &[u8], key: &Name) {
    let Some(files) = image.dirs.get_mut(collection) else { return };
    if files.contains_key(key) {
        return;
    }
    let other = files.keys().find(|f| !is_backup(f) && !is_tmp(f) && f.eq_ignore_ascii_case(key)).cloned();
    if let Some(number) = other.and_then(|f| files.remove(&f)) {
        files.insert(key.clone(), number);
    }
}

fn any_backup(image: &Image) -> bool {
    image.dirs.iter().any(|(dir, files)| is_backup(dir) || files.keys().any(|f| is_backup(f)))
}

/// `has_new_artifacts`
fn any_new_artifact(image: &Image, operations: &[Operation]) -> bool {
    operations.iter().any(|operation| match operation {
        Operation::Write { collection, key, mark, .. } => image.is_new(collection, key, *mark),
        Operation::CreateCollection { name } => image.dirs.contains_key(name),
        Operation::CopyCollection { dest, existed, .. } => {
            !existed && image.dirs.contains_key(dest) && !image.dirs.contains_key(&backup(dest))
        }
        _ => false,
    })
}

/// What recovery will do, or 11, 12, 13.
fn recovery(image: &Image) -> Refused<Recovery> {
    let Some(log) = &image.log else { return Ok(Recovery::NoLog) };
    match log::status(log) {
        None => Ok(Recovery::NoLog),
        Some(Status::Recording) => Ok(Recovery::Discard),
        Some(Status::Committing) => undoing(image, log),
        Some(Status::Held) => Ok(Recovery::Held),
    }
}

/// What recovery does for a Committing log, this one.
fn undoing(image: &Image, log: &[u8]) -> Refused<Recovery> {
    match log::operations(log) {
        (operations, Ending::Whole) => Ok(Recovery::Undo(operations)),
        (_, Ending::Undecodable) => Err(11),
        (_, Ending::TooMany) => Err(12),
        (operations, Ending::Truncated(_)) => {
            refuse_unless(!any_backup(image) && !any_new_artifact(image, &operations), 13)?;
            Ok(Recovery::Discard)
        }
    }
}

/// 02, item 6: "18, keep or revert without a Held log".
fn held(image: &Image) -> Refused<&[u8]> {
    image.log.as_deref().filter(|log| log::is_held(Some(log))).ok_or(18)
}

/// 02, item 6: "Revert does what recovery does for a Committing log."
fn reverting(image: &Image) -> Refused<Recovery> {
    undoing(image, held(image)?)
}

/// 02, item 1: "Recovery also hands that number back when it discards a truncated Committing log, and 0 whenever else it is done". So does revert
/// of a Held one.
fn discarded(image: &Image, status: Status) -> u32 {
    let undone = image.log.as_deref().filter(|log| log::status(log) == Some(status));
    match undone.map(|log| log::operations(log).1) {
        Some(Ending::Truncated(cause)) => cause as u32,
        _ => 0,
    }
}

/// A commit, held or not.
fn commit(image: &[u8], out: &mut Out, hold: bool) -> u32 {
    let begun = decode(image, out.bytes.len() >= IMAGE_ROOM).and_then(|image| Ok((transaction(&image)?, image)));
    match begun {
        Err(number) => number,
        Ok((operations, image)) => {
            let mut run = Run { image, left: u64::MAX, last: None };
            let Ok(number) = run.commit(&operations, hold) else { unreachable!("no cut") };
            out.put(&run.image.encode());
            number
        }
    }
}

fn commit_step(image: &[u8], n: u64, out: &mut Out, step: &mut Out, hold: bool) -> u32 {
    let begun = decode(image, step_room(out, step)).and_then(|image| Ok((transaction(&image)?, image)));
    match begun {
        Err(number) => number,
        Ok((operations, image)) => step_answer(image, n, out, step, |run| run.commit(&operations, hold).map(|_| ())),
    }
}

/// An entry that carries out steps which can't fail, to their end. It drops the open mark before the first one.
fn settle(image: &mut Image, go: impl FnOnce(&mut Run) -> Result<(), Stop>) {
    image.open = false;
    let mut run = Run { image: std::mem::take(image), left: u64::MAX, last: None };
    let Ok(()) = go(&mut run) else { unreachable!("no cut and no fault") };
    *image = run.image;
}

/// The step entry of such a one, which is refused by the number that `what` gives.
fn settle_step<T>(
    image: &[u8],
    n: u64,
    out: &mut Out,
    step: &mut Out,
    what: impl FnOnce(&Image) -> Refused<T>,
    go: impl FnOnce(&mut Run, T) -> Result<(), Stop>,
) -> u32 {
    let begun = decode(image, step_room(out, step)).and_then(|image| Ok((what(&image)?, image)));
    match begun {
        Err(number) => number,
        Ok((what, image)) => step_answer(Image { open: false, ..image }, n, out, step, |run| go(run, what)),
    }
}

/// A step entry: the run up to n steps, then the image and the last step's field, or 16.
fn step_answer(image: Image, n: u64, out: &mut Out, step: &mut Out, go: impl FnOnce(&mut Run) -> Result<(), Stop>) -> u32 {
    let mut run = Run { image, left: n, last: None };
    let ended = go(&mut run).is_ok();
    if ended && run.left > 0 {
        return 16;
    }
    out.put(&run.image.encode());
    step.put(&run.last.map(|s| s.field()).unwrap_or_default());
    0
}

fn step_room(out: &Out, step: &Out) -> bool {
    out.bytes.len() >= IMAGE_ROOM && step.bytes.len() >= STEP_ROOM
}

/// A name in an inventory. 02, item 9: "A double quote in a name is written with a backslash before it; no other byte of a name needs escaping."
fn quoted(name: &Name) -> String {
    format!("\"{}\"", String::from_utf8_lossy(name).replace('"', "\\\""))
}

/// "as one object without spaces or line ends"
fn object<T>(members: &BTreeMap<Name, T>, value: impl Fn(&T) -> String) -> String {
    let members: Vec<String> = members.iter().map(|(name, member)| format!("{}:{}", quoted(name), value(member))).collect();
    format!("{{{}}}", members.join(","))
}

impl Store for Plain {
    fn name(&self) -> &'static str {
        "plain"
    }

    fn begin(&self, image: &[u8], out: &mut Out) -> u32 {
        answer(out, image, |image| {
            refuse_unless(!image.open, 3)?;
            // 02, item 6: "17, begin while a Held log stands, tested after 3"
            refuse_unless(!log::is_held(image.log.as_deref()), 17)?;
            image.log = Some(log::header(Status::Recording));
            image.open = true;
            Ok(())
        })
    }

    fn write(&self, image: &[u8], collection: &[u8], key: &[u8], staged: &[u8], number: u32, out: &mut Out) -> u32 {
        record(out, image, |image| {
            let key = key.to_ascii_lowercase();
            refuse_unless(is_valid(collection) && is_valid(&key) && is_valid(staged), 6)?;
            let free = !image.staging.contains_key(staged) && image.staging.len() < image::STAGING_LIMIT;
            refuse_unless(free && number != 0, 10)?;
            image.staging.insert(staged.to_vec(), number);
            // 02, item 4: "1 if the key's file stood when it was recorded, else 0"
            let mark = Some(image.has(collection, &key));
            Ok(Operation::Write { collection: collection.to_vec(), key, staged: staged.to_vec(), mark })
        })
    }

    fn delete(&self, image: &[u8], collection: &[u8], key: &[u8], out: &mut Out) -> u32 {
        record(out, image, |image| {
            let key = key.to_ascii_lowercase();
            refuse_unless(is_valid(collection) && is_valid(&key), 6)?;
            rename_case(image, collection, &key);
            refuse_unless(image.has(collection, &key), 8)?;
            Ok(Operation::Delete { collection: collection.to_vec(), key })
        })
    }

    fn delete_all(&self, image: &[u8], collection: &[u8], out: &mut Out) -> u32 {
        record(out, image, |_| {
            refuse_unless(is_valid(collection), 6)?;
            Ok(Operation::DeleteAll { collection: collection.to_vec() })
        })
    }

    fn create_collection(&self, image: &[u8], name: &[u8], out: &mut Out) -> u32 {
        record(out, image, |image| {
            refuse_unless(is_valid(name), 6)?;
            refuse_unless(!image.dirs.contains_key(name), 9)?;
            Ok(Operation::CreateCollection { name: name.to_vec() })
        })
    }

    fn delete_collection(&self, image: &[u8], name: &[u8], out: &mut Out) -> u32 {
        record(out, image, |image| {
            refuse_unless(is_valid(name), 6)?;
            refuse_unless(image.dirs.contains_key(name), 7)?;
            Ok(Operation::DeleteCollection { name: name.to_vec() })
        })
    }

    fn copy_collection(&self, image: &[u8], source: &[u8], dest: &[u8], out: &mut Out) -> u32 {
        record(out, image, |image| {
            refuse_unless(is_valid(source), 6)?;
            refuse_unless(image.dirs.contains_key(source), 7)?;
            refuse_unless(is_valid(dest), 6)?;
            let existed = image.dirs.contains_key(dest);
            Ok(Operation::CopyCollection { source: source.to_vec(), dest: dest.to_vec(), existed })
        })
    }

    fn commit(&self, image: &[u8], out: &mut Out) -> u32 {
        commit(image, out, false)
    }

    fn commit_step(&self, image: &[u8], n: u64, out: &mut Out, step: &mut Out) -> u32 {
        commit_step(image, n, out, step, false)
    }

    fn rollback(&self, image: &[u8], out: &mut Out) -> u32 {
        answer(out, image, |image| {
            transaction(image)?;
            image.staging.clear();
            image.log = None;
            image.open = false;
            Ok(())
        })
    }

    fn has_pending_work(&self, image: &[u8], pending: &mut u32) -> u32 {
        let Some(image) = Image::decode(image) else { return 1 };
        *pending = u32::from(image.log.is_some() || any_backup(&image) || !image.staging.is_empty());
        0
    }

    fn recover(&self, image: &[u8], out: &mut Out, cause: &mut u32) -> u32 {
        answer(out, image, |image| {
            let what = recovery(image)?;
            *cause = discarded(image, Status::Committing);
            settle(image, |run| run.recover(what));
            Ok(())
        })
    }

    fn recover_step(&self, image: &[u8], n: u64, out: &mut Out, step: &mut Out) -> u32 {
        settle_step(image, n, out, step, recovery, Run::recover)
    }

    fn list_keys(&self, image: &[u8], collection: &[u8], out: &mut Out) -> u32 {
        let image = match decode(image, out.bytes.len() >= KEYS_ROOM) {
            Ok(image) => image,
            Err(number) => return number,
        };
        if !is_valid(collection) {
            return 6;
        }
        let mut keys = Vec::new();
        for file in image.dirs.get(collection).into_iter().flat_map(|files| files.keys()) {
            if !is_backup(file) && !is_tmp(file) {
                image::put_field(&mut keys, 0x03, &[&file.to_ascii_lowercase()]);
            }
        }
        out.put(&keys);
        0
    }

    /// 02, item 2: "the first backup file in image order, or if no file is one the first directory with a backup's name"
    fn find_backup(&self, image: &[u8], out: &mut Out) -> u32 {
        let image = match decode(image, out.bytes.len() >= HIT_ROOM) {
            Ok(image) => image,
            Err(number) => return number,
        };
        let files = || image.dirs.iter().flat_map(|(dir, files)| files.iter().map(move |(file, number)| (dir, file, number)));
        let mut hit = Vec::new();
        if let Some((dir, file, number)) = files().find(|(_, file, _)| is_backup(file)) {
            image::put_field(&mut hit, 0x10, &[dir]);
            image::put_field(&mut hit, 0x11, &[&number.to_le_bytes(), file]);
        } else if let Some(dir) = image.dirs.keys().find(|dir| is_backup(dir)) {
            image::put_field(&mut hit, 0x10, &[dir]);
        }
        out.put(&hit);
        0
    }

    /// 02, item 1: "The log reading shall say which it met"
    fn log_cause(&self, log: &[u8], cause: &mut u32) -> u32 {
        if log.len() > image::LOG_LIMIT {
            return 1;
        }
        if log::status(log).is_none() {
            return 21;
        }
        match log::operations(log).1 {
            Ending::Undecodable => return 11,
            Ending::TooMany => return 12,
            Ending::Whole => *cause = 0,
            Ending::Truncated(met) => *cause = met as u32,
        }
        0
    }

    /// 02, item 9: "each directory name with an object of its file names and content numbers in decimal, both in image order"
    fn inventory(&self, image: &[u8], out: &mut Out) -> u32 {
        let Some(image) = Image::decode(image) else { return 1 };
        let text = object(&image.dirs, |files| object(files, u32::to_string));
        // "Refusal 2 here means that the text is longer than the lent output"
        if text.len() > out.bytes.len() {
            return 2;
        }
        out.put(text.as_bytes());
        0
    }

    fn hold(&self, image: &[u8], out: &mut Out) -> u32 {
        commit(image, out, true)
    }

    fn hold_step(&self, image: &[u8], n: u64, out: &mut Out, step: &mut Out) -> u32 {
        commit_step(image, n, out, step, true)
    }

    fn keep(&self, image: &[u8], out: &mut Out) -> u32 {
        answer(out, image, |image| {
            held(image)?;
            settle(image, Run::keep);
            Ok(())
        })
    }

    fn keep_step(&self, image: &[u8], n: u64, out: &mut Out, step: &mut Out) -> u32 {
        settle_step(image, n, out, step, |image| held(image).map(|_| ()), |run, ()| run.keep())
    }

    fn revert(&self, image: &[u8], out: &mut Out, cause: &mut u32) -> u32 {
        answer(out, image, |image| {
            let what = reverting(image)?;
            *cause = discarded(image, Status::Held);
            settle(image, |run| run.recover(what));
            Ok(())
        })
    }

    fn revert_step(&self, image: &[u8], n: u64, out: &mut Out, step: &mut Out) -> u32 {
        settle_step(image, n, out, step, reverting, Run::recover)
    }
}
