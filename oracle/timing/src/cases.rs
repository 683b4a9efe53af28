//! The images and calls that are timed. All judges get the same ones.
use plain::{Image, Plain};
use store::{Answer, Call, Lent, Name, Plan, Store, ask};

/// A store by its size. Writes go to keys that stand, one collection after the other.
pub struct Size {
    pub title: &'static str,
    pub words: &'static str,
    collections: usize,
    files: usize,
    writes: usize,
    /// Files of a collection before the commit: a Write to a key that stands needs a place for the backup.
    files_before_commit: usize,
    /// Collection, key and staging file by number.
    names: [fn(usize) -> String; 3],
}

const SHORT: [fn(usize) -> String; 3] = [|_| "db".into(), |_| "a".into(), |_| "s.tmp".into()];
const LONG: [fn(usize) -> String; 3] = [|i| format!("collection{i:02}"), |i| format!("database{i:04}"), |i| format!("staged{i:02}.tmp")];

pub const TEN_STEP: Size = Size {
    title: "ten-step",
    words: "document 01's ten-step case: one collection, one file, one Write",
    collections: 1,
    files: 1,
    writes: 1,
    files_before_commit: 1,
    names: SHORT,
};

pub const TYPICAL: Size = Size {
    title: "typical",
    words: "4 collections of 12 files, 8 Writes, names of 12 bytes",
    collections: 4,
    files: 12,
    writes: 8,
    files_before_commit: 12,
    names: LONG,
};

pub const FULL: Size = Size {
    title: "full",
    words: "16 collections, 128 files (96 where commit and recovery need places for backups), 32 Writes, names of 12 bytes",
    collections: 16,
    files: 8,
    writes: 32,
    files_before_commit: 6,
    names: LONG,
};

/// A row of the table: what is timed.
pub struct Case {
    pub what: &'static str,
    pub call: Call,
    pub image: Vec<u8>,
}

/// The answer of the plain reading, which must be 0.
fn done(call: &Call, image: &[u8]) -> Answer {
    let answer = ask(&Plain, call, image, Lent::AMPLE);
    assert_eq!(answer.number, 0, "{call:?}");
    answer
}

fn after(call: &Call, image: &[u8]) -> Vec<u8> {
    done(call, image).out.expect("an image")
}

/// The images and fields of a plan's steps, from 0 on.
pub fn steps(plan: Plan, image: &[u8]) -> Vec<(Vec<u8>, Vec<u8>)> {
    let (_, answers) = Plain.plan(plan, image);
    answers.into_iter().filter_map(|a| Some((a.out?, a.step?))).collect()
}

impl Size {
    fn name(&self, kind: usize, i: usize) -> Name {
        self.names[kind](i).into_bytes()
    }

    fn at_rest(&self, files: usize) -> Vec<u8> {
        let files = || (0..files).map(|f| (self.name(1, f), 7 + f as u32)).collect();
        let dirs = (0..self.collections).map(|c| (self.name(0, c), files())).collect();
        Image { dirs, ..Image::default() }.encode()
    }

    fn write(&self, w: usize) -> Call {
        let (collection, key) = (self.name(0, w % self.collections), self.name(1, w / self.collections));
        Call::Write { collection, key, staged: self.name(2, w), number: 1000 + w as u32 }
    }

    fn recorded(&self, at_rest: &[u8], writes: usize) -> Vec<u8> {
        (0..writes).fold(after(&Call::Begin, at_rest), |image, w| after(&self.write(w), &image))
    }

    /// Every entry. An operation is recorded as the transaction's last; recovery starts where all is done but the log stands.
    pub fn cases(&self) -> Vec<Case> {
        let rest = self.at_rest(self.files);
        let (almost, open) = (self.recorded(&rest, self.writes - 1), self.recorded(&rest, self.writes));
        let ready = self.recorded(&self.at_rest(self.files_before_commit), self.writes);
        let commit = steps(Plan::Commit, &ready);
        let log_goes = commit.iter().position(|(_, field)| *field == [0x2B, 0, 0]).expect("the log goes");
        let cut = commit[log_goes - 1].0.clone();
        let recovery = steps(Plan::Recover, &cut).len() as u64 - 1;
        let (last, new) = (self.name(0, self.collections - 1), b"collectionxx".to_vec());
        let key = self.name(1, self.files - 1);
        let case = |what, call, image: &[u8]| Case { what, call, image: image.to_vec() };
        vec![
            case("begin", Call::Begin, &rest),
            case("write", self.write(self.writes - 1), &almost),
            case("delete", Call::Delete { collection: last.clone(), key }, &almost),
            case("delete_all", Call::DeleteAll { collection: last.clone() }, &almost),
            case("create_collection", Call::CreateCollection { name: new.clone() }, &almost),
            case("delete_collection", Call::DeleteCollection { name: last.clone() }, &almost),
            case("copy_collection", Call::CopyCollection { source: last.clone(), dest: new }, &almost),
            case("commit", Call::Commit, &ready),
            case("commit_step, the first", Call::CommitStep(1), &ready),
            case("commit_step, the last", Call::CommitStep(commit.len() as u64 - 1), &ready),
            case("rollback", Call::Rollback, &open),
            case("has_pending_work: no", Call::HasPendingWork, &rest),
            case("has_pending_work: a log", Call::HasPendingWork, &open),
            case("recover", Call::Recover, &cut),
            case("recover_step, the last", Call::RecoverStep(recovery), &cut),
            case("list_keys", Call::ListKeys { collection: last }, &rest),
        ]
    }
}

/// Transactions whose commits have 10 steps, 100, and the most that we found for 32 operations.
pub fn growing() -> [Vec<u8>; 3] {
    let ready = |size: &Size| size.recorded(&size.at_rest(size.files), size.writes);
    [ready(&TEN_STEP), ready(&Size { writes: 30, ..TYPICAL }), longest()]
}

/// A delete-all renames each file of its collection, backups too, and a name of up to four bytes can take ".bak" fifteen
/// times. 64 files are copied once, so that 128 files stand in two collections, which takes 30 delete-alls; copies go onto
/// empty collections, which are backed up; 32 staging files are left over.
fn longest() -> Vec<u8> {
    let names = |count: u32| (0..count).map(|i| (format!("{i:02}").into_bytes(), i + 1));
    let dirs = [("d", 0), ("e", 0), ("f", 0), ("s", 64)].map(|(dir, files)| (dir.into(), names(files).collect()));
    let rest = Image { dirs: dirs.into(), staging: names(32).collect(), ..Image::default() };
    let copy = |source: &str, dest: &str| Call::CopyCollection { source: source.into(), dest: dest.into() };
    let mut calls = vec![Call::Begin, copy("s", "d")];
    calls.extend((0..30).map(|i| Call::DeleteAll { collection: if i % 2 == 0 { b"s".to_vec() } else { b"d".to_vec() } }));
    calls.push(copy("e", "f"));
    calls.iter().fold(rest.encode(), |image, call| after(call, &image))
}
