//! A call of the traits as a value.
use crate::Random;

/// How many handles on collections are kept.
pub const SLOTS: usize = 4;

#[derive(Clone, Debug)]
pub enum Call {
    /// Both storages are closed and opened again, by lot each on the other's directory.
    Reopen,
    Begin,
    Commit,
    Rollback,
    DropTransaction,
    Get(usize, String),
    GetOrCreate(usize, String),
    Create(usize, String),
    /// The future is dropped: its work was done before.
    CreateUnawaited(String),
    DeleteCollection(String),
    Copy(String, String),
    Read(usize, String, u64),
    /// Reads and keeps what was read.
    Keep(usize, String),
    Metadata(usize, String),
    List(usize),
    Len(usize),
    IsEmpty(usize),
    FilePath(usize, String),
    DirPath(usize),
    Write(usize, String, Vec<u8>),
    /// A stream that fails behind these bytes.
    BrokenWrite(usize, String, Vec<u8>),
    Delete(usize, String),
    DeleteUnawaited(usize, String),
    DeleteAll(usize),
    /// A file is put into a collection from outside, in both directories.
    Provision(String, String, Vec<u8>),
}

/// Names that both take.
const COLLECTIONS: [&str; 7] = ["db", "next", "backup", "c", "c.bak", "e.tmp", "C"];
const KEYS: [&str; 10] = ["a", "b", "a.bak", "a.tmp", "version", "A", "Faults.MDD", "x.bak.bak", "q", "....bak"];
/// Names that files are put under from outside: no two differ in letter case alone.
const PROVISIONED: [&str; 3] = ["Faults.mdd", "Q", "version"];
/// Names that neither takes.
const WRONG: [&str; 6] = ["", ".", "..", "a/b", "a\\b", "a\0b"];
/// Names that the original alone takes.
pub const ITS_OWN: [&str; 5] =
    ["door lights", "t\u{fc}r", "..bak", "...bak", "a-name-of-over-64-bytes-which-the-original-takes-and-no-image-can-hold-"];
/// A key whose backup's name is over 64 bytes.
const LONG: &str = "a-key-of-62-bytes-for-which-no-backup-name-is-left-in-64-bytes";

fn collection(random: &mut Random) -> String {
    let few = random.pick(&[3, 3, 3, 7]);
    match random.below(40) {
        0 => random.pick(&WRONG),
        1 => random.pick(&ITS_OWN),
        _ => random.pick(&COLLECTIONS[..few]),
    }
    .to_string()
}

fn key(random: &mut Random) -> String {
    let few = random.pick(&[2, 7, 10]);
    match random.below(60) {
        0 => random.pick(&WRONG),
        1 => random.pick(&ITS_OWN),
        2 => LONG,
        _ => random.pick(&KEYS[..few]),
    }
    .to_string()
}

impl Call {
    /// The handle that it needs.
    pub fn slot(&self) -> Option<usize> {
        match self {
            Call::Read(slot, ..) | Call::Keep(slot, _) | Call::Metadata(slot, _) | Call::List(slot) | Call::Len(slot) => Some(*slot),
            Call::IsEmpty(slot) | Call::FilePath(slot, _) | Call::DirPath(slot) | Call::Write(slot, ..) => Some(*slot),
            Call::BrokenWrite(slot, ..) | Call::Delete(slot, _) | Call::DeleteUnawaited(slot, _) | Call::DeleteAll(slot) => Some(*slot),
            _ => None,
        }
    }
}

/// A call; those that need a transaction only where one is open, and none that ends a long one.
pub fn any(random: &mut Random, open: bool, long: bool) -> Call {
    let slot = random.below(SLOTS);
    let (one, other, key) = (collection(random), collection(random), key(random));
    if open && random.below(100) < 62 {
        return match random.below(40) {
            0..=12 => Call::Write(slot, key, random.bytes(40)),
            13 => Call::BrokenWrite(slot, key, random.bytes(40)),
            14..=17 => Call::Delete(slot, key),
            18 => Call::DeleteUnawaited(slot, key),
            19..=20 => Call::DeleteAll(slot),
            21..=23 => Call::Create(slot, one),
            24 => Call::CreateUnawaited(one),
            25..=27 => Call::DeleteCollection(one),
            28..=31 => Call::Copy(one, other),
            32..=38 if long => Call::Write(slot, key, random.bytes(10)),
            32..=36 => Call::Commit,
            37 => Call::Rollback,
            38 => Call::DropTransaction,
            _ => Call::Begin,
        };
    }
    match random.below(44) {
        0..=9 if !open => Call::Begin,
        10..=12 => Call::GetOrCreate(slot, one),
        13..=17 => Call::Get(slot, one),
        18..=23 => Call::Read(slot, key, random.below(50) as u64),
        24 => Call::Keep(slot, key),
        25..=27 => Call::Metadata(slot, key),
        28..=31 => Call::List(slot),
        32..=33 => Call::Len(slot),
        34 => Call::IsEmpty(slot),
        35..=37 => Call::FilePath(slot, key),
        38 => Call::DirPath(slot),
        39 | 41 | 42 if !open => {
            Call::Provision(random.pick(&COLLECTIONS[..4]).to_string(), random.pick(&PROVISIONED).to_string(), random.bytes(20))
        }
        40 if !long && random.one_in(3) => Call::Reopen,
        _ => Call::List(slot),
    }
}
