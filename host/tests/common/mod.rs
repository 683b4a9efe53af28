//! What the tests share: folders of their own, stores read back by the files' contents, and a seeded generator.
#![allow(dead_code)]
pub mod loss;
pub mod memory;
pub mod suited;

use cda_store::{Contents, Image};
use std::{
    collections::BTreeMap,
    env, fs,
    path::{Path, PathBuf},
    sync::atomic::{AtomicU32, Ordering},
};

/// The log entry of a Write of `s` to `db/a` as older versions recorded it, kind 1: checksum, length, and the fields 1, 2, 3, 4.
pub const OLD_WRITE: &[u8] = b"\xa9\xe3\xd6\x90\x11\0\0\0\x01\x01\0\x01\x02\x02\0db\x03\x01\0a\x04\x01\0s";

/// The header of a log that is recorded, and of one that is committed.
pub const RECORDING: &[u8] = b"\xca\0\0\0\x3b\x2d\xcc\x70";
pub const COMMITTING: &[u8] = b"\xca\x01\0\0\xad\x1d\xcb\x07";

/// db/a=7 and a Write of 9 to a, staged as s.tmp: document 01's ten-step case.
pub fn ten_steps() -> Image {
    let directories = [("db".to_string(), [("a".to_string(), 7)].into())].into();
    let rest = Contents { directories, ..Contents::default() }.image().unwrap();
    rest.begin().and_then(|image| image.write("db", "a", "s.tmp", 9)).unwrap()
}

pub fn crc32(bytes: &[u8]) -> u32 {
    !bytes.iter().fold(!0, |crc, byte| {
        (0..8).fold(crc ^ u32::from(*byte), |crc: u32, _| if crc & 1 == 1 { crc >> 1 ^ 0xEDB8_8320 } else { crc >> 1 })
    })
}

/// Collections, keys, contents.
pub type Tree = BTreeMap<String, BTreeMap<String, Vec<u8>>>;

/// A folder that is removed when it is dropped.
pub struct Folder(pub PathBuf);

impl Folder {
    pub fn new() -> Folder {
        static NEXT: AtomicU32 = AtomicU32::new(0);
        let name = format!("store-{}-{}", std::process::id(), NEXT.fetch_add(1, Ordering::Relaxed));
        let path = Path::new(env!("CARGO_TARGET_TMPDIR")).join(name);
        let _ = fs::remove_dir_all(&path);
        fs::create_dir(&path).unwrap();
        Folder(path)
    }

    /// A store with these files, as `db/a=text`; `db/` is an empty collection.
    pub fn with(files: &[&str]) -> Folder {
        let folder = Folder::new();
        for file in files {
            let (path, text) = file.split_once('=').unwrap_or((file, ""));
            let path = folder.0.join("collections").join(path);
            fs::create_dir_all(if file.ends_with('/') { &path } else { path.parent().unwrap() }).unwrap();
            if !file.ends_with('/') {
                fs::write(path, text).unwrap();
            }
        }
        folder
    }

    /// The collections, as `db/` and `db/a=text`.
    pub fn files(&self) -> Vec<String> {
        let mut lines = Vec::new();
        for (directory, files) in tree(&self.0) {
            lines.push(format!("{directory}/"));
            lines.extend(files.iter().map(|(file, text)| format!("{directory}/{file}={}", String::from_utf8_lossy(text))));
        }
        lines
    }

    /// Every path below the folder, with a file's content.
    pub fn everything(&self) -> BTreeMap<PathBuf, Option<Vec<u8>>> {
        let mut all = BTreeMap::new();
        walk(&self.0, &mut all);
        all
    }
}

impl Drop for Folder {
    fn drop(&mut self) {
        let _ = fs::remove_dir_all(&self.0);
    }
}

fn walk(folder: &Path, all: &mut BTreeMap<PathBuf, Option<Vec<u8>>>) {
    for entry in fs::read_dir(folder).unwrap() {
        let path = entry.unwrap().path();
        if path.is_dir() && !path.is_symlink() {
            walk(&path, all);
        }
        let content = fs::read(&path).ok();
        all.insert(path, content);
    }
}

/// The collections of a store on disk.
pub fn tree(root: &Path) -> Tree {
    let Ok(entries) = fs::read_dir(root.join("collections")) else { return Tree::new() };
    entries.map(|entry| entry.unwrap()).map(|entry| (name(&entry), contents(&entry.path()))).collect()
}

/// The files of a folder; none where it is missing.
pub fn contents(folder: &Path) -> BTreeMap<String, Vec<u8>> {
    let Ok(entries) = fs::read_dir(folder) else { return BTreeMap::new() };
    entries.map(|entry| entry.unwrap()).map(|entry| (name(&entry), fs::read(entry.path()).unwrap())).collect()
}

fn name(entry: &fs::DirEntry) -> String {
    entry.file_name().into_string().unwrap()
}

/// The static library: what CDA_LIB names, where a relative path counts from where cargo was called.
pub fn library() -> PathBuf {
    let beside = Path::new(env!("CARGO_MANIFEST_DIR")).join("../target/staticlib/libcda_storage.a");
    env::var_os("CDA_LIB").map_or(beside, |named| PathBuf::from(env::var_os("PWD").unwrap_or_default()).join(named))
}

/// splitmix64
pub struct Random(u64);

impl Random {
    pub fn new(seed: u64, case: u64) -> Random {
        let mut random = Random(seed);
        random.0 = random.next() ^ case.wrapping_mul(0x9E37_79B9_7F4A_7C15);
        random
    }
    pub fn next(&mut self) -> u64 {
        self.0 = self.0.wrapping_add(0x9E37_79B9_7F4A_7C15);
        let z = (self.0 ^ (self.0 >> 30)).wrapping_mul(0xBF58_476D_1CE4_E5B9);
        let z = (z ^ (z >> 27)).wrapping_mul(0x94D0_49BB_1331_11EB);
        z ^ (z >> 31)
    }
    pub fn below(&mut self, n: u64) -> u64 {
        self.next() % n
    }
    pub fn pick<T: Copy>(&mut self, from: &[T]) -> T {
        from[self.below(from.len() as u64) as usize]
    }
    pub fn bytes(&mut self, most: u64) -> Vec<u8> {
        (0..self.below(most + 1)).map(|_| self.next() as u8).collect()
    }
}
