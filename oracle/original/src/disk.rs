//! A store on disk, as the original lays it out. A file's content is its number, in four bytes.
use plain::{Image, image::Files};
use std::{
    ffi::OsStr,
    fs,
    os::unix::ffi::{OsStrExt, OsStringExt},
    path::{Path, PathBuf},
};

/// Where the parts of a store stand.
#[derive(Clone, Debug)]
pub struct Root(pub PathBuf);

impl Root {
    pub fn collections(&self) -> PathBuf {
        self.0.join("collections")
    }
    pub fn dir(&self, name: &[u8]) -> PathBuf {
        self.collections().join(OsStr::from_bytes(name))
    }
    pub fn journal(&self) -> PathBuf {
        self.0.join("journal")
    }
    pub fn log(&self) -> PathBuf {
        self.journal().join("transaction.wal")
    }
    pub fn staging(&self) -> PathBuf {
        self.journal().join("staging")
    }
    pub fn staged(&self, name: &[u8]) -> PathBuf {
        self.staging().join(OsStr::from_bytes(name))
    }

    /// An empty root.
    pub fn clear(&self) {
        let _ = fs::remove_dir_all(&self.0);
        fs::create_dir(&self.0).unwrap();
    }

    /// Puts an image where nothing stands but, at most, what begin leaves of an empty store.
    pub fn put(&self, image: &Image) {
        fs::create_dir_all(self.collections()).unwrap();
        fs::create_dir_all(self.staging()).unwrap();
        for (dir, files) in &image.dirs {
            fs::create_dir(self.dir(dir)).unwrap();
            put_files(&self.dir(dir), files);
        }
        put_files(&self.staging(), &image.staging);
        match &image.log {
            Some(log) => fs::write(self.log(), log).unwrap(),
            None => drop(fs::remove_file(self.log())),
        }
    }

    /// Reads the store back. The open mark has no file.
    pub fn get(&self) -> Image {
        let dirs = fs::read_dir(self.collections()).map(|entries| {
            let dirs = entries.map(|e| e.unwrap());
            dirs.map(|e| (e.file_name().into_vec(), files(&e.path()).unwrap())).collect()
        });
        Image {
            dirs: dirs.unwrap_or_default(),
            staging: files(&self.staging()).unwrap_or_default(),
            log: fs::read(self.log()).ok(),
            open: false,
        }
    }
}

fn put_files(folder: &Path, files: &Files) {
    for (file, number) in files {
        fs::write(folder.join(OsStr::from_bytes(file)), number.to_le_bytes()).unwrap();
    }
}

/// The files of a folder, if it stands.
pub fn files(folder: &Path) -> Option<Files> {
    let read = |e: fs::DirEntry| {
        let content = fs::read(e.path()).unwrap();
        (e.file_name().into_vec(), u32::from_le_bytes(content.try_into().expect("four bytes")))
    };
    Some(fs::read_dir(folder).ok()?.map(|e| read(e.unwrap())).collect())
}
