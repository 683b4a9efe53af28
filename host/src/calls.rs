//! The file calls of a store. All of them are made through [`Calls`], so that a test can put others in their place.
//!
//! A symbolic link is never followed at the path's last name: a listing tells that it is one, and opening it fails. The
//! directories before the last name are those that the scan has found to be no links. The standard library has no calls relative
//! to an open directory (but for [`fs::remove_dir_all`], which uses them), so whoever puts a link in a directory's place between
//! a scan and a call is not noticed.
use std::{
    ffi::OsString,
    fs::{self, File, OpenOptions, TryLockError},
    io::{self, ErrorKind, Read, Write},
    os::unix::fs::OpenOptionsExt,
    path::Path,
};

/// What an entry of a directory is.
#[derive(Clone, Copy, PartialEq, Eq, PartialOrd, Ord, Debug)]
pub enum Kind {
    /// A regular file.
    File,
    /// A directory.
    Directory,
    /// A symbolic link, wherever it leads, or a special file.
    Other,
}

/// How the root is locked.
#[derive(Clone, Copy, PartialEq, Eq, Debug)]
pub enum Lock {
    /// Beside other shared ones.
    Shared,
    /// Alone.
    Exclusive,
}

/// The file calls.
#[allow(missing_docs)]
pub trait Calls: Send + Sync {
    /// Locks a directory until the file is closed. `WouldBlock` where another has it.
    fn lock(&self, directory: &Path, lock: Lock) -> io::Result<Option<File>>;
    fn list(&self, directory: &Path) -> io::Result<Vec<(OsString, Kind)>>;
    /// Reads a file, but for what is behind so many bytes.
    fn read(&self, file: &Path, most: u64) -> io::Result<Vec<u8>>;
    /// Makes or empties a file and writes these bytes.
    fn write(&self, file: &Path, bytes: &[u8]) -> io::Result<()>;
    /// Writes behind what a file has.
    fn append(&self, file: &Path, bytes: &[u8]) -> io::Result<()>;
    /// Writes in place of a file's first bytes, in one call.
    fn overwrite(&self, file: &Path, bytes: &[u8]) -> io::Result<()>;
    /// Makes an empty file, which must not stand.
    fn make_file(&self, file: &Path) -> io::Result<()>;
    /// Writes this content behind what a file has.
    fn fill(&self, file: &Path, content: &mut dyn Read) -> io::Result<()>;
    /// Makes or empties a file and fills it with another's content, as the other is permitted.
    fn copy(&self, from: &Path, to: &Path) -> io::Result<()>;
    /// Syncs a file or a directory.
    fn sync(&self, path: &Path) -> io::Result<()>;
    fn make_directory(&self, path: &Path) -> io::Result<()>;
    fn rename(&self, from: &Path, to: &Path) -> io::Result<()>;
    fn remove_file(&self, path: &Path) -> io::Result<()>;
    /// Removes a directory and what it holds.
    fn remove_directory(&self, path: &Path) -> io::Result<()>;
}

/// The calls of the operating system.
#[derive(Clone, Copy, Debug)]
pub struct System;

/// `O_NOFOLLOW` of Linux on x86-64, for which the port's library is made.
const NO_FOLLOW: i32 = 0o400_000;

/// Options to open what is no symbolic link.
fn options() -> OpenOptions {
    let mut options = OpenOptions::new();
    options.custom_flags(NO_FOLLOW);
    options
}

/// Opens a file or a directory to be read.
pub fn open(path: &Path) -> io::Result<File> {
    options().read(true).open(path)
}

impl Calls for System {
    fn lock(&self, directory: &Path, lock: Lock) -> io::Result<Option<File>> {
        let file = File::open(directory)?;
        let locked = match lock {
            Lock::Shared => file.try_lock_shared(),
            Lock::Exclusive => file.try_lock(),
        };
        match locked {
            Ok(()) => Ok(Some(file)),
            Err(TryLockError::WouldBlock) => Err(ErrorKind::WouldBlock.into()),
            Err(TryLockError::Error(error)) => Err(error),
        }
    }

    fn list(&self, directory: &Path) -> io::Result<Vec<(OsString, Kind)>> {
        let entry = |listed: fs::DirEntry| {
            let kind = listed.file_type()?;
            let kind = match (kind.is_file(), kind.is_dir()) {
                (true, _) => Kind::File,
                (_, true) => Kind::Directory,
                _ => Kind::Other,
            };
            Ok((listed.file_name(), kind))
        };
        fs::read_dir(directory)?.map(|listed| listed.and_then(entry)).collect()
    }

    fn read(&self, file: &Path, most: u64) -> io::Result<Vec<u8>> {
        let mut bytes = Vec::new();
        open(file)?.take(most).read_to_end(&mut bytes)?;
        Ok(bytes)
    }

    fn write(&self, file: &Path, bytes: &[u8]) -> io::Result<()> {
        options().write(true).create(true).truncate(true).open(file)?.write_all(bytes)
    }

    fn append(&self, file: &Path, bytes: &[u8]) -> io::Result<()> {
        options().append(true).open(file)?.write_all(bytes)
    }

    fn overwrite(&self, file: &Path, bytes: &[u8]) -> io::Result<()> {
        options().write(true).open(file)?.write_all(bytes)
    }

    fn make_file(&self, file: &Path) -> io::Result<()> {
        options().write(true).create_new(true).open(file).map(|_| ())
    }

    fn fill(&self, file: &Path, content: &mut dyn Read) -> io::Result<()> {
        io::copy(content, &mut options().append(true).open(file)?).map(|_| ())
    }

    fn copy(&self, from: &Path, to: &Path) -> io::Result<()> {
        let (mut from, mut to) = (open(from)?, options().write(true).create(true).truncate(true).open(to)?);
        to.set_permissions(from.metadata()?.permissions())?;
        io::copy(&mut from, &mut to).map(|_| ())
    }

    fn sync(&self, path: &Path) -> io::Result<()> {
        open(path)?.sync_all()
    }

    fn make_directory(&self, path: &Path) -> io::Result<()> {
        fs::create_dir(path)
    }

    fn rename(&self, from: &Path, to: &Path) -> io::Result<()> {
        fs::rename(from, to)
    }

    fn remove_file(&self, path: &Path) -> io::Result<()> {
        fs::remove_file(path)
    }

    fn remove_directory(&self, path: &Path) -> io::Result<()> {
        fs::remove_dir_all(path)
    }
}
