//! The C library's file calls, defined here so that the Rust library's calls come here (x86-64 Linux). Each is carried out by
//! its system call; those on the watched root are told to the watch.
//!
//! A call is a step, except:
//! - 0x21, sync staging: an fsync for each staging file, or none. The walk over the staging files is the step, where it ends.
//! - 0x27, copy file: a file is made, filled and closed. Closing it is the step.
//! - 0x29, remove directory and contents: an unlink for each file, then an rmdir, which is the step.
//! - An mkdir of what stands is no step.
use crate::trace::{EIO, Place, Watch, watched};
use plain::{log::Status, step::Step};
use std::ffi::{CStr, c_char, c_int, c_long, c_uint, c_void};

unsafe extern "C" {
    pub fn syscall(number: c_long, ...) -> c_long;
    fn __errno_location() -> *mut c_int;
}

pub const OPENAT: c_long = 257;
pub const CLOSE: c_long = 3;
const WRITE: c_long = 1;
const FSYNC: c_long = 74;
const MKDIRAT: c_long = 258;
const UNLINKAT: c_long = 263;
const RENAMEAT: c_long = 264;

pub const HERE: c_int = -100; // AT_FDCWD
const REMOVEDIR: c_int = 0x200; // AT_REMOVEDIR
const WRITES: c_int = 3; // O_WRONLY, O_RDWR
const CREATES: c_int = 0o100; // O_CREAT

pub fn path<'a>(p: *const c_char) -> &'a [u8] {
    unsafe { CStr::from_ptr(p) }.to_bytes()
}

/// Runs what the watch does meanwhile with the caller's error number kept.
pub fn keeping_errno(work: impl FnOnce() -> Option<()>) {
    let errno = unsafe { *__errno_location() };
    work();
    unsafe { *__errno_location() = errno };
}

fn fail(error: c_int) -> c_int {
    unsafe { *__errno_location() = error };
    -1
}

/// A call that is a step, if `step` says so. The watch may refuse it; it fails or it is done.
fn stepping(step: impl FnOnce(&Watch) -> Option<Step>, call: impl FnOnce() -> c_long) -> c_int {
    let asked = watched(|watch| match step(watch) {
        None => Ok(None),
        Some(step) => watch.may_go().and_then(|()| watch.within_limits(&step)).map(|()| Some(step)),
    });
    if let Some(Err(error)) = asked {
        return fail(error);
    }
    let result = call() as c_int;
    if let Some(Ok(Some(step))) = asked {
        keeping_errno(|| watched(|watch| if result == 0 { watch.done(step) } else { watch.failed(14) }));
    }
    result
}

fn unexpected(what: &str, place: &Place) -> ! {
    panic!("{what} of {place:?} is no step of document 01")
}

fn open_at(folder: c_int, p: *const c_char, flags: c_int, mode: c_uint) -> c_int {
    let asked = watched(|watch| {
        let place = watch.place(path(p));
        match &place {
            Place::Elsewhere => return Ok(None),
            Place::File(dir, _) if flags & WRITES == 0 => watch.source = dir.clone(),
            Place::File(dir, file) if flags & CREATES != 0 => {
                watch.may_go()?;
                watch.within_limits(&Step::CopyFile(watch.source.clone(), dir.clone(), file.clone()))?;
            }
            Place::Log => {}
            _ if flags & WRITES != 0 => unexpected("opening to write", &place),
            _ => {}
        }
        Ok(Some(place))
    });
    if let Some(Err(error)) = asked {
        return fail(error);
    }
    let fd = unsafe { syscall(OPENAT, folder, p, flags, mode) } as c_int;
    if fd >= 0
        && let Some(Ok(Some(place))) = asked
    {
        watched(|watch| watch.open.insert(fd, (place, flags & CREATES != 0)));
    }
    fd
}

#[unsafe(no_mangle)]
extern "C" fn open64(p: *const c_char, flags: c_int, mode: c_uint) -> c_int {
    open_at(HERE, p, flags, mode)
}

#[unsafe(no_mangle)]
extern "C" fn openat64(folder: c_int, p: *const c_char, flags: c_int, mode: c_uint) -> c_int {
    open_at(folder, p, flags, mode)
}

#[unsafe(no_mangle)]
extern "C" fn close(fd: c_int) -> c_int {
    let result = unsafe { syscall(CLOSE, fd) } as c_int;
    keeping_errno(|| {
        watched(|watch| {
            if let Some((Place::File(dir, file), true)) = watch.open.remove(&fd) {
                watch.done(Step::CopyFile(watch.source.clone(), dir, file));
            }
        })
    });
    result
}

#[unsafe(no_mangle)]
extern "C" fn write(fd: c_int, bytes: *const c_void, count: usize) -> isize {
    let asked = watched(|watch| match watch.open.get(&fd) {
        Some((Place::Log, _)) => watch.may_go().map(|()| true),
        _ => Ok(false),
    });
    if asked == Some(Err(EIO)) {
        return fail(EIO) as isize;
    }
    let result = unsafe { syscall(WRITE, fd, bytes, count) } as isize;
    if asked == Some(Ok(true)) {
        assert_eq!((result, count), (8, 8), "the header in one write");
        watched(|watch| watch.done(Step::RewriteHeader(Status::Committing)));
    }
    result
}

#[unsafe(no_mangle)]
extern "C" fn fsync(fd: c_int) -> c_int {
    let step = |watch: &Watch| match &watch.open.get(&fd)?.0 {
        Place::Log => Some(Step::SyncLog),
        Place::Journal => Some(Step::SyncJournal),
        Place::Collections => Some(Step::SyncCollections),
        Place::Dir(dir) => Some(Step::SyncDirectory(dir.clone())),
        Place::Staged(_) => None, // a part of 0x21
        other => unexpected("syncing", other),
    };
    stepping(step, || unsafe { syscall(FSYNC, fd) })
}

#[unsafe(no_mangle)]
extern "C" fn mkdir(p: *const c_char, mode: c_uint) -> c_int {
    let step = |watch: &Watch| match watch.place(path(p)) {
        Place::Elsewhere => None,
        Place::Dir(dir) => (!watch.stands(&dir)).then_some(Step::MakeDirectory(dir)),
        other => unexpected("making", &other),
    };
    stepping(step, || unsafe { syscall(MKDIRAT, HERE, p, mode) })
}

#[unsafe(no_mangle)]
extern "C" fn rename(from: *const c_char, to: *const c_char) -> c_int {
    let step = |watch: &Watch| match (watch.place(path(from)), watch.place(path(to))) {
        (Place::Elsewhere, Place::Elsewhere) => None,
        (Place::File(dir, from), Place::File(same, to)) if dir == same => Some(Step::RenameFile(dir, from, to)),
        (Place::Staged(staged), Place::File(dir, key)) => Some(Step::MoveStaged(staged, dir, key)),
        (Place::Dir(from), Place::Dir(to)) => Some(Step::RenameDirectory(from, to)),
        (other, _) => unexpected("renaming", &other),
    };
    stepping(step, || unsafe { syscall(RENAMEAT, HERE, from, HERE, to) })
}

fn unlink_at(folder: c_int, p: *const c_char, flags: c_int) -> c_int {
    if folder != HERE {
        // Inside remove_dir_all: a part of 0x29.
        if let Some(Err(error)) = watched(|watch| watch.may_go()) {
            return fail(error);
        }
        return unsafe { syscall(UNLINKAT, folder, p, flags) as c_int };
    }
    let step = |watch: &Watch| match (watch.place(path(p)), flags & REMOVEDIR != 0) {
        (Place::Elsewhere, _) => None,
        (Place::Log, false) => Some(Step::RemoveLog),
        (Place::Staged(staged), false) => Some(Step::RemoveStaging(staged)),
        (Place::File(dir, file), false) => Some(Step::RemoveFile(dir, file)),
        (Place::Dir(dir), true) => Some(Step::RemoveDirectory(dir)),
        (other, _) => unexpected("removing", &other),
    };
    stepping(step, || unsafe { syscall(UNLINKAT, folder, p, flags) })
}

#[unsafe(no_mangle)]
extern "C" fn unlink(p: *const c_char) -> c_int {
    unlink_at(HERE, p, 0)
}

#[unsafe(no_mangle)]
extern "C" fn rmdir(p: *const c_char) -> c_int {
    unlink_at(HERE, p, REMOVEDIR)
}

#[unsafe(no_mangle)]
extern "C" fn unlinkat(folder: c_int, p: *const c_char, flags: c_int) -> c_int {
    unlink_at(folder, p, flags)
}
