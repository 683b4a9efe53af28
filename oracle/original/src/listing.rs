//! Directory listings, collected when they are opened and handed out in ascending byte order, where the original leaves the
//! order open.
use crate::calls::{CLOSE, HERE, OPENAT, keeping_errno, path, syscall};
use crate::trace::{Place, watched};
use plain::step::Step;
use std::ffi::{CStr, c_char, c_int, c_long, c_void};

const GETDENTS64: c_long = 217;
const DIRECTORY: c_int = 0o200000 | 0o2000000; // O_DIRECTORY, O_CLOEXEC

/// The kernel's records have the layout of the C library's `struct dirent64`: the length at 16, the name at 19.
struct Listing {
    fd: c_int,
    staging: bool,
    records: Vec<u64>,
    /// Where each record begins, by name.
    order: Vec<usize>,
    next: usize,
}

impl Listing {
    fn collect(fd: c_int, staging: bool) -> *mut c_void {
        let mut records: Vec<u64> = vec![0; 1024];
        let mut used = 0;
        loop {
            let room = records.len() * 8 - used;
            let got = unsafe { syscall(GETDENTS64, fd, records.as_mut_ptr().byte_add(used), room) };
            used += usize::try_from(got).unwrap_or(0);
            if got <= 0 && room >= 512 {
                break;
            }
            records.resize(records.len() * 2, 0);
        }
        let base = records.as_ptr().cast::<u8>();
        let mut order = Vec::new();
        let mut at = 0;
        while at < used {
            order.push(at);
            at += usize::from(unsafe { base.add(at + 16).cast::<u16>().read_unaligned() });
        }
        order.sort_by_key(|at| unsafe { CStr::from_ptr(base.add(at + 19).cast()) });
        Box::into_raw(Box::new(Listing { fd, staging, records, order, next: 0 })).cast()
    }
}

#[unsafe(no_mangle)]
extern "C" fn opendir(p: *const c_char) -> *mut c_void {
    let fd = unsafe { syscall(OPENAT, HERE, p, DIRECTORY, 0) } as c_int;
    if fd >= 0 {
        return Listing::collect(fd, watched(|watch| watch.place(path(p)) == Place::Staging) == Some(true));
    }
    // In a commit only a copy lists what may be missing: its source.
    keeping_errno(|| {
        watched(|watch| {
            if matches!(watch.place(path(p)), Place::Dir(_)) {
                watch.failed(14);
            }
        })
    });
    std::ptr::null_mut()
}

#[unsafe(no_mangle)]
extern "C" fn fdopendir(fd: c_int) -> *mut c_void {
    watched(|watch| watch.open.remove(&fd));
    Listing::collect(fd, false)
}

#[unsafe(no_mangle)]
extern "C" fn readdir64(listing: *mut c_void) -> *mut c_void {
    let listing = unsafe { &mut *listing.cast::<Listing>() };
    let Some(at) = listing.order.get(listing.next) else { return std::ptr::null_mut() };
    listing.next += 1;
    unsafe { listing.records.as_mut_ptr().byte_add(*at).cast() }
}

#[unsafe(no_mangle)]
extern "C" fn dirfd(listing: *mut c_void) -> c_int {
    unsafe { &*listing.cast::<Listing>() }.fd
}

#[unsafe(no_mangle)]
extern "C" fn closedir(listing: *mut c_void) -> c_int {
    let listing = unsafe { Box::from_raw(listing.cast::<Listing>()) };
    let result = unsafe { syscall(CLOSE, listing.fd) } as c_int;
    // A commit's first walk over the staging files syncs them: 0x21. The last one removes them.
    keeping_errno(|| {
        watched(|watch| {
            if listing.staging && watch.is_commit() && !watch.staging_synced && watch.may_go().is_ok() {
                watch.staging_synced = true;
                watch.done(Step::SyncStaging);
            }
        })
    });
    result
}
