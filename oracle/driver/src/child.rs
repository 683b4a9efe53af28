//! Work in a process of its own, which is ended inside it.
use std::ffi::c_int;

unsafe extern "C" {
    fn fork() -> c_int;
    fn waitpid(child: c_int, status: *mut c_int, options: c_int) -> c_int;
    fn _exit(code: c_int) -> !;
}

/// Runs the work in a child and hands back its status: 0 if the work ended it. What the work owns is not dropped here.
pub fn run(work: impl FnOnce()) -> c_int {
    let child = unsafe { fork() };
    if child == 0 {
        work();
        unsafe { _exit(3) }
    }
    std::mem::forget(work);
    let mut status = 0;
    assert!(child > 0 && unsafe { waitpid(child, &mut status, 0) } == child, "a process of its own");
    status
}

/// Ends the child, as a cut does.
#[cfg(feature = "host")]
pub fn end() -> ! {
    unsafe { _exit(0) }
}
