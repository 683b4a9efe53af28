//! Times every entry of the port, of the plain reading and of the original on tmpfs, on the same images. Prints a section of
//! docs/PERFORMANCE.md and writes a picture.
mod cases;
mod clock;
mod picture;
mod section;

use cases::{FULL, Size, TEN_STEP, TYPICAL, growing};
use clock::{Growth, Times};
use original::Original;
use std::io::IsTerminal;
use std::process::exit;
use store::Store;

/// A table: the cases of one size, timed.
pub struct Table {
    pub size: Size,
    pub rows: Vec<(&'static str, Times)>,
}

fn fail(why: &str) -> ! {
    eprintln!("timing: {why}");
    exit(1)
}

/// Whether the folder is a mounted tmpfs.
fn is_tmpfs(folder: &str) -> bool {
    let mounts = std::fs::read_to_string("/proc/self/mounts").unwrap_or_default();
    mounts.lines().any(|line| line.split(' ').skip(1).take(2).eq([folder, "tmpfs"]))
}

/// A line that the next one replaces.
fn progress(what: &str) {
    if std::io::stderr().is_terminal() {
        eprint!("{what}\x1b[K\r");
    }
}

fn timed(port: &dyn Store, original: &Original, size: Size) -> Table {
    let rows = size.cases().into_iter().map(|case| {
        progress(&format!("{}: {}", size.title, case.what));
        (case.what, clock::time(port, original, &case))
    });
    Table { rows: rows.collect(), size }
}

fn main() {
    let Some(picture) = std::env::args().nth(1) else { fail("usage: timing PICTURE.svg") };
    if !is_tmpfs("/dev/shm") {
        fail("/dev/shm is no tmpfs, where the original would be timed");
    }
    let Some(port) = port::port() else { fail("the port's static library is not linked; CDA_LIB names it") };
    let original = Original::new();
    let tables = [TEN_STEP, TYPICAL, FULL].map(|size| timed(&*port, &original, size));
    progress("stepping");
    let growth: Vec<Growth> = growing().iter().map(|image| clock::stepping(&*port, image)).collect();
    if let Err(error) = std::fs::write(&picture, picture::svg(&tables, &growth)) {
        fail(&format!("{picture}: {error}"));
    }
    progress("");
    print!("{}", section::markdown(&tables, &growth));
}
