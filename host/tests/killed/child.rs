//! This program as a child that is killed (SIGKILL): where it stands still, or a while after it has begun its work.
use cda_store::{Event, FileStore, Plan};
use std::{
    env,
    io::{BufRead, BufReader, Read, Write, stdin, stdout},
    os::unix::process::ExitStatusExt,
    path::Path,
    process::{Child, Command, Stdio},
    sync::RwLock,
    thread,
    time::{Duration, Instant},
};

/// What a child says where it stands still, or where its work begins.
const HERE: &str = "here";

/// A child that is being started holds this process's files, the lock of an open store among them, until it runs its program.
static STARTS: RwLock<()> = RwLock::new(());

/// Runs a child with these words and kills it so long after it says that it is here: what it said before.
pub fn killed(words: &[String], wait: Duration) -> Vec<String> {
    let (child, mut lines) = start(words);
    let said = lines.by_ref().take_while(|line| line != HERE).collect();
    thread::sleep(wait);
    kill(child);
    said
}

/// Runs a child with these words and kills it at any moment: what it said. It says that it is here, does its work once, which is
/// timed, and says so; then it goes on for so many times that time.
pub fn killed_meanwhile(words: &[String], times: f64) -> Vec<String> {
    let (child, mut lines) = start(words);
    assert_eq!(lines.next().as_deref(), Some(HERE));
    let started = Instant::now();
    let first = lines.next();
    thread::sleep(started.elapsed().mul_f64(times));
    kill(child);
    first.into_iter().chain(lines).collect()
}

fn start(words: &[String]) -> (Child, impl Iterator<Item = String>) {
    let mut command = Command::new(env::current_exe().unwrap());
    command.args(words).stdin(Stdio::piped()).stdout(Stdio::piped());
    let _alone = STARTS.write().unwrap();
    let mut child = command.spawn().unwrap();
    let lines = BufReader::new(child.stdout.take().unwrap()).lines().map(Result::unwrap);
    (child, lines)
}

fn kill(mut child: Child) {
    child.kill().unwrap();
    assert_eq!(child.wait().unwrap().signal(), Some(9));
}

/// Opens the store, which recovers it, and closes it.
pub fn recover(root: &Path) {
    let _no_start = STARTS.read().unwrap();
    FileStore::open(root).unwrap();
}

/// The child's observer: it stands still behind step n of this plan.
pub fn stand_still_at(plan: Plan, n: u64) -> impl FnMut(&Event) {
    move |event| {
        if event.plan == plan && event.number - u64::from(!event.done) == n {
            here();
            stand_still();
        }
    }
}

/// Waits to be killed, or ends with the parent, which holds the other end of the standard input.
pub fn stand_still() -> ! {
    let _ = stdin().read_to_end(&mut Vec::new());
    std::process::exit(1)
}

pub fn here() {
    say(HERE);
}

pub fn say(line: &str) {
    println!("{line}");
    stdout().flush().unwrap();
}
