//! Runs the commands of README.md, in order, on a fresh clone, and compares what they print.
mod common;

use common::{Folder, library};
use std::{collections::BTreeSet, env, ffi::OsString, fs, path::Path, process::Command};

const HOST: &str = env!("CARGO_MANIFEST_DIR");

/// A command of the page and what the page shows behind it.
struct Shown {
    command: String,
    output: String,
}

fn page() -> String {
    fs::read_to_string(Path::new(HOST).join("README.md")).unwrap()
}

/// The blocks between the page's fences of this kind.
fn blocks(kind: &str) -> Vec<String> {
    let fence = format!("```{kind}\n");
    page().split(&fence).skip(1).map(|block| block.split("```").next().unwrap().to_string()).collect()
}

fn shown() -> Vec<Shown> {
    let mut all: Vec<Shown> = Vec::new();
    for line in blocks("console").concat().lines() {
        match (line.strip_prefix("$ "), all.last_mut()) {
            (Some(command), _) => all.push(Shown { command: command.to_string(), output: String::new() }),
            (None, Some(shown)) => shown.output += &format!("{line}\n"),
            (None, None) => panic!("a block begins with a command: {line}"),
        }
    }
    all
}

/// From here on the page works in a folder of its own.
const LEAVE: &str = "cd \"$(mktemp -d)\"";

/// What the test does itself: one folder is the clone, another the page's own, and `run` has the shell's settings.
fn is_given(command: &str) -> bool {
    let built = command.starts_with("tools/staticlib ") && library().exists();
    built || ["git clone ", "cd ", "export "].iter().any(|start| command.starts_with(start))
}

/// Copies this crate, as a clone would have it.
fn clone(from: &Path, to: &Path) {
    fs::create_dir_all(to).unwrap();
    for entry in fs::read_dir(from).unwrap().map(|entry| entry.unwrap()).filter(|entry| entry.file_name() != "target") {
        let (from, to) = (entry.path(), to.join(entry.file_name()));
        match from.is_dir() {
            true => clone(&from, &to),
            false => assert!(fs::copy(from, to).is_ok()),
        }
    }
}

/// What a command prints in the folder.
fn run(command: &str, folder: &Path, clone: &Path) -> String {
    let path = format!("{}:{}", clone.join("target/release").display(), env::var("PATH").unwrap());
    let mut shell = Command::new("sh");
    shell.args(["-c", &format!("exec 2>&1; {command}")]).current_dir(folder).env_remove("CARGO_TARGET_DIR");
    shell.env("PATH", path).env("CDA_HOST", clone).env("CDA_LIB", library().canonicalize().unwrap());
    String::from_utf8(shell.output().unwrap().stdout).unwrap()
}

fn names(folder: &Path) -> BTreeSet<OsString> {
    fs::read_dir(folder).unwrap().map(|entry| entry.unwrap().file_name()).filter(|name| name != "target").collect()
}

#[test]
fn every_command_prints_what_the_page_shows() {
    let (fresh, own) = (Folder::new(), Folder::new());
    clone(Path::new(HOST), &fresh.0);
    let (all, before) = (shown(), names(&fresh.0));
    let leave = all.iter().position(|shown| shown.command == LEAVE).expect("the page leaves the clone");
    assert!(all.len() > 25, "the page has its commands");
    for (i, Shown { command, output }) in all.iter().enumerate().filter(|(_, shown)| !is_given(&shown.command)) {
        let folder = if i < leave { &fresh.0 } else { &own.0 };
        assert_eq!(run(command, folder, &fresh.0), *output, "$ {command}");
    }
    assert_eq!(names(&fresh.0), before, "nothing is left in the clone");
    let picture = |folder: &Path| fs::read_to_string(folder.join("cuts.svg")).unwrap();
    assert_eq!(picture(&own.0), picture(Path::new(HOST)), "the page's picture is what its command draws");
}

#[test]
fn the_page_quotes_the_example() {
    let example = fs::read_to_string(Path::new(HOST).join("examples/update.rs")).unwrap();
    let lines = |text: &str| text.lines().map(|line| line.trim().to_string()).collect::<Vec<_>>().join("\n");
    for block in blocks("rust") {
        assert!(lines(&example).contains(&lines(&block)), "{block}");
    }
}
