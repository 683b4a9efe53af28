//! `./try` at the repository's root, with a library that is made already.
mod common;

use common::{Folder, library};
use std::{fs, path::Path, process::Command};

/// What the script prints, called from the library's folder, with its own folder made in this one.
fn tried(temporary: &Folder) -> String {
    let library = library().canonicalize().unwrap();
    let mut script = Command::new(Path::new(env!("CARGO_MANIFEST_DIR")).join("../try"));
    script.current_dir(library.parent().unwrap()).env("CDA_LIB", library.file_name().unwrap());
    let output = script.env("TMPDIR", &temporary.0).output().unwrap();
    assert!(output.status.success(), "{output:?}");
    String::from_utf8(output.stdout).unwrap()
}

/// What is printed behind a command, up to the next command or heading.
fn answers<'a>(text: &'a str, command: &str) -> Vec<&'a str> {
    let parts = text.split("\n$ ").filter_map(|part| part.strip_prefix(command)?.strip_prefix('\n'));
    parts.map(|part| part.split("\n\n== ").next().unwrap()).collect()
}

#[test]
fn it_shows_an_update_its_cuts_and_a_recovery() {
    let temporary = Folder::new();
    let text = tried(&temporary);
    let only = |command: &str| answers(&text, command).concat();
    assert_eq!(only("cda-store put store db/faults faults.1"), "Committed in 9 steps.");
    assert!(only("cda-store cuts store put db/faults faults.2").contains("\n 5  move staged 2.tmp to db/faults     earlier\n"), "{text}");
    assert!(text.contains("\n11 cuts: 8 earlier, 3 later.\n"), "{text}");
    assert!(only("cda-store put store db/faults faults.2 --stop-after 5").starts_with("Stopped after step 5; "), "{text}");
    assert!(only("cda-store recover store").ends_with("\nRecovered in 3 steps."), "{text}");
    let interrupted = "An update was interrupted here; cda-store recover ends it.\nThe first backup is db/faults.bak.";
    let between = format!("db/\ndb/faults 22\ndb/faults.bak 15\n{interrupted}");
    assert_eq!(answers(&text, "cda-store list store"), ["db/\ndb/faults 15", &between, "db/\ndb/faults 15"]);
    assert_eq!(only("cat store/collections/db/faults"), "engine, brakes");
    assert!(text.contains("\n== Read on\nhost/README.md "), "{text}");
    assert_eq!(fs::read_dir(&temporary.0).unwrap().count(), 0, "its folder is removed");
}
