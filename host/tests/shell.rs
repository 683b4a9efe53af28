//! The command `cda-store` and what a shell hands it: words, paths that are no UTF-8, outputs that are closed.
mod common;

use common::Folder;
use std::{
    env,
    ffi::OsStr,
    fs,
    io::pipe,
    os::unix::ffi::OsStrExt,
    path::Path,
    process::{Command, Output, Stdio},
};

const PROGRAM: &str = env!("CARGO_BIN_EXE_cda-store");

/// A folder with a store that has db/a, and the files old and new.
fn place() -> Folder {
    let folder = Folder::new();
    fs::create_dir(folder.0.join("store")).unwrap();
    fs::write(folder.0.join("old"), "old").unwrap();
    fs::write(folder.0.join("new"), "newer").unwrap();
    done(&folder, "cda-store put store db/a old");
    folder
}

/// Runs a line of the shell in the folder.
fn shell(folder: &Folder, line: &str) -> Output {
    let path = format!("{}:{}", Path::new(PROGRAM).parent().unwrap().display(), env::var("PATH").unwrap());
    Command::new("sh").args(["-c", line]).current_dir(&folder.0).env("PATH", path).output().unwrap()
}

/// The line's status and what it says on standard error.
fn ends(folder: &Folder, line: &str) -> (i32, String) {
    let output = shell(folder, line);
    (output.status.code().unwrap(), String::from_utf8(output.stderr).unwrap())
}

/// What the line prints.
fn done(folder: &Folder, line: &str) -> String {
    let output = shell(folder, line);
    assert!(output.status.success(), "{line}: {output:?}");
    String::from_utf8(output.stdout).unwrap()
}

#[test]
fn standard_output_that_is_full() {
    let folder = place();
    for line in ["cda-store list store", "cda-store cuts store put db/a new", "cda-store --help"] {
        let (status, said) = ends(&folder, &format!("{line} >/dev/full"));
        assert!(status == 2 && said.starts_with("cda-store: standard output: "), "{line}: {status} {said}");
    }
    assert_eq!(ends(&folder, "cda-store put store db/a new --stop-after 5 >/dev/full"), (3, String::new()));
    for line in ["cda-store recover store", "cda-store put store db/b new"] {
        let (status, said) = ends(&folder, &format!("{line} >/dev/full"));
        assert!(status == 0 && said.starts_with("cda-store: done; standard output: "), "{line}: {status} {said}");
    }
    assert_eq!(done(&folder, "cda-store list store"), "db/\ndb/a 3\ndb/b 5\n");
}

#[test]
fn standard_error_that_is_full() {
    let folder = place();
    assert_eq!(ends(&folder, "cda-store drop store missing 2>/dev/full").0, 1);
    assert_eq!(ends(&folder, "cda-store list nowhere 2>/dev/full").0, 2);
    assert_eq!(ends(&folder, "cda-store frob 2>/dev/full").0, 64);
    assert_eq!(ends(&folder, "cda-store list store >/dev/full 2>/dev/full").0, 2);
    assert_eq!(ends(&folder, "cda-store put store db/b new >/dev/full 2>/dev/full").0, 0);
}

#[test]
fn outputs_that_are_closed() {
    let folder = place();
    assert_eq!(ends(&folder, "cda-store list store >&-").0, 0);
    assert_eq!(ends(&folder, "cda-store drop store missing 2>&-").0, 1);
    assert_eq!(ends(&folder, "cda-store put store db/a new --stop-after 5 <&- >&- 2>&-").0, 3);
    assert_eq!(ends(&folder, "cda-store put store db/b new <&- >&- 2>&-").0, 0);
    assert_eq!(done(&folder, "cat store/collections/db/a store/collections/db/b"), "oldnewer", "nothing was written into a store's file");
}

/// The status where the readers of standard output and standard error have gone.
fn unheard(folder: &Folder, line: &str) -> i32 {
    let gone = || Stdio::from(pipe().unwrap().1);
    let mut command = Command::new(PROGRAM);
    command.args(line.split(' ')).current_dir(&folder.0).stdout(gone()).stderr(gone());
    command.status().unwrap().code().unwrap()
}

#[test]
fn readers_that_have_gone() {
    let folder = place();
    assert_eq!(unheard(&folder, "list store"), 0);
    assert_eq!(unheard(&folder, "drop store missing"), 1);
    assert_eq!(unheard(&folder, "list nowhere"), 2);
    assert_eq!(unheard(&folder, "put store db/a new --stop-after 5"), 3);
    assert_eq!(unheard(&folder, "put store db/b new"), 0);
    assert_eq!(unheard(&folder, "frob"), 64);
    assert_eq!(done(&folder, "cda-store list store"), "db/\ndb/a 3\ndb/b 5\n");
}

#[test]
fn the_right_path_is_blamed() {
    let folder = place();
    fs::create_dir(folder.0.join("folder")).unwrap();
    let (status, said) = ends(&folder, "cda-store put store db/a folder");
    assert!(status == 2 && said.starts_with("cda-store: folder: "), "{said}");
    for line in ["list old", "recover old", "put old db/a new"] {
        let (status, said) = ends(&folder, &format!("cda-store {line}"));
        assert!(status == 2 && said.starts_with("cda-store: old: ") && said.contains("ot a directory"), "{line}: {said}");
    }
    for line in ["list nowhere", "recover nowhere", "put nowhere db/a new"] {
        let (status, said) = ends(&folder, &format!("cda-store {line}"));
        assert!(status == 2 && said.starts_with("cda-store: nowhere: "), "{line}: {said}");
    }
    assert_eq!(done(&folder, "cda-store list store"), "db/\ndb/a 3\n");
}

#[test]
fn the_version() {
    let folder = Folder::new();
    assert_eq!(done(&folder, "cda-store --version"), format!("cda-store {}\n", env!("CARGO_PKG_VERSION")));
    assert_eq!(done(&folder, "cda-store -V"), done(&folder, "cda-store --version"));
}

#[test]
fn words_that_are_no_options() {
    let folder = place();
    for line in ["create store --frob", "list store --frob", "cuts store put -x new", "put store db/a -new"] {
        let (status, said) = ends(&folder, &format!("cda-store {line}"));
        assert!(status == 64 && said.contains("; -- goes before a word that begins with -"), "{line}: {said}");
    }
    done(&folder, "cda-store create store -- --frob -- --stop-after");
    assert_eq!(done(&folder, "cda-store list -- store"), "--/\n--frob/\n--stop-after/\ndb/\ndb/a 3\n");
    done(&folder, "mv store ./--help; mv new ./--svg");
    done(&folder, "cda-store put -- --help --frob/k --svg");
    done(&folder, "cda-store cuts --svg ./-V -- --help put db/k --svg");
    assert_eq!(
        done(&folder, "cda-store -- list --help; LC_ALL=C ls"),
        "--/\n--frob/\n--frob/k 5\n--stop-after/\ndb/\ndb/a 3\n--help\n--svg\n-V\nold\n"
    );
    assert_eq!(ends(&folder, "cda-store --").0, 64);
}

#[test]
fn paths_that_are_no_text() {
    let (folder, name) = (place(), OsStr::from_bytes(b"s\xff"));
    let run = |words: &[&OsStr]| {
        let output = Command::new(PROGRAM).args(words).current_dir(&folder.0).output().unwrap();
        (output.status.code().unwrap(), String::from_utf8(output.stderr).unwrap())
    };
    let [put, apply, cuts, svg, list, create, key, new] =
        ["put", "apply", "cuts", "--svg", "list", "create", "db/k", "new"].map(OsStr::new);
    let nothing = (0, String::new());
    fs::rename(folder.0.join("store"), folder.0.join(name)).unwrap();
    assert_eq!(run(&[put, name, key, new]), nothing);
    assert_eq!(run(&[list, name]), nothing);
    let file = OsStr::from_bytes(b"n\xff");
    fs::rename(folder.0.join("new"), folder.0.join(file)).unwrap();
    assert_eq!(run(&[put, name, key, file]), nothing);
    let (script, picture) = (OsStr::from_bytes(b"\xfe"), OsStr::from_bytes(b"\xfd"));
    fs::write(folder.0.join(script), b"put db/l n\xff # n\xff\ncreate e\n").unwrap();
    assert_eq!(run(&[apply, name, script]), nothing);
    assert_eq!(run(&[cuts, name, put, key, file, svg, picture]), nothing);
    assert!(folder.0.join(picture).exists() && folder.0.join(name).join("collections/db/l").exists());
    for words in [&[create, name, name][..], &[put, name, OsStr::from_bytes(b"db/\xff"), file]] {
        let (status, said) = run(words);
        assert!(status == 1 && said.contains("refusal 6"), "{said}");
    }
}
