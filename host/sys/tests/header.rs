//! The header is the one that the list gives, and a program in C and C++ links the static library by it.
use std::{fs, path::Path, process::Command};

const HERE: &str = env!("CARGO_MANIFEST_DIR");

#[test]
fn is_what_the_list_gives() {
    let header = fs::read_to_string(Path::new(HERE).join("../include/cda_storage.h")).unwrap();
    assert!(header == cda_storage_sys::HEADER, "cargo run -p cda-storage-sys --example header > include/cda_storage.h");
}

/// The ten-step case cut everywhere, by a compiler and its options: a is 7 up to the removal of the log, then 9.
fn recovers_a(compiler: &str, options: &[&str]) {
    if Command::new(compiler).arg("--version").output().is_err() {
        eprintln!("{compiler} is not there");
        return;
    }
    let program = Path::new(env!("CARGO_TARGET_TMPDIR")).join(format!("header-{compiler}"));
    let mut command = Command::new(compiler);
    command.args(options).args(["-Wall", "-Wextra", "-Werror", "-I"]).arg(Path::new(HERE).join("../include"));
    command.arg(Path::new(HERE).join("tests/header.c")).args(["-x", "none", env!("CDA_STORAGE_LIBRARY"), "-o"]).arg(&program);
    assert!(command.status().unwrap().success(), "{command:?}");
    let output = Command::new(&program).output().unwrap();
    assert_eq!((output.status.code(), &output.stdout[..]), (Some(0), &b"77777777999"[..]));
}

#[test]
fn serves_c() {
    recovers_a("cc", &["-std=c99", "-pedantic"]);
}

#[test]
fn serves_cplusplus() {
    recovers_a("g++", &["-x", "c++"]);
}
