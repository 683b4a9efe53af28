//! CDA_LIB, as cargo's build of this crate takes it.
use std::{fs, os::unix::fs::symlink, path::Path, process::Command};

const HERE: &str = env!("CARGO_MANIFEST_DIR");

/// What cargo says of a build with this CDA_LIB, called by a shell that stands in a folder with `lib/libother.a`.
fn built(folder: &str, library: &str) -> Result<String, String> {
    let folder = Path::new(env!("CARGO_TARGET_TMPDIR")).join(folder);
    let _ = fs::remove_dir_all(&folder);
    fs::create_dir_all(folder.join("lib")).unwrap();
    symlink(env!("CDA_STORAGE_LIBRARY"), folder.join("lib/libother.a")).unwrap();
    let line = format!(
        "cd '{}' && CDA_LIB={library} cargo check --offline --manifest-path {HERE}/Cargo.toml --target-dir target",
        folder.display()
    );
    let output = Command::new("sh").args(["-c", &line]).env_remove("CARGO_TARGET_DIR").output().unwrap();
    let said = String::from_utf8(output.stderr).unwrap();
    fs::remove_dir_all(&folder).unwrap();
    if output.status.success() { Ok(said) } else { Err(said) }
}

#[test]
fn a_relative_library_is_found_from_where_cargo_was_called() {
    built("relative", "lib/libother.a").unwrap();
    built("dotted", "./lib/../lib/libother.a").unwrap();
}

#[test]
fn a_missing_library_is_named_in_full() {
    let said = built("missing", "lib/libnone.a").unwrap_err();
    let full = Path::new(env!("CARGO_TARGET_TMPDIR")).join("missing/lib/libnone.a");
    assert!(said.contains(full.to_str().unwrap()), "{said}");
}
