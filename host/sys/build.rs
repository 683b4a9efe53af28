//! Writes the declarations and the header, and links the static library: the one that CDA_LIB names, else the one that
//! `tools/staticlib cda_storage` writes; and `librotation.a` beside it, which `tools/staticlib rotation` writes.
mod list;
#[path = "src/rooms.rs"]
mod rooms;

use std::{
    env, fs,
    path::{Path, PathBuf},
};

const ENTRIES: &str = include_str!("entries.txt");
const REFUSALS: &str = include_str!("refusals.txt");
/// The library of the update rotation, which stands beside that of the other entries.
const ROTATION: &str = "librotation.a";

fn main() {
    for file in ["build.rs", "list.rs", "src/rooms.rs", "entries.txt", "refusals.txt"] {
        println!("cargo::rerun-if-changed={file}");
    }
    println!("cargo::rustc-check-cfg=cfg(linked)");
    println!("cargo::rerun-if-env-changed=CDA_LIB");
    let out = PathBuf::from(env::var("OUT_DIR").unwrap());
    fs::write(out.join("entries.rs"), list::declarations(ENTRIES)).unwrap();
    fs::write(out.join("refusals.rs"), list::refusals(REFUSALS)).unwrap();
    fs::write(out.join("cda_storage.h"), list::header(ENTRIES, REFUSALS)).unwrap();
    let beside = Path::new(&env::var("CARGO_MANIFEST_DIR").unwrap()).join("../../target/staticlib/libcda_storage.a");
    let named = env::var_os("CDA_LIB").filter(|named| !named.is_empty());
    let library = named.as_ref().map_or(beside, |named| from_where_cargo_was_called(Path::new(named)));
    println!("cargo::rerun-if-changed={}", library.display());
    match library.canonicalize() {
        Ok(library) => link(&library),
        Err(error) if env::var_os("CARGO_FEATURE_REQUIRED").is_some() || named.is_some() => {
            println!(
                "cargo::error={}: {error}. `tools/staticlib cda_storage` makes the static library; CDA_LIB names another.",
                library.display()
            );
        }
        Err(_) => {}
    }
}

/// Cargo runs this in the package's folder, and leaves PWD as the caller's shell has set it. Where no shell has, a relative path
/// stays one from the package's folder.
fn from_where_cargo_was_called(named: &Path) -> PathBuf {
    if named.is_relative() {
        println!("cargo::rerun-if-env-changed=PWD");
    }
    env::var_os("PWD").map_or(PathBuf::new(), PathBuf::from).join(named)
}

fn link(library: &Path) {
    println!("cargo::rustc-cfg=linked");
    println!("cargo::metadata=library={}", library.display());
    println!("cargo::rustc-env=CDA_STORAGE_LIBRARY={}", library.display());
    println!("cargo::rustc-link-search=native={}", library.parent().unwrap().display());
    println!("cargo::rustc-link-lib=static:+verbatim={}", library.file_name().unwrap().display());
    let rotation = library.with_file_name(ROTATION);
    println!("cargo::rerun-if-changed={}", rotation.display());
    match rotation.canonicalize() {
        Ok(_) => println!("cargo::rustc-link-lib=static:+verbatim={ROTATION}"),
        Err(error) if env::var_os("CARGO_FEATURE_REQUIRED").is_some() => {
            println!("cargo::error={}: {error}. `tools/staticlib rotation` makes this library.", rotation.display());
        }
        Err(_) => {}
    }
}
