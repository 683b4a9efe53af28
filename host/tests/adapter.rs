//! `adapter/check`: the adapter held to the original through the interfaces' traits, where the original's source is. Else it says that it is skipped.
mod common;

use std::{env, path::Path, process::Command};

fn main() {
    let check = Path::new(env!("CARGO_MANIFEST_DIR")).join("adapter/check");
    let library = common::library().canonicalize().expect("the port's static library");
    let mut command = Command::new(check);
    // A build of its own: nothing of this one's settings is handed on.
    for name in ["CARGO_TARGET_DIR", "RUSTFLAGS", "CARGO_ENCODED_RUSTFLAGS"] {
        command.env_remove(name);
    }
    let status = command.env("CDA_LIB", library).status().expect("adapter/check runs");
    assert!(status.success(), "adapter/check: {status}");
}
