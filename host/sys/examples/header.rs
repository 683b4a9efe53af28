//! Prints the header: `cargo run -p cda-storage-sys --example header > include/cda_storage.h`.
fn main() {
    print!("{}", cda_storage_sys::HEADER);
}
