//! Says whether the port's static library was linked.
fn main() {
    println!("cargo::rustc-check-cfg=cfg(linked)");
    if std::env::var_os("DEP_CDA_STORAGE_LIBRARY").is_some() {
        println!("cargo::rustc-cfg=linked");
    }
}
