//! The port behind the entries: the functions that the static library exports (host/sys).
#[cfg(linked)]
mod linked;

use store::Store;

/// The port, where its static library stood when this was built.
pub fn port() -> Option<Box<dyn Store>> {
    #[cfg(linked)]
    return Some(Box::new(linked::Port));
    #[cfg(not(linked))]
    None
}
