//! Stand-in for uuid. The caller names the next staging file, of which the original asks `format!("{}.tmp", uuid)`: the
//! id prints as what stands before .tmp. For a name with another ending it prints as one space, which no valid name has, and
//! the two places where the path arrives (`tokio::fs::File::create` and the payload's writer) put the wanted name in its
//! place.
use std::{cell::RefCell, fmt};

thread_local! { static NEXT: RefCell<String> = const { RefCell::new(String::new()) }; }

pub fn name_next(name: &str) {
    NEXT.with(|n| *n.borrow_mut() = name.to_string());
}

pub fn wanted(path: &str) -> String {
    path.strip_suffix(" .tmp").map_or(path.to_string(), |folder| NEXT.with(|n| format!("{folder}{}", n.borrow())))
}

pub struct Uuid;

impl Uuid {
    pub fn new_v4() -> Self {
        Uuid
    }
}

impl fmt::Display for Uuid {
    fn fmt(&self, f: &mut fmt::Formatter) -> fmt::Result {
        NEXT.with(|n| f.write_str(n.borrow().strip_suffix(".tmp").unwrap_or(" ")))
    }
}
