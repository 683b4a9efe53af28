//! What all workers saw.
use std::{
    fmt,
    sync::{
        Mutex,
        atomic::{AtomicU64, Ordering},
    },
};

#[derive(Default)]
pub struct Count(AtomicU64);

impl Count {
    pub fn add(&self, more: impl TryInto<u64>) {
        self.0.fetch_add(more.try_into().ok().expect("a count"), Ordering::Relaxed);
    }

    pub fn get(&self) -> u64 {
        self.0.load(Ordering::Relaxed)
    }
}

impl fmt::Display for Count {
    fn fmt(&self, f: &mut fmt::Formatter) -> fmt::Result {
        self.get().fmt(f)
    }
}

/// Claims that did not hold. They are told at the end, behind the counts.
#[derive(Default)]
pub struct Wrong(Mutex<Vec<String>>);

impl Wrong {
    pub fn unless(&self, holds: bool, at: impl FnOnce() -> String) {
        if !holds {
            let at = at();
            self.0.lock().unwrap().push(at);
        }
    }

    pub fn none(&self) {
        let wrong = self.0.lock().unwrap();
        assert!(wrong.is_empty(), "{} times against the claims, such as: {}", wrong.len(), wrong[0]);
    }
}
