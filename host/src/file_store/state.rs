//! Whether a store is open to a transaction, and who holds it.
use super::FileStore;
use std::{
    ops::Deref,
    sync::{Arc, Mutex, MutexGuard, PoisonError},
};

#[derive(Clone, Copy, PartialEq, Eq, Debug, Default)]
pub enum State {
    #[default]
    Idle,
    Recording,
    Stopped,
}

/// The state, and the number of the era: one begins with every transaction, and where a stopped store is recovered in its place. What belongs to an
/// earlier one is over.
#[derive(Debug, Default)]
pub struct Status {
    pub state: State,
    era: u64,
}

impl Status {
    /// An era begins in this state: its number.
    pub fn begin_era(&mut self, state: State) -> u64 {
        self.era += 1;
        self.state = state;
        self.era
    }

    /// Whether what was begun in this era can go on.
    pub fn goes_on(&self, era: u64) -> bool {
        self.state != State::Stopped && self.era == era
    }
}

/// A store that is borrowed, or a part of a shared one.
#[derive(Clone, Debug)]
pub enum Handle<'a> {
    Borrowed(&'a FileStore),
    Shared(Arc<FileStore>),
}

impl Deref for Handle<'_> {
    type Target = FileStore;

    fn deref(&self) -> &FileStore {
        match self {
            Handle::Borrowed(store) => store,
            Handle::Shared(store) => store,
        }
    }
}

/// What a panic left behind the lock is whole: it is changed by single assignments.
pub fn lock<T>(mutex: &Mutex<T>) -> MutexGuard<'_, T> {
    mutex.lock().unwrap_or_else(PoisonError::into_inner)
}
