//! Why a command did not succeed, and its exit status.
use cda_store::{Refusal, StoreError};
use std::{fmt, io, path::Path};

#[derive(Debug)]
pub enum Failure {
    /// The command line says nothing that can be done.
    Usage(String),
    Store(StoreError),
    /// A log that is not read whole.
    Log(Refusal),
    /// What a refusal is about.
    Named(String, StoreError),
    /// A file of the caller's.
    Io(String),
}

impl Failure {
    pub fn at(path: &Path) -> impl FnOnce(io::Error) -> Failure {
        move |error| Failure::Io(format!("{}: {error}", path.display()))
    }

    pub fn status(&self) -> u8 {
        match self {
            Failure::Store(StoreError::Refused(_) | StoreError::Damaged { .. } | StoreError::Sound { .. }) | Failure::Log(_) => 1,
            Failure::Named(..) => 1,
            Failure::Store(_) | Failure::Io(_) => 2,
            Failure::Usage(_) => 64,
        }
    }
}

const WAYS: &str = "cda-store recover --restore DIR puts the backups back, --accept DIR keeps what stands; see cda-store recover --help";

/// Whether recovery is refused for its log, so that somebody has to choose.
fn is_for_a_decision(error: &StoreError) -> bool {
    let refusals = [Refusal::UndecodablePayload, Refusal::LogTooLong, Refusal::Corruption];
    match error {
        StoreError::Damaged { .. } => true,
        StoreError::Refused(refusal) => refusals.contains(refusal),
        _ => false,
    }
}

impl From<StoreError> for Failure {
    fn from(error: StoreError) -> Failure {
        Failure::Store(error)
    }
}

impl From<Refusal> for Failure {
    fn from(refusal: Refusal) -> Failure {
        Failure::Store(refusal.into())
    }
}

impl fmt::Display for Failure {
    fn fmt(&self, f: &mut fmt::Formatter) -> fmt::Result {
        match self {
            Failure::Usage(why) => write!(f, "{why}; see cda-store --help"),
            Failure::Store(error) if is_for_a_decision(error) => write!(f, "{error}\n{WAYS}"),
            Failure::Store(error) => error.fmt(f),
            Failure::Log(refusal) => refusal.fmt(f),
            Failure::Named(what, error) => write!(f, "{what}: {error}"),
            Failure::Io(why) => f.write_str(why),
        }
    }
}
