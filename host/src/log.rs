//! A log: document 01, 'How a store is handed over'; document 02, items 1, 4, 6 and 12. The port says how it reads it, and how it broke.
use crate::{
    Refusal,
    entries::{lend, refused},
    field,
    image::Image,
};
use cda_storage_sys as sys;
use std::fmt;

/// A Write that a transaction has recorded.
#[derive(Clone, PartialEq, Eq, Hash, Debug)]
pub struct Write {
    /// The collection.
    pub collection: String,
    /// The key, lowered.
    pub key: String,
    /// The staging file that holds the content.
    pub staged: String,
    /// Whether the key's file stood when this was recorded; a log of an older version does not say.
    pub mark: Option<bool>,
}

/// An operation that a log holds. Of a copy it says whether the destination stood when it was recorded.
#[allow(missing_docs)]
#[derive(Clone, PartialEq, Eq, Hash, Debug)]
pub enum Logged {
    Write(Write),
    Delete {
        collection: String,
        key: String,
    },
    DeleteAll {
        collection: String,
    },
    CreateCollection {
        name: String,
    },
    DeleteCollection {
        name: String,
    },
    /// And whether the destination stood when this was recorded.
    CopyCollection {
        source: String,
        destination: String,
        existed: bool,
    },
}

impl fmt::Display for Logged {
    fn fmt(&self, f: &mut fmt::Formatter) -> fmt::Result {
        match self {
            Logged::Write(Write { collection, key, staged, mark }) => {
                let stood = match mark {
                    Some(true) => "; the key was there",
                    Some(false) => "; the key is new",
                    None => "",
                };
                write!(f, "write staged {staged} to {collection}/{key}{stood}")
            }
            Logged::Delete { collection, key } => write!(f, "delete {collection}/{key}"),
            Logged::DeleteAll { collection } => write!(f, "delete all files of {collection}"),
            Logged::CreateCollection { name } => write!(f, "create collection {name}"),
            Logged::DeleteCollection { name } => write!(f, "delete collection {name}"),
            Logged::CopyCollection { source, destination, existed } => {
                write!(f, "copy collection {source} to {destination}, which {}", if *existed { "was there" } else { "is new" })
            }
        }
    }
}

/// How a log broke: what is wrong with the first of its entries that is not whole.
#[derive(Clone, Copy, PartialEq, Eq, PartialOrd, Ord, Hash, Debug)]
pub enum Cause {
    /// 1: under 8 bytes are left for an entry's checksum and length.
    HeaderShort = 1,
    /// 2: the entry's length is 0 or goes past the end.
    PayloadMissing = 2,
    /// 3: the entry's checksum is not that of its payload.
    ChecksumWrong = 3,
}

impl Cause {
    /// The number, 1 to 3.
    pub fn number(self) -> u32 {
        self as u32
    }

    /// The cause of a number; none for 0.
    pub(crate) fn from_number(number: u32) -> Option<Cause> {
        [Cause::HeaderShort, Cause::PayloadMissing, Cause::ChecksumWrong].into_iter().find(|cause| cause.number() == number)
    }
}

impl fmt::Display for Cause {
    fn fmt(&self, f: &mut fmt::Formatter) -> fmt::Result {
        let words = match self {
            Cause::HeaderShort => "an entry's header is too short",
            Cause::PayloadMissing => "an entry's payload is missing",
            Cause::ChecksumWrong => "an entry's checksum is wrong",
        };
        write!(f, "cause {}, {words}", self.number())
    }
}

/// A log's status.
#[derive(Clone, Copy, PartialEq, Eq, Hash, Debug)]
pub enum Status {
    /// A transaction is being recorded.
    Recording,
    /// Its commit has begun.
    Committing,
    /// It was committed and is held, until it is kept or reverted.
    Held,
}

/// A log with a valid header, as the port reads it.
#[derive(Clone, PartialEq, Eq, Debug)]
pub struct Log {
    /// What its header says.
    pub status: Status,
    /// The operations, up to where the reading ends.
    pub operations: Vec<Logged>,
    /// Where that is, in bytes from the log's first: its length, if it is whole.
    pub end: usize,
    /// How the log broke; none if the reading comes to its end. [`Refusal::UndecodablePayload`] and [`Refusal::LogTooLong`] say that it
    /// meets a payload that does not decode, or a byte after 32 operations.
    pub broke: Result<Option<Cause>, Refusal>,
}

impl Log {
    /// Most bytes of a log.
    pub const LIMIT: usize = sys::LOG_LIMIT;

    /// Reads a log. [`Refusal::NoWholeLog`] if it has no valid header, [`Refusal::InvalidImage`] if it is over [`Log::LIMIT`] bytes.
    pub fn read(bytes: &[u8]) -> Result<Log, Refusal> {
        let broke = match cause(bytes) {
            Err(refusal @ (Refusal::InvalidImage | Refusal::NoWholeLog)) => return Err(refusal),
            broke => broke,
        };
        let status = match bytes[1] {
            0 => Status::Recording,
            1 => Status::Committing,
            _ => Status::Held,
        };
        let (mut operations, mut end) = (Vec::new(), 8);
        while let Some((operation, behind)) = entry(bytes, end) {
            operations.push(operation);
            end = behind;
        }
        Ok(Log { status, operations, end, broke })
    }

    /// The bytes of the log with the same status and operations and zeros in bytes 2 and 3: equal for two logs exactly if these are.
    /// [`Refusal::NoWholeLog`] if it has no valid header or is truncated; the others are those of [`Log::read`] and [`Log::broke`].
    pub fn canonical(bytes: &[u8]) -> Result<Vec<u8>, Refusal> {
        let (number, written) = lend(bytes.len(), |out| sys::canonical_log(bytes, out));
        refused(number).map(|()| written)
    }

    /// Its Writes, if it is whole and they are all that it holds.
    pub fn writes(self) -> Option<Vec<Write>> {
        let write = |operation| match operation {
            Logged::Write(write) => Some(write),
            _ => None,
        };
        self.operations.into_iter().map(write).collect::<Option<_>>().filter(|_| self.broke == Ok(None))
    }
}

/// How a log broke, if it did, by the port.
fn cause(log: &[u8]) -> Result<Option<Cause>, Refusal> {
    let mut cause = 0;
    refused(sys::log_cause(log, &mut cause)).map(|()| Cause::from_number(cause))
}

/// The operation of the entry at a place, and where the entry ends, if the port reads the log up to there.
fn entry(log: &[u8], at: usize) -> Option<(Logged, usize)> {
    let (head, rest) = log[at..].split_first_chunk::<8>()?;
    let length = u32::from_le_bytes([head[4], head[5], head[6], head[7]]).try_into().ok()?;
    let payload = rest.get(..length)?;
    let end = at + 8 + length;
    if cause(&log[..end]) != Ok(None) {
        return None;
    }
    Some((operation(payload)?, end))
}

/// The operation of a payload that the port decodes.
fn operation(mut payload: &[u8]) -> Option<Logged> {
    let mut value = |tag: u8| field::take(&mut payload).and_then(|field| (field.0 == tag).then_some(field.1));
    let &[kind] = value(1)? else { return None };
    let mut name = |tag| field::name(value(tag)?);
    let first = name(2)?;
    Some(match kind {
        1 => Logged::Write(Write { collection: first, key: name(3)?, staged: name(4)?, mark: None }),
        2 => Logged::Delete { collection: first, key: name(3)? },
        3 => Logged::DeleteAll { collection: first },
        4 => Logged::CreateCollection { name: first },
        5 => Logged::DeleteCollection { name: first },
        6 => Logged::CopyCollection { source: first, destination: name(5)?, existed: value(6)? == [1] },
        7 => Logged::Write(Write { collection: first, key: name(3)?, staged: name(4)?, mark: Some(value(7)? == [1]) }),
        _ => return None,
    })
}

/// Whether the port takes a log by its header.
pub fn is_taken(log: &[u8]) -> bool {
    cause(&log[..log.len().min(8)]) != Err(Refusal::NoWholeLog)
}

/// The logs of a transaction with no operation: while it is recorded, and while it is committed.
pub fn empty() -> Result<[Option<Vec<u8>>; 2], Refusal> {
    let recording = Image::default().begin()?;
    let (committing, _) = recording.commit_step(1)?;
    Ok([recording, committing].map(|image| image.contents().log))
}
