//! The log and its operations: document 01, wal.rs and 'How a store is handed over'; document 02, items 1, 4 and 6.
use crate::image::{put_field, take_field};
use crate::name::{self, Name};

pub const OPERATION_LIMIT: usize = 32;
const HEADER: usize = 8;

/// A Write with a mark is a marked Write, kind 7: the mark says whether "the key's file stood when it was recorded" (02, item 4). One of kind 1
/// has none.
#[derive(Clone, PartialEq, Eq, Hash, Debug)]
pub enum Operation {
    Write { collection: Name, key: Name, staged: Name, mark: Option<bool> },
    Delete { collection: Name, key: Name },
    DeleteAll { collection: Name },
    CreateCollection { name: Name },
    DeleteCollection { name: Name },
    CopyCollection { source: Name, dest: Name, existed: bool },
}

/// The tags of each kind's fields; kind 1 is the first row.
const ROWS: [&[u8]; 7] = [&[1, 2, 3, 4], &[1, 2, 3], &[1, 2], &[1, 2], &[1, 2], &[1, 2, 5, 6], &[1, 2, 3, 4, 7]];

/// "one byte 0 or 1"
fn flag(set: bool) -> &'static [u8] {
    if set { &[1] } else { &[0] }
}

/// "all names valid"; of a mark "another value doesn't decode".
fn is_valid(tag: u8, value: &[u8]) -> bool {
    match tag {
        1 => value.len() == 1,
        6 | 7 => value == flag(false) || value == flag(true),
        _ => name::is_valid(value),
    }
}

impl Operation {
    pub fn kind(&self) -> u8 {
        use Operation::*;
        match self {
            Write { mark: None, .. } => 1,
            Delete { .. } => 2,
            DeleteAll { .. } => 3,
            CreateCollection { .. } => 4,
            DeleteCollection { .. } => 5,
            CopyCollection { .. } => 6,
            Write { mark: Some(_), .. } => 7,
        }
    }

    /// The values behind the kind, in the order of its row.
    fn values(&self) -> Vec<&[u8]> {
        use Operation::*;
        match self {
            Write { collection, key, staged, mark: None } => vec![collection, key, staged],
            Write { collection, key, staged, mark: Some(stood) } => vec![collection, key, staged, flag(*stood)],
            Delete { collection, key } => vec![collection, key],
            DeleteAll { collection: name } | CreateCollection { name } | DeleteCollection { name } => vec![name],
            CopyCollection { source, dest, existed } => vec![source, dest, flag(*existed)],
        }
    }

    pub fn encode(&self) -> Vec<u8> {
        let mut out = Vec::new();
        put_field(&mut out, 1, &[&[self.kind()]]);
        for (tag, value) in ROWS[usize::from(self.kind()) - 1][1..].iter().zip(self.values()) {
            put_field(&mut out, *tag, &[value]);
        }
        out
    }

    pub fn decode(mut payload: &[u8]) -> Option<Operation> {
        use Operation::*;
        let mut fields = Vec::new();
        while !payload.is_empty() {
            fields.push(take_field(&mut payload)?);
        }
        let (1, &[kind @ 1..=7]) = *fields.first()? else { return None };
        let tags: Vec<u8> = fields.iter().map(|f| f.0).collect();
        if tags != ROWS[usize::from(kind) - 1] || !fields.iter().all(|(tag, value)| is_valid(*tag, value)) {
            return None;
        }
        let value = |i: usize| fields[i].1.to_vec();
        let is_set = |i: usize| fields[i].1 == flag(true);
        Some(match kind {
            1 => Write { collection: value(1), key: value(2), staged: value(3), mark: None },
            2 => Delete { collection: value(1), key: value(2) },
            3 => DeleteAll { collection: value(1) },
            4 => CreateCollection { name: value(1) },
            5 => DeleteCollection { name: value(1) },
            6 => CopyCollection { source: value(1), dest: value(2), existed: is_set(3) },
            _ => Write { collection: value(1), key: value(2), staged: value(3), mark: Some(is_set(4)) },
        })
    }

    /// The mark of a marked Write.
    pub fn mark(&self) -> Option<bool> {
        match self {
            Operation::Write { mark, .. } => *mark,
            _ => None,
        }
    }

    /// The operation with this mark, if it is a Write.
    pub fn with_mark(mut self, new: Option<bool>) -> Operation {
        if let Operation::Write { mark, .. } = &mut self {
            *mark = new;
        }
        self
    }

    /// The collection whose directory commit syncs.
    pub fn named(&self) -> &Name {
        use Operation::*;
        match self {
            Write { collection: c, .. } | Delete { collection: c, .. } | DeleteAll { collection: c } => c,
            CreateCollection { name: c } | DeleteCollection { name: c } | CopyCollection { dest: c, .. } => c,
        }
    }
}

#[derive(Clone, Copy, PartialEq, Eq, Debug)]
pub enum Status {
    Recording,
    Committing,
    /// 02, item 6: "status 0x02, Held (01's status rule now starts above 0x02)"
    Held,
}

/// 02, item 1: "1 entry header too short, 2 payload missing (length 0 or past the end), 3 checksum wrong"
#[derive(Clone, Copy, PartialEq, Eq, Debug)]
pub enum Cause {
    HeaderShort = 1,
    PayloadMissing = 2,
    ChecksumWrong = 3,
}

#[derive(Clone, Copy, PartialEq, Eq, Debug)]
pub enum Ending {
    Whole,
    Truncated(Cause),
    Undecodable,
    TooMany,
}

const fn crc_table() -> [u32; 256] {
    let mut table = [0; 256];
    let mut i = 0;
    while i < 256 {
        let (mut register, mut bit) = (i as u32, 0);
        while bit < 8 {
            register = if register & 1 == 1 { register >> 1 ^ 0xEDB8_8320 } else { register >> 1 };
            bit += 1;
        }
        table[i] = register;
        i += 1;
    }
    table
}
static CRC_TABLE: [u32; 256] = crc_table();

pub fn crc32(bytes: &[u8]) -> u32 {
    !bytes.iter().fold(u32::MAX, |r, b| r >> 8 ^ CRC_TABLE[usize::from(r as u8 ^ b)])
}

pub fn header(status: Status) -> Vec<u8> {
    let start = [0xCA, status as u8];
    [&start[..], &[0, 0], &crc32(&start).to_le_bytes()].concat()
}

pub fn append(log: &mut Vec<u8>, payload: &[u8]) {
    log.extend(crc32(payload).to_le_bytes());
    log.extend((payload.len() as u32).to_le_bytes());
    log.extend(payload);
}

/// A log of these operations.
pub fn written(status: Status, operations: &[Operation]) -> Vec<u8> {
    let mut log = header(status);
    operations.iter().for_each(|operation| append(&mut log, &operation.encode()));
    log
}

/// The status of a log with a valid header; any other log is as if absent.
pub fn status(log: &[u8]) -> Option<Status> {
    let (head, _) = log.split_at_checked(HEADER)?;
    [Status::Recording, Status::Committing, Status::Held].into_iter().find(|s| {
        let good = header(*s);
        head[..2] == good[..2] && head[4..] == good[4..]
    })
}

/// "A Held log stands": a matter of its header alone.
pub fn is_held(log: Option<&[u8]>) -> bool {
    log.and_then(status) == Some(Status::Held)
}

/// The operations behind the header, up to where the walk ends, and how it ends.
pub fn operations(log: &[u8]) -> (Vec<Operation>, Ending) {
    let mut found = Vec::new();
    let ending = walk(&mut &log[HEADER..], &mut found);
    (found, ending)
}

/// Takes the operations off the front of the entries.
fn walk(rest: &mut &[u8], found: &mut Vec<Operation>) -> Ending {
    while !rest.is_empty() {
        if found.len() == OPERATION_LIMIT {
            return Ending::TooMany;
        }
        let Some((head, behind)) = rest.split_at_checked(8) else { return Ending::Truncated(Cause::HeaderShort) };
        let word = |i: usize| u32::from_le_bytes([head[i], head[i + 1], head[i + 2], head[i + 3]]);
        let there = behind.split_at_checked(word(4) as usize).filter(|(payload, _)| !payload.is_empty());
        let Some((payload, behind)) = there else { return Ending::Truncated(Cause::PayloadMissing) };
        if crc32(payload) != word(0) {
            return Ending::Truncated(Cause::ChecksumWrong);
        }
        let Some(operation) = Operation::decode(payload) else { return Ending::Undecodable };
        found.push(operation);
        *rest = behind;
    }
    Ending::Whole
}

/// The log with its operations changed; what isn't read of it stays.
pub fn map_operations(log: &[u8], change: impl Fn(Operation) -> Operation) -> Vec<u8> {
    if status(log).is_none() {
        return log.to_vec();
    }
    let (head, mut rest) = log.split_at(HEADER);
    let (mut found, mut changed) = (Vec::new(), head.to_vec());
    walk(&mut rest, &mut found);
    found.into_iter().for_each(|operation| append(&mut changed, &change(operation).encode()));
    [&changed, rest].concat()
}

/// An old log, such as the original knows: each marked Write is one of kind 1, all else is as it was.
pub fn unmarked(log: &[u8]) -> Vec<u8> {
    map_operations(log, |operation| operation.with_mark(None))
}
