//! Document 01's payload for the original's `Operation`, in the place of rkyv's layout.
use super::{CollectionName, Operation};
use rkyv::{Payload, rancor::Error};
use std::cell::RefCell;

thread_local! { static STAGING: RefCell<String> = const { RefCell::new(String::new()) }; }

/// The folder in which the staging name of a decoded Write stands. The payload holds the name, the operation a path.
pub fn staging_folder(folder: &str) {
    STAGING.with(|s| *s.borrow_mut() = folder.to_string());
}

impl Payload for Operation {
    fn encode(&self) -> Result<Vec<u8>, Error> {
        let mut out = Vec::new();
        let mut field = |tag: u8, value: &[u8]| {
            out.push(tag);
            out.extend((value.len() as u16).to_le_bytes());
            out.extend(value);
        };
        match self {
            Operation::Write { collection, key, staged_path } => {
                let path = uuid::wanted(staged_path);
                let staged = path.rsplit('/').next().unwrap();
                field(1, &[1]);
                field(2, collection.as_str().as_bytes());
                field(3, key.as_bytes());
                field(4, staged.as_bytes());
            }
            Operation::Delete { collection, key } => {
                field(1, &[2]);
                field(2, collection.as_str().as_bytes());
                field(3, key.as_bytes());
            }
            Operation::DeleteAll { collection } => {
                field(1, &[3]);
                field(2, collection.as_str().as_bytes());
            }
            Operation::CreateCollection { name } => {
                field(1, &[4]);
                field(2, name.as_str().as_bytes());
            }
            Operation::DeleteCollection { name } => {
                field(1, &[5]);
                field(2, name.as_str().as_bytes());
            }
            Operation::CopyCollection { source, dest, dest_existed } => {
                field(1, &[6]);
                field(2, source.as_str().as_bytes());
                field(5, dest.as_str().as_bytes());
                field(6, &[u8::from(*dest_existed)]);
            }
        }
        Ok(out)
    }

    fn decode(mut bytes: &[u8]) -> Result<Self, Error> {
        let kind = match take(&mut bytes, 1)? {
            [kind] => *kind,
            _ => return Err(Error("kind")),
        };
        let operation = match kind {
            1 => Operation::Write {
                collection: CollectionName::Custom(name(&mut bytes, 2)?),
                key: name(&mut bytes, 3)?,
                staged_path: format!("{}/{}", STAGING.with(|s| s.borrow().clone()), name(&mut bytes, 4)?),
            },
            2 => Operation::Delete { collection: CollectionName::Custom(name(&mut bytes, 2)?), key: name(&mut bytes, 3)? },
            3 => Operation::DeleteAll { collection: CollectionName::Custom(name(&mut bytes, 2)?) },
            4 => Operation::CreateCollection { name: CollectionName::Custom(name(&mut bytes, 2)?) },
            5 => Operation::DeleteCollection { name: CollectionName::Custom(name(&mut bytes, 2)?) },
            6 => Operation::CopyCollection {
                source: CollectionName::Custom(name(&mut bytes, 2)?),
                dest: CollectionName::Custom(name(&mut bytes, 5)?),
                dest_existed: match take(&mut bytes, 6)? {
                    [0] => false,
                    [1] => true,
                    _ => return Err(Error("destination existed")),
                },
            },
            _ => return Err(Error("kind")),
        };
        if bytes.is_empty() { Ok(operation) } else { Err(Error("bytes behind")) }
    }
}

/// The value of the next field, which has this tag.
fn take<'a>(bytes: &mut &'a [u8], tag: u8) -> Result<&'a [u8], Error> {
    let (head, rest) = bytes.split_at_checked(3).ok_or(Error("field"))?;
    let (value, rest) = rest.split_at_checked(usize::from(u16::from_le_bytes([head[1], head[2]]))).ok_or(Error("value"))?;
    *bytes = rest;
    if head[0] == tag { Ok(value) } else { Err(Error("tag")) }
}

fn name(bytes: &mut &[u8], tag: u8) -> Result<String, Error> {
    let value = take(bytes, tag)?;
    let printable = value.iter().all(|b| (0x21..=0x7E).contains(b) && !b"/\\".contains(b));
    let refused: [&[u8]; 4] = [b".", b"..", b"..bak", b"...bak"];
    if printable && (1..=64).contains(&value.len()) && !refused.contains(&value) {
        Ok(String::from_utf8(value.to_vec()).unwrap())
    } else {
        Err(Error("name"))
    }
}
