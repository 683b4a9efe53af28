//! A store and its image: document 01, 'How a store is handed over'.
use crate::log;
use crate::name::{self, Name, backup};
use std::collections::BTreeMap;

pub const DIR_LIMIT: usize = 16;
pub const FILE_LIMIT: usize = 128;
pub const STAGING_LIMIT: usize = 32;
/// "The log limit becomes 6,952 bytes" (02, item 4).
pub const LOG_LIMIT: usize = 6_952;

pub type Files = BTreeMap<Name, u32>;

#[derive(Clone, Default, PartialEq, Eq, Hash, Debug)]
pub struct Image {
    pub dirs: BTreeMap<Name, Files>,
    pub staging: Files,
    pub log: Option<Vec<u8>>,
    pub open: bool,
}

/// Appends a field: tag, length in two bytes, value.
pub fn put_field(out: &mut Vec<u8>, tag: u8, value: &[&[u8]]) {
    let length: usize = value.iter().map(|v| v.len()).sum();
    out.push(tag);
    out.extend(u16::try_from(length).expect("a field's length").to_le_bytes());
    value.iter().for_each(|v| out.extend(*v));
}

/// Takes the field that the bytes begin with.
pub fn take_field<'a>(bytes: &mut &'a [u8]) -> Option<(u8, &'a [u8])> {
    let (head, rest) = bytes.split_at_checked(3)?;
    let (value, rest) = rest.split_at_checked(usize::from(u16::from_le_bytes([head[1], head[2]])))?;
    *bytes = rest;
    Some((head[0], value))
}

impl Image {
    pub fn file_count(&self) -> usize {
        self.dirs.values().map(Files::len).sum()
    }

    pub fn has(&self, dir: &[u8], file: &[u8]) -> bool {
        self.dirs.get(dir).is_some_and(|files| files.contains_key(file))
    }

    /// Whether a Write's target is new, "to remove or to count it". 02, item 4: "exactly if it stands, the mark is 0 and no backup of it
    /// stands"; without a mark, of kind 1, it is asked as if the mark were 0.
    pub fn is_new(&self, collection: &[u8], key: &[u8], mark: Option<bool>) -> bool {
        self.has(collection, key) && mark != Some(true) && !self.has(collection, &backup(key))
    }

    /// The store with an old log, as `log::unmarked` has it.
    pub fn unmarked(self) -> Image {
        Image { log: self.log.as_deref().map(log::unmarked), ..self }
    }

    pub fn encode(&self) -> Vec<u8> {
        let mut out = Vec::new();
        for (dir, files) in &self.dirs {
            put_field(&mut out, 0x10, &[dir]);
            for (file, number) in files {
                put_field(&mut out, 0x11, &[&number.to_le_bytes(), file]);
            }
        }
        for (file, number) in &self.staging {
            put_field(&mut out, 0x12, &[&number.to_le_bytes(), file]);
        }
        if let Some(log) = &self.log {
            put_field(&mut out, 0x13, &[log]);
        }
        if self.open {
            put_field(&mut out, 0x14, &[]);
        }
        out
    }

    /// `None` is refusal 1.
    pub fn decode(mut bytes: &[u8]) -> Option<Image> {
        let mut image = Image::default();
        let mut last = 0;
        while !bytes.is_empty() {
            let (tag, value) = take_field(&mut bytes)?;
            let in_order = tag > last || tag == last && tag < 0x13 || tag == 0x10 && last == 0x11;
            if !in_order {
                return None;
            }
            match tag {
                0x10 => {
                    let above = image.dirs.last_key_value().is_none_or(|(dir, _)| dir.as_slice() < value);
                    if !above || !name::is_valid(value) {
                        return None;
                    }
                    image.dirs.insert(value.to_vec(), Files::new());
                }
                0x11 => put_file(image.dirs.last_entry()?.get_mut(), value)?,
                0x12 => put_file(&mut image.staging, value)?,
                0x13 => image.log = Some(value.to_vec()),
                0x14 if value.is_empty() => image.open = true,
                _ => return None,
            }
            last = tag;
        }
        let within = image.dirs.len() <= DIR_LIMIT
            && image.file_count() <= FILE_LIMIT
            && image.staging.len() <= STAGING_LIMIT
            && image.log.as_ref().is_none_or(|log| log.len() <= LOG_LIMIT);
        within.then_some(image)
    }
}

/// As `Image::unmarked`, of bytes that need not pass for an image.
pub fn unmarked(image: &[u8]) -> Vec<u8> {
    let (mut out, mut rest) = (Vec::new(), image);
    while let Some((tag, value)) = take_field(&mut rest) {
        match tag {
            0x13 => put_field(&mut out, tag, &[&log::unmarked(value)]),
            _ => put_field(&mut out, tag, &[value]),
        }
    }
    [&out, rest].concat()
}

/// Adds a file above those that stand.
fn put_file(files: &mut Files, value: &[u8]) -> Option<()> {
    let (number, file) = value.split_first_chunk()?;
    let number = u32::from_le_bytes(*number);
    let above = files.last_key_value().is_none_or(|(last, _)| last.as_slice() < file);
    (above && number != 0 && name::is_valid(file)).then(|| files.insert(file.to_vec(), number))?;
    Some(())
}
