//! A store image: document 01, 'How a store is handed over'.
use crate::{
    Refusal, field,
    log::{self, Log, Write},
};
use std::collections::BTreeMap;

/// Files of a directory and their content numbers.
pub type Files = BTreeMap<String, u32>;

/// A store, as the bytes that the port takes and hands back. It comes from the port, or the port has accepted it.
///
/// An image that recovery or a failed commit handed back can be refused by the next call with
/// [`Refusal::InvalidImage`]: a restore can yield the directory or file `..bak` or `...bak`.
#[derive(Clone, PartialEq, Eq, Hash, Debug, Default)]
pub struct Image(Vec<u8>);

impl Image {
    /// Takes bytes that the port accepts as an image, or refuses them with [`Refusal::InvalidImage`].
    pub fn new(bytes: Vec<u8>) -> Result<Image, Refusal> {
        let image = Image(bytes);
        image.has_pending_work().map(|_| image)
    }

    /// What the port wrote.
    pub(crate) fn written(bytes: Vec<u8>) -> Image {
        Image(bytes)
    }

    /// The image's bytes.
    pub fn bytes(&self) -> &[u8] {
        &self.0
    }

    /// The store that the image holds.
    pub fn contents(&self) -> Contents {
        Contents::parse(&self.0).expect("an image has the layout that the port gave or accepted")
    }
}

/// What an image holds.
#[derive(Clone, PartialEq, Eq, Hash, Debug, Default)]
pub struct Contents {
    /// The collections, and the files of each.
    pub directories: BTreeMap<String, Files>,
    /// The staging files.
    pub staging: Files,
    /// The log, if there is one.
    pub log: Option<Vec<u8>>,
    /// Whether a transaction is open.
    pub open: bool,
}

impl Contents {
    /// The image of this store, if the port accepts it.
    pub fn image(&self) -> Result<Image, Refusal> {
        Image::new(self.encode())
    }

    /// Whether backups stand beside a log whose header is damaged, which the port takes for no log: one of under 8 bytes, or with
    /// another first byte, checksum or status than a log has. Recovery would then remove the backups, as behind a commit that is
    /// done; [`FileStore::open`](crate::FileStore::open) refuses it.
    pub fn has_damaged_log(&self) -> Result<bool, Refusal> {
        let Some(log) = &self.log else { return Ok(false) };
        let backups = Contents { directories: self.directories.clone(), ..Contents::default() };
        Ok(backups.image()?.has_pending_work()? && !log::is_taken(log))
    }

    /// Whether a collection holds a file.
    pub fn has(&self, collection: &str, file: &str) -> bool {
        self.directories.get(collection).is_some_and(|files| files.contains_key(file))
    }

    /// The name of a staging file that does not stand, and a content number that no file has.
    pub fn unused(&self) -> (String, u32) {
        let files = self.directories.values().chain([&self.staging]);
        let last = files.flat_map(|files| files.values()).max().copied().unwrap_or(0);
        let mut names = (last + 1..).map(|number| (format!("{number}.tmp"), number));
        names.find(|(name, _)| !self.staging.contains_key(name)).expect("fewer files than numbers")
    }

    /// The Writes of the log, in its order; none where it holds anything else, or is not whole.
    pub fn writes(&self) -> Option<Vec<Write>> {
        Log::read(self.log.as_ref()?).ok()?.writes()
    }

    fn encode(&self) -> Vec<u8> {
        let mut out = Vec::new();
        for (directory, files) in &self.directories {
            field::put(&mut out, 0x10, &[directory.as_bytes()]);
            put_files(&mut out, 0x11, files);
        }
        put_files(&mut out, 0x12, &self.staging);
        if let Some(log) = &self.log {
            field::put(&mut out, 0x13, &[log]);
        }
        if self.open {
            field::put(&mut out, 0x14, &[]);
        }
        out
    }

    fn parse(mut bytes: &[u8]) -> Option<Contents> {
        let mut contents = Contents::default();
        while !bytes.is_empty() {
            let (tag, value) = field::take(&mut bytes)?;
            match tag {
                0x10 => {
                    contents.directories.insert(field::name(value)?, Files::new());
                }
                0x11 => take_file(contents.directories.last_entry()?.get_mut(), value)?,
                0x12 => take_file(&mut contents.staging, value)?,
                0x13 => contents.log = Some(value.to_vec()),
                0x14 => contents.open = true,
                _ => return None,
            }
        }
        Some(contents)
    }
}

fn put_files(out: &mut Vec<u8>, tag: u8, files: &Files) {
    for (name, number) in files {
        field::put(out, tag, &[&number.to_le_bytes(), name.as_bytes()]);
    }
}

fn take_file(files: &mut Files, value: &[u8]) -> Option<()> {
    let (number, name) = value.split_first_chunk()?;
    files.insert(field::name(name)?, u32::from_le_bytes(*number));
    Some(())
}
