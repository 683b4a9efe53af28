//! The operations of a transaction, as the command line and scripts say them.
use crate::failure::Failure;
use cda_store::{Image, Refusal, Rotation, StoreError, Transaction};
use std::{
    ffi::{OsStr, OsString},
    fs::{self, File},
    io::{self, ErrorKind, Read},
    os::unix::ffi::OsStrExt,
    path::{Path, PathBuf},
};

/// A set of keys has at most so many.
const SET_LIMIT: usize = 32;

#[derive(Clone, PartialEq, Eq, Debug)]
pub enum Operation {
    Put { collection: String, key: String, file: PathBuf },
    Delete { collection: String, keys: Vec<String> },
    Copy { source: String, destination: String },
    Create { collection: String },
    Drop { collection: String },
    Clear { collection: String },
}

impl Operation {
    /// Reads a command and its words; `apply` reads a script of such lines.
    pub fn read(command: &str, words: &[OsString]) -> Result<Vec<Operation>, Failure> {
        let each = |operation: fn(String) -> Operation| Ok(words.iter().map(|word| operation(name(word))).collect());
        let operations = match (command, words) {
            ("put", _) if words.len().is_multiple_of(2) => words.chunks(2).map(put).collect(),
            ("put", _) => Err(Failure::Usage("put takes pairs of COLLECTION/KEY and FILE".into())),
            ("delete", _) => delete(words),
            ("copy", [source, destination]) => Ok(vec![Operation::Copy { source: name(source), destination: name(destination) }]),
            ("copy", _) => Err(Failure::Usage("copy takes FROM and TO".into())),
            ("create", _) => each(|collection| Operation::Create { collection }),
            ("drop", _) => each(|collection| Operation::Drop { collection }),
            ("clear", _) => each(|collection| Operation::Clear { collection }),
            ("rotate", []) => Ok(Operation::rotation(&Rotation::default())),
            ("rotate", _) => Err(Failure::Usage("rotate takes a directory alone".into())),
            ("apply", [script]) => Operation::script(Path::new(script)),
            ("apply", _) => Err(Failure::Usage("apply takes a script".into())),
            _ => Err(Failure::Usage(format!("no command is called {command}"))),
        }?;
        if operations.is_empty() {
            return Err(Failure::Usage(format!("{command}: nothing to do")));
        }
        Ok(operations)
    }

    /// What a rotation records.
    pub fn rotation(names: &Rotation) -> Vec<Operation> {
        let Rotation { current, next, backup } = names.clone();
        vec![
            Operation::Copy { source: current.clone(), destination: backup },
            Operation::Copy { source: next.clone(), destination: current },
            Operation::Drop { collection: next },
        ]
    }

    /// Reads a script: a command to a line, its words parted by spaces; `#` begins a remark.
    fn script(path: &Path) -> Result<Vec<Operation>, Failure> {
        let text = fs::read(path).map_err(Failure::at(path))?;
        let mut operations = Vec::new();
        for (i, line) in text.split(|byte| *byte == b'\n').enumerate() {
            let words = line.split(u8::is_ascii_whitespace).filter(|word| !word.is_empty()).take_while(|word| !word.starts_with(b"#"));
            let words: Vec<OsString> = words.map(|word| OsStr::from_bytes(word).to_os_string()).collect();
            let Some((command, words)) = words.split_first() else { continue };
            let at = |why: String| Failure::Usage(format!("{}, line {}: {why}", path.display(), i + 1));
            if command == "apply" {
                return Err(at("a script calls no script".into()));
            }
            operations.extend(Operation::read(&command.to_string_lossy(), words).map_err(|failure| match failure {
                Failure::Usage(why) => at(why),
                other => other,
            })?);
        }
        Ok(operations)
    }

    /// Records the operation in a transaction on disk.
    pub fn record(&self, transaction: &mut Transaction) -> Result<(), Failure> {
        match self {
            Operation::Put { collection, key, file } => {
                let mut content = Content { file: File::open(file).map_err(Failure::at(file))?, error: None };
                let written = transaction.write(collection, key, &mut content);
                return written.map_err(|error| content.error.map_or(error.into(), Failure::at(file)));
            }
            Operation::Delete { collection, keys } => {
                let before = transaction.image().clone();
                return transaction.delete_keys(collection, keys).map_err(|error| stopped(&before, collection, keys, error));
            }
            Operation::Copy { source, destination } => transaction.copy_collection(source, destination),
            Operation::Create { collection } => transaction.create_collection(collection),
            Operation::Drop { collection } => transaction.delete_collection(collection),
            Operation::Clear { collection } => transaction.delete_all(collection),
        }
        .map_err(Failure::from)
    }

    /// Records the operation in an image, where a number stands for the file.
    pub fn imagine(&self, image: &Image) -> Result<Image, Refusal> {
        match self {
            Operation::Put { collection, key, .. } => {
                let (staged, number) = image.contents().unused();
                image.write(collection, key, &staged, number)
            }
            Operation::Delete { collection, keys } => image.delete_keys(collection, keys),
            Operation::Copy { source, destination } => image.copy_collection(source, destination),
            Operation::Create { collection } => image.create_collection(collection),
            Operation::Drop { collection } => image.delete_collection(collection),
            Operation::Clear { collection } => image.delete_all(collection),
        }
    }
}

/// A file that is put. An error of its own is kept, to be told apart from one of the file that it is copied to.
struct Content {
    file: File,
    error: Option<io::Error>,
}

impl Read for Content {
    fn read(&mut self, buffer: &mut [u8]) -> io::Result<usize> {
        self.file.read(buffer).map_err(|error| {
            let kind = error.kind();
            self.error = Some(error).filter(|_| kind != ErrorKind::Interrupted);
            kind.into()
        })
    }
}

/// The text of a name. Where the word is no UTF-8, it has a character that the port refuses.
fn name(word: &OsStr) -> String {
    word.to_string_lossy().into_owned()
}

fn split(word: &OsStr) -> Result<(String, String), Failure> {
    let word = name(word);
    let (collection, key) = word.split_once('/').ok_or_else(|| Failure::Usage(format!("{word} is no COLLECTION/KEY")))?;
    Ok((collection.to_string(), key.to_string()))
}

fn put(pair: &[OsString]) -> Result<Operation, Failure> {
    let (collection, key) = split(&pair[0])?;
    Ok(Operation::Put { collection, key, file: PathBuf::from(&pair[1]) })
}

/// Sets of keys, as they follow one another: of one collection, and of at most 32.
fn delete(words: &[OsString]) -> Result<Vec<Operation>, Failure> {
    let mut operations: Vec<Operation> = Vec::new();
    for word in words {
        let (collection, key) = split(word)?;
        match operations.last_mut() {
            Some(Operation::Delete { collection: last, keys }) if *last == collection && keys.len() < SET_LIMIT => keys.push(key),
            _ => operations.push(Operation::Delete { collection, keys: vec![key] }),
        }
    }
    Ok(operations)
}

/// The first key of a set for which nothing of it is deleted, named with the refusal, if it is one key's.
fn stopped(before: &Image, collection: &str, keys: &[String], error: StoreError) -> Failure {
    match &error {
        StoreError::Refused(refusal) => match keys.iter().find(|key| before.delete(collection, key).as_ref() == Err(refusal)) {
            Some(key) => Failure::Named(format!("{collection}/{key}"), error),
            None => error.into(),
        },
        _ => error.into(),
    }
}
