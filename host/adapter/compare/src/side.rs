//! One of the two: a storage behind the traits, its transaction, handles on collections, and what was read and kept.
use crate::{
    block_on,
    call::{Call, SLOTS},
};
use cda_interfaces::storage_api::{Collection, CollectionName, DirectFileAccess, RandomAccessData, Storage, StorageError, Transaction};
use std::{
    io::{self, Read},
    path::{Path, PathBuf},
    sync::Arc,
};

pub struct Side<S: Storage> {
    pub root: PathBuf,
    open: fn(&Path) -> Result<S, StorageError>,
    storage: Option<S>,
    pub transaction: Option<Transaction>,
    handles: [Option<Arc<S::CollectionHandle>>; SLOTS],
    kept: Vec<Arc<dyn RandomAccessData>>,
}

/// What a call answers, in words that are the same for both.
pub type Answer = Result<String, String>;

impl<S: Storage> Side<S>
where
    S::CollectionHandle: Collection + DirectFileAccess,
{
    pub fn new(root: PathBuf, open: fn(&Path) -> Result<S, StorageError>) -> Side<S> {
        let mut side = Side { root, open, storage: None, transaction: None, handles: Default::default(), kept: Vec::new() };
        side.start().unwrap();
        side
    }

    /// Opens the storage.
    pub fn start(&mut self) -> Answer {
        self.storage = Some((self.open)(&self.root).map_err(told)?);
        Ok(String::new())
    }

    /// Closes it, with all that it handed out. The transaction is rolled back, or left behind as by the process's end.
    pub fn stop(&mut self, left_behind: bool) {
        if let Some(transaction) = self.transaction.take().filter(|_| left_behind) {
            std::mem::forget(transaction);
        }
        (self.transaction, self.handles, self.kept) = Default::default();
        self.storage = None;
    }

    /// The directory of a handle's collection.
    pub fn directory(&self, slot: usize) -> Option<String> {
        Some(self.handles[slot].as_ref()?.dir_path().display().to_string())
    }

    /// What was read and kept goes, and with it what keeps a commit waiting.
    pub fn release(&mut self) {
        self.kept.clear();
    }

    pub fn ask(&mut self, call: &Call) -> Answer {
        let storage = self.storage.as_ref().expect("an open storage");
        let handle = |slot: &usize| self.handles[*slot].as_ref().ok_or("no handle".to_string());
        let done = |(): ()| String::new();
        let open = &mut self.transaction;
        let mut begun = |missing: &str| open.take().ok_or(missing.to_string());
        match call {
            Call::Begin => storage.begin_transaction().map(|begun| *open = Some(begun)).map(done).map_err(told),
            Call::Commit => block_on(begun("no transaction")?.commit()).map(done).map_err(told),
            Call::Rollback => Ok(done(begun("no transaction")?.rollback())),
            Call::DropTransaction => Ok(done(drop(begun("no transaction")?))),
            Call::Get(slot, name) => {
                let found = block_on(storage.get_collection(&named(name))).map_err(told)?;
                self.handles[*slot] = Some(found);
                Ok(String::new())
            }
            Call::GetOrCreate(slot, name) => {
                let found = block_on(storage.get_or_create_collection(&named(name))).map_err(told)?;
                self.handles[*slot] = Some(found);
                Ok(String::new())
            }
            Call::Create(slot, name) => {
                let open = open.as_mut().ok_or("no transaction".to_string())?;
                let made = block_on(storage.create_collection(open, &named(name))).map_err(told)?;
                self.handles[*slot] = Some(made);
                Ok(String::new())
            }
            Call::CreateUnawaited(name) => {
                drop(storage.create_collection(open.as_mut().ok_or("no transaction".to_string())?, &named(name)));
                Ok(String::new())
            }
            Call::DeleteCollection(name) => {
                let open = open.as_mut().ok_or("no transaction".to_string())?;
                block_on(storage.delete_collection(open, &named(name))).map(done).map_err(told)
            }
            Call::Copy(from, to) => {
                let open = open.as_mut().ok_or("no transaction".to_string())?;
                block_on(storage.copy_collection(open, &named(from), &named(to))).map(done).map_err(told)
            }
            Call::Read(slot, key, offset) => {
                let data = block_on(handle(slot)?.read(key)).map_err(told)?;
                let (mut buffer, size) = (vec![0; 16], data.data_size().map_err(told)?);
                let length = data.read_at(*offset, &mut buffer).map_err(told)?;
                Ok(format!("{size} bytes, at {offset} {:?}", &buffer[..length]))
            }
            Call::Keep(slot, key) => {
                let data = block_on(handle(slot)?.read(key)).map_err(told)?;
                self.kept.push(data);
                Ok(String::new())
            }
            Call::Metadata(slot, key) => {
                let metadata = block_on(handle(slot)?.metadata(key)).map_err(told)?;
                Ok(format!("{} {} {}", metadata.name, metadata.data_size, metadata.custom_props.len()))
            }
            Call::List(slot) => {
                let mut keys = block_on(handle(slot)?.list()).map_err(told)?;
                keys.sort();
                Ok(format!("{keys:?}"))
            }
            Call::Len(slot) => block_on(handle(slot)?.len()).map(|length| length.to_string()).map_err(told),
            Call::IsEmpty(slot) => block_on(handle(slot)?.is_empty()).map(|empty| empty.to_string()).map_err(told),
            Call::FilePath(slot, key) => {
                let path = handle(slot)?.file_path(key).map_err(told)?;
                Ok(path.strip_prefix(&self.root).expect("a path below the root").display().to_string())
            }
            Call::DirPath(slot) => {
                Ok(handle(slot)?.dir_path().strip_prefix(&self.root).expect("a path below the root").display().to_string())
            }
            Call::Write(slot, key, content) => {
                let (handle, open) = (handle(slot)?, open.as_mut().ok_or("no transaction".to_string())?);
                block_on(handle.write(open, key, &mut &content[..])).map(done).map_err(told)
            }
            Call::BrokenWrite(slot, key, content) => {
                let (handle, open) = (handle(slot)?, open.as_mut().ok_or("no transaction".to_string())?);
                block_on(handle.write(open, key, &mut Broken(content))).map(done).map_err(told)
            }
            Call::Delete(slot, key) => {
                let (handle, open) = (handle(slot)?, open.as_mut().ok_or("no transaction".to_string())?);
                block_on(handle.delete(open, key)).map(done).map_err(told)
            }
            Call::DeleteUnawaited(slot, key) => {
                drop(handle(slot)?.delete(open.as_mut().ok_or("no transaction".to_string())?, key));
                Ok(String::new())
            }
            Call::DeleteAll(slot) => {
                let (handle, open) = (handle(slot)?, open.as_mut().ok_or("no transaction".to_string())?);
                block_on(handle.delete_all(open)).map(done).map_err(told)
            }
            Call::Provision(..) | Call::Reopen => unreachable!("no call of a trait"),
        }
    }
}

/// A stream that fails at its end.
struct Broken<'a>(&'a [u8]);

impl Read for Broken<'_> {
    fn read(&mut self, buffer: &mut [u8]) -> io::Result<usize> {
        match self.0.read(buffer)? {
            0 => Err(io::ErrorKind::ConnectionReset.into()),
            length => Ok(length),
        }
    }
}

#[cfg(feature = "real")]
impl tokio::io::AsyncRead for Broken<'_> {
    fn poll_read(
        mut self: std::pin::Pin<&mut Self>,
        _: &mut std::task::Context,
        buffer: &mut tokio::io::ReadBuf,
    ) -> std::task::Poll<io::Result<()>> {
        let read = self.read(buffer.initialize_unfilled());
        std::task::Poll::Ready(read.map(|length| buffer.advance(length)))
    }
}

fn named(name: &str) -> CollectionName {
    CollectionName::Custom(name.to_string())
}

/// An error's variant, with what it names. The texts of the others are each one's own.
fn told(error: StorageError) -> String {
    match error {
        StorageError::CollectionNotFound(name) => format!("CollectionNotFound {name:?}"),
        StorageError::KeyNotFound(key) => format!("KeyNotFound {key:?}"),
        StorageError::TransactionConflict(what) => format!("TransactionConflict {what:?}"),
        StorageError::TransactionBusy => "TransactionBusy".to_string(),
        StorageError::PermissionDenied(_) => "PermissionDenied".to_string(),
        StorageError::NoSpaceLeft(_) => "NoSpaceLeft".to_string(),
        StorageError::Io(_) => "Io".to_string(),
        StorageError::Corruption(_) => "Corruption".to_string(),
        StorageError::ReadOnly(_) => "ReadOnly".to_string(),
        StorageError::Other(_) => "Other".to_string(),
    }
}
