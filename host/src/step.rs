//! A file step: document 01, 'Listings and file steps'.
use crate::field;
use std::fmt;

/// One file step of a plan, with the names of its field in their order.
#[allow(missing_docs)]
#[derive(Clone, PartialEq, Eq, Hash, Debug)]
pub enum Step {
    /// 0x20. The log's header is rewritten: it says Committing.
    RewriteHeader,
    /// 0x20 too, in a held commit, where the image after the step has a Held log: the header is rewritten and says so.
    MarkHeld,
    /// 0x21. Every staging file is synced.
    SyncStaging,
    /// 0x22. The log is synced.
    SyncLog,
    /// 0x23. A collection's directory is made.
    MakeDirectory { directory: String },
    /// 0x24. A file is renamed within its directory and replaces what stands there.
    RenameFile { directory: String, from: String, to: String },
    /// 0x25. A staging file is moved into a collection and replaces what stands there.
    MoveStaged { staged: String, directory: String, key: String },
    /// 0x26. A directory is renamed.
    RenameDirectory { from: String, to: String },
    /// 0x27. A file is copied to another directory under its name.
    CopyFile { source: String, destination: String, file: String },
    /// 0x28. A file is removed.
    RemoveFile { directory: String, file: String },
    /// 0x29. A directory and what it holds are removed.
    RemoveDirectory { directory: String },
    /// 0x2B. The log is removed.
    RemoveLog,
    /// 0x2C. A staging file is removed.
    RemoveStaging { staged: String },
    /// 0x2D. A collection's directory is synced.
    SyncDirectory { directory: String },
    /// 0x2D of length 0. The directory of the collections is synced.
    SyncCollections,
    /// 0x2E. The journal's directory is synced.
    SyncJournal,
}

impl Step {
    /// Reads a step field as the port writes it. Of 0x20 it does not say which header is meant: [`Step::RewriteHeader`].
    pub fn from_field(mut bytes: &[u8]) -> Option<Step> {
        let (tag, value) = field::take(&mut bytes)?;
        let parts = value.split(|byte| *byte == 0).filter(|part| !part.is_empty());
        let mut names = parts.map(field::name).collect::<Option<Vec<_>>>()?.into_iter();
        let empty = value.is_empty();
        let mut name = || names.next();
        let step = match tag {
            0x20 => Step::RewriteHeader,
            0x21 => Step::SyncStaging,
            0x22 => Step::SyncLog,
            0x23 => Step::MakeDirectory { directory: name()? },
            0x24 => Step::RenameFile { directory: name()?, from: name()?, to: name()? },
            0x25 => Step::MoveStaged { staged: name()?, directory: name()?, key: name()? },
            0x26 => Step::RenameDirectory { from: name()?, to: name()? },
            0x27 => Step::CopyFile { source: name()?, destination: name()?, file: name()? },
            0x28 => Step::RemoveFile { directory: name()?, file: name()? },
            0x29 => Step::RemoveDirectory { directory: name()? },
            0x2B => Step::RemoveLog,
            0x2C => Step::RemoveStaging { staged: name()? },
            0x2D if empty => Step::SyncCollections,
            0x2D => Step::SyncDirectory { directory: name()? },
            0x2E => Step::SyncJournal,
            _ => return None,
        };
        (name().is_none() && bytes.is_empty()).then_some(step)
    }

    /// The step's field, as the port writes it.
    pub fn field(&self) -> Vec<u8> {
        let (tag, names): (u8, Vec<&String>) = match self {
            Step::RewriteHeader | Step::MarkHeld => (0x20, vec![]),
            Step::SyncStaging => (0x21, vec![]),
            Step::SyncLog => (0x22, vec![]),
            Step::MakeDirectory { directory } => (0x23, vec![directory]),
            Step::RenameFile { directory, from, to } => (0x24, vec![directory, from, to]),
            Step::MoveStaged { staged, directory, key } => (0x25, vec![staged, directory, key]),
            Step::RenameDirectory { from, to } => (0x26, vec![from, to]),
            Step::CopyFile { source, destination, file } => (0x27, vec![source, destination, file]),
            Step::RemoveFile { directory, file } => (0x28, vec![directory, file]),
            Step::RemoveDirectory { directory } => (0x29, vec![directory]),
            Step::RemoveLog => (0x2B, vec![]),
            Step::RemoveStaging { staged } => (0x2C, vec![staged]),
            Step::SyncDirectory { directory } => (0x2D, vec![directory]),
            Step::SyncCollections => (0x2D, vec![]),
            Step::SyncJournal => (0x2E, vec![]),
        };
        let value = names.iter().map(|name| name.as_bytes()).collect::<Vec<_>>().join(&0);
        let mut field = Vec::new();
        field::put(&mut field, tag, &[&value]);
        field
    }
}

impl fmt::Display for Step {
    fn fmt(&self, f: &mut fmt::Formatter) -> fmt::Result {
        match self {
            Step::RewriteHeader => write!(f, "mark the log Committing"),
            Step::MarkHeld => write!(f, "mark the log Held"),
            Step::SyncStaging => write!(f, "sync the staging files"),
            Step::SyncLog => write!(f, "sync the log"),
            Step::MakeDirectory { directory } => write!(f, "make directory {directory}"),
            Step::RenameFile { directory, from, to } => write!(f, "rename {directory}/{from} to {directory}/{to}"),
            Step::MoveStaged { staged, directory, key } => write!(f, "move staged {staged} to {directory}/{key}"),
            Step::RenameDirectory { from, to } => write!(f, "rename directory {from} to {to}"),
            Step::CopyFile { source, destination, file } => write!(f, "copy {source}/{file} to {destination}/{file}"),
            Step::RemoveFile { directory, file } => write!(f, "remove {directory}/{file}"),
            Step::RemoveDirectory { directory } => write!(f, "remove directory {directory}"),
            Step::RemoveLog => write!(f, "remove the log"),
            Step::RemoveStaging { staged } => write!(f, "remove staged {staged}"),
            Step::SyncDirectory { directory } => write!(f, "sync directory {directory}"),
            Step::SyncCollections => write!(f, "sync the collections"),
            Step::SyncJournal => write!(f, "sync the journal"),
        }
    }
}
