//! Why recovery leaves a file neither as before nor as after. The cases are those of docs/FINDINGS.md.
use crate::cuts::Change;
use cda_store::Contents;

#[derive(Clone, Copy, PartialEq, Eq, PartialOrd, Ord, Debug)]
pub enum Why {
    Unmarked,
    BackupName,
    StagingName,
    Written,
    Made,
    Unknown,
}

impl Why {
    /// A few words for a table.
    pub fn words(self) -> &'static str {
        match self {
            Why::Unmarked => "no mark and no backup",
            Why::BackupName => "a name in .bak",
            Why::StagingName => "a name in .tmp",
            Why::Written => "written by this update",
            Why::Made => "made by this update",
            Why::Unknown => "two operations meet",
        }
    }

    pub fn sentence(self) -> &'static str {
        match self {
            Why::Unmarked => {
                "the log has no mark that this key was there, and no .bak of it stands. Recovery takes such a key for new and removes it. Logs of older \
                 versions have no marks; in this version's, a put lacks it where a delete of the same update then gave the key's file its lower case."
            }
            Why::BackupName => "recovery takes every file and collection whose name ends in .bak for a backup.",
            Why::StagingName => "recovery from an interrupted commit removes every file whose name ends in .tmp.",
            Why::Written => {
                "a second backup replaced the first, or a collection's backup holds what was written before; recovery restores that."
            }
            Why::Made => "recovery leaves a collection that a write made, and the first of two copies to one name.",
            Why::Unknown => "two operations of this update meet at this name; docs/FINDINGS.md tells such cases.",
        }
    }
}

/// A cut: what stands before the commit, and at the cut.
pub struct Scene<'a> {
    pub before: &'a Contents,
    pub cut: Contents,
}

impl Scene<'_> {
    /// The reason, from the path and the number that recovery leaves there.
    pub fn why(&self, change: Change, path: &str, found: Option<&u32>) -> Why {
        let (directory, file) = path.split_once('/').unwrap_or((path, ""));
        let backup = format!("{file}.bak");
        match change {
            _ if [directory, file].into_iter().any(|name| has_extension(name, ".bak")) => Why::BackupName,
            Change::Lost if has_extension(file, ".tmp") => Why::StagingName,
            Change::Lost if self.cut.has(directory, file) && !self.cut.has(directory, &backup) => Why::Unmarked,
            _ if self.before.staging.values().any(|staged| Some(staged) == found) => Why::Written,
            Change::Kept if !self.before.directories.contains_key(directory) => Why::Made,
            Change::Changed if self.before.has(directory, &backup) => Why::BackupName,
            _ => Why::Unknown,
        }
    }
}

fn has_extension(name: &str, extension: &str) -> bool {
    name.len() > extension.len() && name.ends_with(extension)
}
