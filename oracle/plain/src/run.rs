//! Commit, held or not, recovery, keep and revert, step by step and up to a cut. Document 01, local_storage.rs and recovery.rs; document 02, items 4
//! and 6.
use crate::image::Image;
use crate::log::{Operation, Status};
use crate::name::{Name, backup, is_backup, is_tmp, original};
use crate::step::Step::{self, *};

/// Why a run goes no further: it was cut, or a commit's step failed with 14 or 15.
pub enum Stop {
    Cut,
    Fault(u32),
}

/// A store under its steps. `left` is how many may still be done, `last` the last one that was.
pub struct Run {
    pub image: Image,
    pub left: u64,
    pub last: Option<Step>,
}

impl Run {
    fn step(&mut self, step: Step) -> Result<(), Stop> {
        self.left = self.left.checked_sub(1).ok_or(Stop::Cut)?;
        step.apply(&mut self.image);
        self.last = Some(step);
        Ok(())
    }

    /// A step of an operation, which may fail; then it changes nothing and isn't counted.
    fn attempt(&mut self, step: Step) -> Result<(), Stop> {
        step.fault(&self.image).map_or(Ok(()), |number| Err(Stop::Fault(number)))?;
        self.step(step)
    }

    fn stands(&self, dir: &[u8]) -> bool {
        self.image.dirs.contains_key(dir)
    }

    fn dirs(&self) -> Vec<Name> {
        self.image.dirs.keys().cloned().collect()
    }

    fn files(&self, dir: &[u8]) -> Vec<Name> {
        self.image.dirs[dir].keys().cloned().collect()
    }

    fn make_directory(&mut self, dir: &Name) -> Result<(), Stop> {
        if self.stands(dir) { Ok(()) } else { self.attempt(MakeDirectory(dir.clone())) }
    }

    fn back_up_file(&mut self, dir: &Name, file: &Name) -> Result<(), Stop> {
        if !self.image.has(dir, file) {
            return Ok(());
        }
        self.attempt(RenameFile(dir.clone(), file.clone(), backup(file)))
    }

    fn back_up_directory(&mut self, dir: &Name) -> Result<(), Stop> {
        if !self.stands(dir) {
            return Ok(());
        }
        self.attempt(RenameDirectory(dir.clone(), backup(dir)))
    }

    fn apply(&mut self, operation: &Operation) -> Result<(), Stop> {
        match operation {
            Operation::Write { collection, key, staged, .. } => {
                self.make_directory(collection)?;
                self.back_up_file(collection, key)?;
                self.attempt(MoveStaged(staged.clone(), collection.clone(), key.clone()))
            }
            Operation::Delete { collection, key } => self.back_up_file(collection, key),
            Operation::DeleteAll { collection } if self.stands(collection) => {
                self.files(collection).iter().try_for_each(|file| self.back_up_file(collection, file))
            }
            Operation::DeleteAll { .. } => Ok(()),
            Operation::CreateCollection { name } => self.make_directory(name),
            Operation::DeleteCollection { name } => self.back_up_directory(name),
            Operation::CopyCollection { source, dest, .. } => {
                self.back_up_directory(dest)?;
                self.make_directory(dest)?;
                if !self.stands(source) {
                    return Err(Stop::Fault(14));
                }
                self.files(source).into_iter().try_for_each(|file| self.attempt(CopyFile(source.clone(), dest.clone(), file)))
            }
        }
    }

    /// Removes what the operations made anew, the last one's first; then brings back every backup.
    fn undo(&mut self, operations: &[Operation]) -> Result<(), Stop> {
        for operation in operations.iter().rev() {
            match operation {
                Operation::Write { collection, key, mark, .. } if self.image.is_new(collection, key, *mark) => {
                    self.step(RemoveFile(collection.clone(), key.clone()))?
                }
                Operation::CreateCollection { name } if self.image.dirs.get(name).is_some_and(|files| files.is_empty()) => {
                    self.step(RemoveDirectory(name.clone()))?
                }
                Operation::CopyCollection { dest, existed: false, .. } if self.stands(dest) && !self.stands(&backup(dest)) => {
                    self.step(RemoveDirectory(dest.clone()))?
                }
                _ => {}
            }
        }
        for dir in self.dirs() {
            if is_backup(&dir) {
                let original = original(&dir);
                if self.stands(&original) {
                    self.step(RemoveDirectory(original.clone()))?;
                }
                self.step(RenameDirectory(dir, original))?;
                continue;
            }
            for file in self.files(&dir) {
                if is_backup(&file) {
                    let original = original(&file);
                    if self.image.has(&dir, &original) {
                        self.step(RemoveFile(dir.clone(), original.clone()))?;
                    }
                    self.step(RenameFile(dir.clone(), file, original))?;
                } else if is_tmp(&file) {
                    self.step(RemoveFile(dir.clone(), file))?;
                }
            }
        }
        Ok(())
    }

    fn remove_backups(&mut self) -> Result<(), Stop> {
        for dir in self.dirs() {
            if is_backup(&dir) {
                self.step(RemoveDirectory(dir))?;
                continue;
            }
            for file in self.files(&dir) {
                if is_backup(&file) {
                    self.step(RemoveFile(dir.clone(), file))?;
                }
            }
        }
        Ok(())
    }

    fn remove_staging(&mut self) -> Result<(), Stop> {
        let staged: Vec<Name> = self.image.staging.keys().cloned().collect();
        staged.into_iter().try_for_each(|file| self.step(RemoveStaging(file)))
    }

    /// The answer's number: 0, 14 or 15. 02, item 6: "A held commit that fails rolls back as before."
    pub fn commit(&mut self, operations: &[Operation], hold: bool) -> Result<u32, Stop> {
        self.step(RewriteHeader(Status::Committing))?;
        self.step(SyncStaging)?;
        self.step(SyncLog)?;
        let number = match operations.iter().try_for_each(|o| self.apply(o)) {
            Ok(()) => 0,
            Err(Stop::Fault(number)) => number,
            Err(Stop::Cut) => return Err(Stop::Cut),
        };
        if number == 0 {
            for (i, operation) in operations.iter().enumerate() {
                let dir = operation.named();
                let named_before = operations[..i].iter().any(|o| o.named() == dir);
                if !named_before && self.stands(dir) {
                    self.step(SyncDirectory(dir.clone()))?;
                }
            }
            self.step(SyncCollections)?;
        } else {
            self.undo(operations)?;
        }
        if number == 0 && hold {
            // "in place of removing the log and syncing the journal it rewrites the header with status 0x02, Held [..], syncs the log, and keeps
            // log and backups; it then clears staging, and the open mark goes with its last step"
            self.step(RewriteHeader(Status::Held))?;
            self.step(SyncLog)?;
        } else {
            self.step(RemoveLog)?;
            self.step(SyncJournal)?;
            if number == 0 {
                self.remove_backups()?;
            }
        }
        self.remove_staging()?;
        self.image.open = false;
        Ok(number)
    }

    /// 02, item 6: "Keep [..] removes the log and syncs the journal, then removes every backup as recovery without a log does; it reads no
    /// entry."
    pub fn keep(&mut self) -> Result<(), Stop> {
        self.step(RemoveLog)?;
        self.step(SyncJournal)?;
        self.remove_backups()
    }

    /// Recovery that isn't refused. `undone` are the operations of a whole Committing log.
    pub fn recover(&mut self, status: Recovery) -> Result<(), Stop> {
        match status {
            Recovery::Undo(operations) => self.undo(&operations)?,
            Recovery::Discard => {}
            Recovery::NoLog => self.remove_backups()?,
            // "drops the open mark and clears staging, no more"
            Recovery::Held => return self.remove_staging(),
        }
        if self.image.log.is_some() {
            self.step(RemoveLog)?;
        }
        self.remove_staging()
    }
}

/// What recovery does before it removes log and staging files.
pub enum Recovery {
    Undo(Vec<Operation>),
    Discard,
    NoLog,
    Held,
}
