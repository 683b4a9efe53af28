//! A transaction on a store on disk.
use super::{
    carry_out::carry_out,
    error::StoreError,
    staging::Staging,
    state::{Handle, State, lock},
};
use crate::{
    Refusal,
    entries::{CommitError, Plan},
    image::{Contents, Image},
    step::Step,
};
use std::{io::Read, ptr};

/// An open transaction. Nothing of what it records shows before [`Transaction::commit`]; dropped without it, it is rolled back.
///
/// A refused call records nothing, and the transaction goes on. A failed file call stops the store
/// ([`StoreError::Stopped`]), except where the content to write could not be read or staged: then that Write alone is not
/// recorded.
///
/// One of [`FileStore::begin`](crate::FileStore::begin) borrows its store; one of [`FileStore::begin_shared`](crate::FileStore::begin_shared) is
/// a `Transaction<'static>`. Both are `Send` and `Sync`.
#[derive(Debug)]
pub struct Transaction<'a> {
    store: Handle<'a>,
    era: u64,
    image: Image,
    ended: bool,
}

impl<'a> Transaction<'a> {
    pub(super) fn new(store: Handle<'a>, era: u64, image: Image) -> Transaction<'a> {
        Transaction { store, era, image, ended: false }
    }

    /// Whether the transaction can go on: neither was the store stopped nor recovered since.
    fn running(&self) -> Result<(), StoreError> {
        if lock(&self.store.status).goes_on(self.era) { Ok(()) } else { Err(StoreError::Stopped) }
    }

    /// The transaction is over.
    fn free(&self) {
        lock(&self.store.status).state = State::Idle;
    }

    /// The image of the store with what was recorded so far.
    pub fn image(&self) -> &Image {
        &self.image
    }

    /// Records the creation of a collection.
    pub fn create_collection(&mut self, name: &str) -> Result<(), StoreError> {
        self.record(|image| image.create_collection(name))
    }

    /// Records the deletion of a collection.
    pub fn delete_collection(&mut self, name: &str) -> Result<(), StoreError> {
        self.record(|image| image.delete_collection(name))
    }

    /// Records the copy of a collection, which replaces its destination. A collection copied onto itself ends empty.
    pub fn copy_collection(&mut self, source: &str, destination: &str) -> Result<(), StoreError> {
        self.record(|image| image.copy_collection(source, destination))
    }

    /// Stages the content and records a Write of it to the key, which is lowered.
    pub fn write(&mut self, collection: &str, key: &str, mut content: impl Read) -> Result<(), StoreError> {
        let mut staging = self.stage(collection, key)?;
        staging.fill(&mut content)?;
        self.write_staged(staging)
    }

    /// Makes a staging file for a Write to the key, or refuses that Write. Where content comes piece by piece, it is written to what is handed
    /// back, and then recorded by [`Transaction::write_staged`]; until then another can't be made.
    pub fn stage(&self, collection: &str, key: &str) -> Result<Staging<'a>, StoreError> {
        self.running()?;
        let (staged, number) = self.image.contents().unused();
        self.image.write(collection, key, &staged, number)?;
        let path = self.store.layout.staged(&staged);
        self.store.layout.calls.make_file(&path).map_err(StoreError::at(&path))?;
        let (collection, key) = (collection.to_string(), key.to_string());
        Ok(Staging { store: self.store.clone(), era: self.era, collection, key, staged, number, own: true })
    }

    /// Records the Write of content that this transaction has staged. [`Refusal::StagingRefused`] if it is another's, or a call failed.
    pub fn write_staged(&mut self, mut content: Staging) -> Result<(), StoreError> {
        self.running()?;
        let Staging { store, era, collection, key, staged, number, own } = &content;
        if !own || *era != self.era || !ptr::eq(&**store, &*self.store) {
            return Err(Refusal::StagingRefused.into());
        }
        let image = self.image.write(collection, key, staged, *number)?;
        content.own = false;
        self.append(image)
    }

    /// Records the deletion of a key, which is lowered. A file of that name in other letter cases is renamed at once, and a
    /// rollback leaves it so, as in the original. The collection is synced then: all of the store is on the disk when a commit starts.
    pub fn delete(&mut self, collection: &str, key: &str) -> Result<(), StoreError> {
        self.running()?;
        let image = self.image.delete(collection, key)?;
        self.rename_cases(image, collection)
    }

    /// Records the deletion of 1 to 32 keys, all or none: where one of them can't be deleted, nothing is renamed or recorded. Each is lowered,
    /// and a repeated one counts once. Files of these names in other letter cases are renamed as by [`Transaction::delete`].
    pub fn delete_keys(&mut self, collection: &str, keys: &[impl AsRef<str>]) -> Result<(), StoreError> {
        self.running()?;
        let image = self.image.delete_keys(collection, keys)?;
        self.rename_cases(image, collection)
    }

    /// Records the deletion of all files of a collection.
    pub fn delete_all(&mut self, collection: &str) -> Result<(), StoreError> {
        self.record(|image| image.delete_all(collection))
    }

    /// Applies what was recorded. On [`Refusal::StepFailed`] and [`Refusal::StoreFull`], which are known before the first step,
    /// the transaction is discarded, and no collection is touched. Where a file call failed behind the step that removes the log,
    /// the commit stands, and the next open only clears up.
    pub fn commit(self) -> Result<(), StoreError> {
        let committed = self.image.commit();
        self.carry_out(Plan::Commit, committed)
    }

    /// Applies what was recorded and holds it: its log and the backups stay, and no other transaction can be begun, until
    /// [`FileStore::keep`] accepts it or [`FileStore::revert`] takes it back. It is refused as [`Transaction::commit`] is. Where a file call
    /// failed behind the step that marks the log Held, the update is held.
    pub fn hold(self) -> Result<(), StoreError> {
        let held = self.image.hold();
        self.carry_out(Plan::Hold, held)
    }

    /// Carries out a commit, held or not, or discards one that is refused.
    fn carry_out(mut self, plan: Plan, answer: Result<Image, CommitError>) -> Result<(), StoreError> {
        self.running()?;
        if let Err(error) = answer {
            self.discard()?;
            return Err(StoreError::Refused(error.refusal));
        }
        self.ended = true;
        self.store.run(plan, &self.image)?;
        self.free();
        Ok(())
    }

    /// Discards what was recorded.
    pub fn rollback(mut self) -> Result<(), StoreError> {
        self.running()?;
        self.discard()
    }

    /// Carries out the case renames that the new image shows, syncs their collection, and appends to the log.
    fn rename_cases(&mut self, image: Image, collection: &str) -> Result<(), StoreError> {
        let renames = case_renames(&self.image.contents(), &image.contents(), collection);
        if !renames.is_empty() {
            let _alone = self.store.alone();
            let layout = &self.store.layout;
            let renamed = renames.iter().try_for_each(|rename| carry_out(layout, rename, &image));
            self.store.stop_at_error(renamed.and_then(|()| layout.sync(&layout.directory(collection))))?;
        }
        self.append(image)
    }

    fn record(&mut self, call: impl FnOnce(&Image) -> Result<Image, Refusal>) -> Result<(), StoreError> {
        self.running()?;
        let image = call(&self.image)?;
        self.append(image)
    }

    /// Appends to the log file what the new image's log has more than the old one.
    fn append(&mut self, image: Image) -> Result<(), StoreError> {
        let (old, new) = (self.image.contents().log.unwrap_or_default(), image.contents().log.unwrap_or_default());
        let log = self.store.layout.log();
        let appended = {
            let _alone = self.store.alone();
            self.store.layout.calls.append(&log, &new[old.len()..])
        };
        self.store.stop_at_error(appended.map_err(StoreError::at(&log)))?;
        self.image = image;
        Ok(())
    }

    /// Removes the staging files, then the log, as the original's `discard` does.
    fn discard(&mut self) -> Result<(), StoreError> {
        self.ended = true;
        let after = self.image.rollback()?;
        let alone = self.store.alone();
        let staged = self.image.contents().staging.into_keys().map(|staged| Step::RemoveStaging { staged });
        for step in staged.chain([Step::RemoveLog]) {
            self.store.stop_at_error(carry_out(&self.store.layout, &step, &after))?;
        }
        drop(alone);
        self.free();
        Ok(())
    }
}

impl Drop for Transaction<'_> {
    /// Rolls back; where that fails, the store is stopped.
    fn drop(&mut self) {
        if !self.ended && self.running().is_ok() {
            let _ = self.discard();
        }
    }
}

/// The renames by which Deletes give their keys the lowered names, as far as the image shows them.
fn case_renames(before: &Contents, after: &Contents, collection: &str) -> Vec<Step> {
    let (Some(before), Some(after)) = (before.directories.get(collection), after.directories.get(collection)) else { return Vec::new() };
    let gone = before.keys().filter(|name| !after.contains_key(*name));
    let rename = |from: &String| Step::RenameFile { directory: collection.to_string(), from: from.clone(), to: from.to_ascii_lowercase() };
    gone.map(rename).collect()
}
