//! The update rotation on disk.
use super::{FileStore, StoreError, state::State, state::lock};
use crate::{Contents, Image, Refusal};

/// The three collections of a rotation. Document 02 calls them `current`, `next` and `backup`, and those are the default; with other names the
/// same operations are recorded.
#[derive(Clone, PartialEq, Eq, Hash, Debug)]
pub struct Rotation {
    /// What is in use.
    pub current: String,
    /// What takes its place, and goes.
    pub next: String,
    /// Where what was in use is kept.
    pub backup: String,
}

impl Default for Rotation {
    fn default() -> Rotation {
        Rotation { current: "current".into(), next: "next".into(), backup: "backup".into() }
    }
}

impl Rotation {
    /// Why a rotation of this store is turned away before anything is recorded, if it is.
    fn turned_away(&self, image: &Image) -> Option<Refusal> {
        if *self == Rotation::default() {
            return image.rotate().err().filter(|error| error.image.is_none()).map(|error| error.refusal);
        }
        let directories = image.contents().directories;
        let has_file = directories.get(&self.next).is_some_and(|files| !files.is_empty());
        match image.begin() {
            Err(refusal) => Some(refusal),
            Ok(_) if !directories.contains_key(&self.current) => Some(Refusal::CurrentMissing),
            Ok(_) => (!has_file).then_some(Refusal::NextMissing),
        }
    }
}

impl FileStore {
    /// Whether a rotation can be begun: [`Refusal::TransactionBusy`], [`Refusal::HeldUpdate`], [`Refusal::CurrentMissing`] and
    /// [`Refusal::NextMissing`] say why not. Nothing is changed.
    pub fn may_rotate(&self, names: &Rotation) -> Result<(), StoreError> {
        let open = lock(&self.status).state == State::Recording;
        let image = Contents { open, ..self.scanned()? }.image()?;
        names.turned_away(&image).map_or(Ok(()), |refusal| Err(refusal.into()))
    }

    /// The update rotation: copies `current` to `backup` and `next` to `current`, and deletes `next`, as one transaction. Turned away as
    /// [`FileStore::may_rotate`] says; a commit that is refused leaves what stood before.
    pub fn rotate(&self, names: &Rotation) -> Result<(), StoreError> {
        self.may_rotate(names)?;
        let mut transaction = self.begin()?;
        transaction.copy_collection(&names.current, &names.backup)?;
        transaction.copy_collection(&names.next, &names.current)?;
        transaction.delete_collection(&names.next)?;
        transaction.commit()
    }
}
