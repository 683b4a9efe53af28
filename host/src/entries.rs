//! The entries of the port as methods of [`Image`]. They are pure: an image goes in, an answer comes out, and no file is
//! touched. Those that read a log are behind [`Log`](crate::Log).
use crate::{
    Refusal, field,
    image::Image,
    log::Cause,
    step::Step,
    synced::{self, Syncs},
};
use cda_storage_sys::{self as sys, HIT_ROOM, IMAGE_ROOM, INVENTORY_ROOM, KEYS_ROOM, Output, STEP_ROOM};
use std::{error::Error, fmt};

/// A commit that was refused. 14 and 15 also hand back the rolled-back image.
#[derive(Clone, PartialEq, Eq, Debug)]
pub struct CommitError {
    /// Why.
    pub refusal: Refusal,
    /// The image after the rollback, for [`Refusal::StepFailed`] and [`Refusal::StoreFull`].
    pub image: Option<Image>,
}

impl fmt::Display for CommitError {
    fn fmt(&self, f: &mut fmt::Formatter) -> fmt::Result {
        self.refusal.fmt(f)
    }
}

impl Error for CommitError {}

/// What a recovery or a revert leaves.
#[derive(Clone, PartialEq, Eq, Debug)]
pub struct Recovered {
    /// The image.
    pub image: Image,
    /// How the log broke, if a truncated one was discarded.
    pub cause: Option<Cause>,
}

/// A backup that stands.
#[derive(Clone, PartialEq, Eq, Hash, Debug)]
pub enum Backup {
    /// A file.
    File {
        /// Its collection's name.
        collection: String,
        /// Its own.
        name: String,
        /// Its content number.
        number: u32,
    },
    /// A collection's directory.
    Directory(String),
}

impl fmt::Display for Backup {
    fn fmt(&self, f: &mut fmt::Formatter) -> fmt::Result {
        match self {
            Backup::File { collection, name, .. } => write!(f, "{collection}/{name}"),
            Backup::Directory(name) => write!(f, "{name}/"),
        }
    }
}

/// The plans of file steps.
#[derive(Clone, Copy, PartialEq, Eq, Hash, Debug)]
pub enum Plan {
    /// What a commit does, or a failing commit and its rollback.
    Commit,
    /// What a recovery does.
    Recover,
    /// What a held commit does, or a failing one and its rollback.
    Hold,
    /// What a keep does.
    Keep,
    /// What a revert does.
    Revert,
}

/// A step that was asked for: its number, what it does, and the image behind it.
#[derive(Clone, PartialEq, Eq, Debug)]
pub struct Stepped {
    /// The step's number, from 1.
    pub number: u64,
    /// What it does.
    pub step: Step,
    /// The image after this step.
    pub image: Image,
    /// What is synced before this step and behind it beside the plan's own syncs, for a loss of power.
    pub syncs: Syncs,
}

/// The steps of a plan, in order. It ends behind the last one; a refusal of the whole plan comes as its only item.
#[derive(Clone, Debug)]
pub struct Steps<'a> {
    image: &'a Image,
    plan: Plan,
    number: u64,
    over: bool,
}

impl Steps<'_> {
    /// The step that the iterator has come to, with its syncs. The first one finds the image that the plan starts from; the log's removal leaves
    /// the collections that it finds.
    fn stepped(&self, step: Step, image: Image) -> Stepped {
        let fails = step == Step::RemoveLog
            && match self.plan {
                Plan::Commit => self.image.commit().is_err(),
                Plan::Hold => self.image.hold().is_err(),
                Plan::Recover | Plan::Keep | Plan::Revert => false,
            };
        let found = if self.number == 1 { self.image.contents() } else { image.contents() };
        let syncs = synced::around(self.plan, fails, self.number, &step, &found);
        Stepped { number: self.number, step, image, syncs }
    }
}

impl Iterator for Steps<'_> {
    type Item = Result<Stepped, Refusal>;

    fn next(&mut self) -> Option<Self::Item> {
        if self.over {
            return None;
        }
        self.number += 1;
        let number = self.number;
        match self.image.step(self.plan, number) {
            Ok((image, step)) => step.map(|step| Ok(self.stepped(step, image))),
            Err(refusal) => {
                self.over = true;
                (refusal != Refusal::PastTheEnd).then_some(Err(refusal))
            }
        }
    }
}

impl Image {
    /// Begins a transaction.
    pub fn begin(&self) -> Result<Image, Refusal> {
        answer(|out| sys::begin(self.bytes(), out))
    }

    /// Records a Write of staged content to a key. The staging file is added with this content number.
    pub fn write(&self, collection: &str, key: &str, staged: &str, number: u32) -> Result<Image, Refusal> {
        answer(|out| sys::write(self.bytes(), collection.as_bytes(), key.as_bytes(), staged.as_bytes(), number, out))
    }

    /// Records a Delete. A file of that name in other letter cases is renamed to the lowered key at once.
    pub fn delete(&self, collection: &str, key: &str) -> Result<Image, Refusal> {
        answer(|out| sys::delete(self.bytes(), collection.as_bytes(), key.as_bytes(), out))
    }

    /// Records a Delete of each of 1 to 32 keys, all or none. Each is lowered, and a repeated one counts once, at its first place. Files of
    /// these names in other letter cases are renamed to the lowered keys at once.
    pub fn delete_keys(&self, collection: &str, keys: &[impl AsRef<str>]) -> Result<Image, Refusal> {
        let mut fields = Vec::new();
        for key in keys.iter().map(|key| key.as_ref().as_bytes()) {
            if key.len() > usize::from(u16::MAX) {
                return Err(Refusal::InvalidName);
            }
            field::put(&mut fields, 0x03, &[key]);
        }
        answer(|out| sys::delete_keys(self.bytes(), collection.as_bytes(), &fields, out))
    }

    /// Records the deletion of all files of a collection.
    pub fn delete_all(&self, collection: &str) -> Result<Image, Refusal> {
        answer(|out| sys::delete_all(self.bytes(), collection.as_bytes(), out))
    }

    /// Records the creation of a collection.
    pub fn create_collection(&self, name: &str) -> Result<Image, Refusal> {
        answer(|out| sys::create_collection(self.bytes(), name.as_bytes(), out))
    }

    /// Records the deletion of a collection.
    pub fn delete_collection(&self, name: &str) -> Result<Image, Refusal> {
        answer(|out| sys::delete_collection(self.bytes(), name.as_bytes(), out))
    }

    /// Records the copy of a collection, which replaces its destination.
    pub fn copy_collection(&self, source: &str, destination: &str) -> Result<Image, Refusal> {
        answer(|out| sys::copy_collection(self.bytes(), source.as_bytes(), destination.as_bytes(), out))
    }

    /// Commits the transaction, whole.
    pub fn commit(&self) -> Result<Image, CommitError> {
        committed(|out| sys::commit(self.bytes(), out))
    }

    /// Commits the transaction, whole, and holds it: its log stays, marked Held, and so do the backups, until it is kept or reverted.
    pub fn hold(&self) -> Result<Image, CommitError> {
        committed(|out| sys::hold(self.bytes(), out))
    }

    /// The update rotation, whole: copies the collection `current` to `backup` and `next` to `current`, and deletes `next`, as one
    /// transaction. [`Refusal::CurrentMissing`] and [`Refusal::NextMissing`] come before anything is recorded.
    pub fn rotate(&self) -> Result<Image, CommitError> {
        committed(|out| sys::rotate(self.bytes(), out))
    }

    /// Whether an update is held.
    pub fn is_held(&self) -> Result<bool, Refusal> {
        match self.step(Plan::Keep, 0) {
            Err(Refusal::NothingHeld) => Ok(false),
            at_the_start => at_the_start.map(|_| true),
        }
    }

    /// Accepts the held update, whole. After a part of a revert's steps this loses keys.
    pub fn keep(&self) -> Result<Image, Refusal> {
        answer(|out| sys::keep(self.bytes(), out))
    }

    /// Takes the held update back, whole. Who carries out its steps must finish what was begun: see [`Image::keep`].
    pub fn revert(&self) -> Result<Recovered, Refusal> {
        let mut cause = 0;
        let image = answer(|out| sys::revert(self.bytes(), out, &mut cause))?;
        Ok(Recovered { image, cause: Cause::from_number(cause) })
    }

    /// Discards the transaction.
    pub fn rollback(&self) -> Result<Image, Refusal> {
        answer(|out| sys::rollback(self.bytes(), out))
    }

    /// Whether an interrupted transaction left work for recovery.
    pub fn has_pending_work(&self) -> Result<bool, Refusal> {
        let mut pending = 0;
        refused(sys::has_pending_work(self.bytes(), &mut pending)).map(|()| pending != 0)
    }

    /// Recovers what an interrupted transaction left, whole.
    pub fn recover(&self) -> Result<Recovered, Refusal> {
        let mut cause = 0;
        let image = answer(|out| sys::recover(self.bytes(), out, &mut cause))?;
        Ok(Recovered { image, cause: Cause::from_number(cause) })
    }

    /// The keys of a collection, lowered, in the order of the files' names; none if the collection is missing.
    pub fn list_keys(&self, collection: &str) -> Result<Vec<String>, Refusal> {
        let (number, bytes) = lend(KEYS_ROOM, |out| sys::list_keys(self.bytes(), collection.as_bytes(), out));
        refused(number)?;
        let mut fields = &bytes[..];
        Ok(std::iter::from_fn(|| field::name(field::take(&mut fields)?.1)).collect())
    }

    /// The first backup file in the order of the image; if no file is one, the first directory with a backup's name.
    pub fn find_backup(&self) -> Result<Option<Backup>, Refusal> {
        let (number, bytes) = lend(HIT_ROOM, |out| sys::find_backup(self.bytes(), out));
        refused(number)?;
        // Its fields are those of an image that holds nothing else.
        let hit = Image::written(bytes).contents().directories.pop_first();
        Ok(hit.map(|(collection, mut files)| match files.pop_first() {
            Some((name, number)) => Backup::File { collection, name, number },
            None => Backup::Directory(collection),
        }))
    }

    /// The collections as one object of JSON (RFC 8259) without spaces or line ends: each directory's name with an object of its files'
    /// names and content numbers, in the order of the image. Staging files, log and open mark are not shown.
    pub fn inventory(&self) -> Result<String, Refusal> {
        let (number, bytes) = lend(INVENTORY_ROOM, |out| sys::inventory(self.bytes(), out));
        refused(number)?;
        Ok(String::from_utf8(bytes).expect("names are ASCII"))
    }

    /// The image after n steps of the commit, and step n (none for n = 0).
    pub fn commit_step(&self, n: u64) -> Result<(Image, Option<Step>), Refusal> {
        self.step(Plan::Commit, n)
    }

    /// The image after n steps of the recovery, and step n (none for n = 0).
    pub fn recover_step(&self, n: u64) -> Result<(Image, Option<Step>), Refusal> {
        self.step(Plan::Recover, n)
    }

    /// The commit's steps. Those of a failing commit end with its rollback; [`Image::commit`] tells.
    pub fn commit_steps(&self) -> Steps<'_> {
        self.steps(Plan::Commit)
    }

    /// The recovery's steps.
    pub fn recover_steps(&self) -> Steps<'_> {
        self.steps(Plan::Recover)
    }

    /// The steps of a plan.
    pub fn steps(&self, plan: Plan) -> Steps<'_> {
        Steps { image: self, plan, number: 0, over: false }
    }

    /// The image after n steps of a plan, and step n (none for n = 0).
    pub fn step(&self, plan: Plan, n: u64) -> Result<(Image, Option<Step>), Refusal> {
        let mut written = Vec::new();
        let (number, field) = lend(STEP_ROOM, |step| {
            let (number, image) = lend(IMAGE_ROOM, |out| match plan {
                Plan::Commit => sys::commit_step(self.bytes(), n, out, step),
                Plan::Recover => sys::recover_step(self.bytes(), n, out, step),
                Plan::Hold => sys::hold_step(self.bytes(), n, out, step),
                Plan::Keep => sys::keep_step(self.bytes(), n, out, step),
                Plan::Revert => sys::revert_step(self.bytes(), n, out, step),
            });
            written = image;
            number
        });
        refused(number)?;
        let image = Image::written(written);
        let step = match (n > 0).then(|| Step::from_field(&field).expect("the port writes step fields")) {
            Some(Step::RewriteHeader) if image.is_held()? => Some(Step::MarkHeld),
            step => step,
        };
        Ok((image, step))
    }
}

/// Lends room for an answer: the number, and what was written.
pub(crate) fn lend(room: usize, call: impl FnOnce(Output) -> u32) -> (u32, Vec<u8>) {
    let (mut bytes, mut written) = (vec![0; room], 0);
    let number = call(Output { bytes: &mut bytes, written: &mut written });
    bytes.truncate(written);
    (number, bytes)
}

/// An entry that answers with an image.
fn answer(call: impl FnOnce(Output) -> u32) -> Result<Image, Refusal> {
    let (number, bytes) = lend(IMAGE_ROOM, call);
    refused(number).map(|()| Image::written(bytes))
}

/// An entry that commits, held or not.
fn committed(call: impl FnOnce(Output) -> u32) -> Result<Image, CommitError> {
    let (number, bytes) = lend(IMAGE_ROOM, call);
    refused(number).map(|()| Image::written(bytes.clone())).map_err(|refusal| {
        let rolled_back = matches!(refusal, Refusal::StepFailed | Refusal::StoreFull);
        CommitError { refusal, image: rolled_back.then(|| Image::written(bytes)) }
    })
}

/// A number as a result.
pub(crate) fn refused(number: u32) -> Result<(), Refusal> {
    match number {
        0 => Ok(()),
        _ => Err(Refusal::from_number(number).expect("the port gives 0 and the numbers of refusals")),
    }
}
