//! One step, carried out by its file calls.
use super::{
    error::StoreError,
    layout::{ASIDE, Layout},
};
use crate::{image::Image, step::Step};
use std::{
    io,
    path::{Path, PathBuf},
};

/// Carries out a step; the image is the one behind it.
pub fn carry_out(layout: &Layout, step: &Step, after: &Image) -> Result<(), StoreError> {
    let (path, result) = call(layout, step, after);
    result.map_err(|source| StoreError::Io { path, step: Some(step.clone()), source })
}

/// The step's file calls, and the path that they are for.
fn call(layout: &Layout, step: &Step, after: &Image) -> (PathBuf, io::Result<()>) {
    let calls = &*layout.calls;
    let at = |path: PathBuf, call: &dyn Fn(&Path) -> io::Result<()>| {
        let result = call(&path);
        (path, result)
    };
    match step {
        Step::RewriteHeader => at(layout.log(), &|log| rewrite_header(layout, log, after)),
        Step::MarkHeld => at(layout.log(), &|log| replace_log(layout, log, after)),
        Step::SyncStaging => at(layout.staging(), &|path| sync_files(layout, path)),
        Step::SyncLog => at(layout.log(), &|path| calls.sync(path)),
        Step::MakeDirectory { directory } => at(layout.directory(directory), &|path| calls.make_directory(path)),
        Step::RenameFile { directory, from, to } => {
            at(layout.file(directory, from), &|path| calls.rename(path, &layout.file(directory, to)))
        }
        Step::MoveStaged { staged, directory, key } => at(layout.staged(staged), &|path| calls.rename(path, &layout.file(directory, key))),
        Step::RenameDirectory { from, to } => at(layout.directory(from), &|path| calls.rename(path, &layout.directory(to))),
        Step::CopyFile { source, destination, file } => {
            at(layout.file(source, file), &|path| copy(layout, path, &layout.file(destination, file)))
        }
        Step::RemoveFile { directory, file } => at(layout.file(directory, file), &|path| calls.remove_file(path)),
        Step::RemoveDirectory { directory } => at(layout.directory(directory), &|path| calls.remove_directory(path)),
        Step::RemoveLog => at(layout.log(), &|path| calls.remove_file(path)),
        Step::RemoveStaging { staged } => at(layout.staged(staged), &|path| calls.remove_file(path)),
        Step::SyncDirectory { directory } => at(layout.directory(directory), &|path| calls.sync(path)),
        Step::SyncCollections => at(layout.collections(), &|path| calls.sync(path)),
        Step::SyncJournal => at(layout.journal(), &|path| calls.sync(path)),
    }
}

/// Writes the header that the image's log begins with, in one call.
fn rewrite_header(layout: &Layout, log: &Path, after: &Image) -> io::Result<()> {
    let header = after.contents().log.unwrap_or_default();
    layout.calls.overwrite(log, &header[..8])
}

/// Puts the image's log in the place of the one that stands, whole. In place a loss of power could tear the header while backups stand, and
/// nobody could tell then how far the update came.
fn replace_log(layout: &Layout, log: &Path, after: &Image) -> io::Result<()> {
    let aside = layout.staged(ASIDE);
    layout.calls.write(&aside, &after.contents().log.unwrap_or_default())?;
    layout.calls.sync(&aside)?;
    layout.calls.rename(&aside, log)?;
    layout.calls.sync(&layout.journal())
}

fn sync_files(layout: &Layout, directory: &Path) -> io::Result<()> {
    layout.calls.list(directory)?.iter().try_for_each(|(name, _)| layout.calls.sync(&directory.join(name)))
}

/// Copies to the side, syncs the copy and moves it into its place: a file that stands there is whole.
fn copy(layout: &Layout, from: &Path, to: &Path) -> io::Result<()> {
    let aside = layout.staged(ASIDE);
    layout.calls.copy(from, &aside)?;
    layout.calls.sync(&aside)?;
    layout.calls.rename(&aside, to)
}
