//! One file step: its field, when it fails, what it does. Document 01, 'Listings and file steps'.
use crate::image::{DIR_LIMIT, FILE_LIMIT, Files, Image, put_field};
use crate::log::{Status, header};
use crate::name::{NAME_LIMIT, Name};
use std::collections::BTreeMap;

#[derive(Clone, PartialEq, Eq, Debug)]
pub enum Step {
    /// With this status.
    RewriteHeader(Status),
    SyncStaging,
    SyncLog,
    RemoveLog,
    SyncJournal,
    SyncCollections,
    MakeDirectory(Name),
    RenameFile(Name, Name, Name),
    MoveStaged(Name, Name, Name),
    RenameDirectory(Name, Name),
    CopyFile(Name, Name, Name),
    RemoveFile(Name, Name),
    RemoveDirectory(Name),
    RemoveStaging(Name),
    SyncDirectory(Name),
}
use Step::*;

impl Step {
    pub fn field(&self) -> Vec<u8> {
        let (tag, names): (u8, Vec<&[u8]>) = match self {
            RewriteHeader(_) => (0x20, vec![]),
            SyncStaging => (0x21, vec![]),
            SyncLog => (0x22, vec![]),
            MakeDirectory(dir) => (0x23, vec![dir]),
            RenameFile(dir, from, to) => (0x24, vec![dir, from, to]),
            MoveStaged(staged, dir, key) => (0x25, vec![staged, dir, key]),
            RenameDirectory(from, to) => (0x26, vec![from, to]),
            CopyFile(source, dest, file) => (0x27, vec![source, dest, file]),
            RemoveFile(dir, file) => (0x28, vec![dir, file]),
            RemoveDirectory(dir) => (0x29, vec![dir]),
            RemoveLog => (0x2B, vec![]),
            RemoveStaging(file) => (0x2C, vec![file]),
            SyncDirectory(dir) => (0x2D, vec![dir]),
            SyncCollections => (0x2D, vec![]),
            SyncJournal => (0x2E, vec![]),
        };
        let mut out = Vec::new();
        put_field(&mut out, tag, &[&names.join(&0)]);
        out
    }

    /// 14 or 15, where a commit's step meets it.
    pub fn fault(&self, image: &Image) -> Option<u32> {
        let new_file = |dir: &Name, file: &Name| (!image.has(dir, file) && image.file_count() == FILE_LIMIT).then_some(15);
        match self {
            MakeDirectory(_) => (image.dirs.len() == DIR_LIMIT).then_some(15),
            RenameFile(_, _, to) => (to.len() > NAME_LIMIT).then_some(14),
            RenameDirectory(_, to) => (to.len() > NAME_LIMIT || image.dirs.get(to).is_some_and(|f| !f.is_empty())).then_some(14),
            MoveStaged(staged, dir, key) if image.staging.contains_key(staged) => new_file(dir, key),
            CopyFile(_, dest, file) => new_file(dest, file),
            MoveStaged(..) => Some(14),
            _ => None,
        }
    }

    pub fn apply(&self, image: &mut Image) {
        let dirs = &mut image.dirs;
        match self {
            RewriteHeader(status) => image.log.as_mut().expect("the log stands")[..8].copy_from_slice(&header(*status)),
            SyncStaging | SyncLog | SyncJournal | SyncCollections | SyncDirectory(_) => {}
            RemoveLog => image.log = None,
            MakeDirectory(dir) => {
                dirs.insert(dir.clone(), Files::new());
            }
            RenameFile(dir, from, to) => {
                let number = files(dirs, dir).remove(from).expect("the file stands");
                files(dirs, dir).insert(to.clone(), number);
            }
            MoveStaged(staged, dir, key) => {
                let number = image.staging.remove(staged).expect("the staging file stands");
                files(dirs, dir).insert(key.clone(), number);
            }
            RenameDirectory(from, to) => {
                let files = dirs.remove(from).expect("the directory stands");
                dirs.insert(to.clone(), files);
            }
            CopyFile(source, dest, file) => {
                let number = files(dirs, source)[file];
                files(dirs, dest).insert(file.clone(), number);
            }
            RemoveFile(dir, file) => {
                files(dirs, dir).remove(file).expect("the file stands");
            }
            RemoveDirectory(dir) => {
                dirs.remove(dir).expect("the directory stands");
            }
            RemoveStaging(file) => {
                image.staging.remove(file).expect("the staging file stands");
            }
        }
    }
}

fn files<'a>(dirs: &'a mut BTreeMap<Name, Files>, dir: &Name) -> &'a mut Files {
    dirs.get_mut(dir).expect("the directory stands")
}
