//! File calls in memory, on a disk that can lose its power. [`Memory::lose`] loses what the model of crates/power/specs/Loss.antt lets be lost
//! (`loss.rs` beside this file has it as a test, and `power_loss.rs` holds one to the other), no less and no more:
//!
//! - each directory keeps a first part of the changes to its entries since it was synced, in their order; a rename inside it is one
//!   change, a move from one directory to another is a change of each. Different directories lose theirs independently;
//! - the log keeps its content as it was behind any change of it since it was synced; one that was never synced, any first part of that;
//! - staging files are found as anything, and so is the content of another file that was not synced.
//!
//! [`Memory::lose_more`] also tears what was written over old bytes, and leaves zeros in the place of what was written behind them.
//!
//! A call can also be made to fail, or all calls from one on: then the process has ended there.
use super::{
    Random, Tree,
    loss::{Area, History, Stood},
};
use cda_store::calls::{Calls, Kind, Lock};
use std::{
    collections::BTreeMap,
    ffi::OsString,
    fs::File,
    io::{self, ErrorKind, Read},
    path::{Path, PathBuf},
    sync::{Arc, Mutex, MutexGuard},
};

/// The path under which the store stands.
pub const ROOT: &str = "/store";

const LOG: &str = "journal/transaction.wal";
const STAGING: &str = "journal/staging";

/// Where all entries of a directory stand.
type Entries = BTreeMap<String, usize>;

#[derive(Clone, Debug)]
enum Change {
    Put(String, usize),
    Take(String),
    Move(String, String),
}

#[derive(Clone, Debug)]
enum Node {
    /// A file's content: as it was synced, and behind each change since.
    File {
        synced: Option<Vec<u8>>,
        since: Vec<Vec<u8>>,
    },
    Directory {
        now: Entries,
        synced: Entries,
        changes: Vec<Change>,
    },
}

impl Change {
    fn make(&self, entries: &mut Entries) {
        match self {
            Change::Put(name, node) => drop(entries.insert(name.clone(), *node)),
            Change::Take(name) => drop(entries.remove(name)),
            Change::Move(from, to) => {
                let node = entries.remove(from).unwrap();
                entries.insert(to.clone(), node);
            }
        }
    }
}

/// How a call fails.
#[derive(Clone, Copy, PartialEq, Eq, Debug)]
pub enum Fault {
    /// Nothing is done.
    Before,
    /// A half of what is to be written is written; a rename, a removal or a new directory is done nevertheless.
    Within,
}

/// What is to happen at the calls.
#[derive(Clone, Debug, Default)]
pub enum Plan {
    #[default]
    Go,
    /// The call of this number, from 0, fails with this error number; those behind it go on.
    Fail(u64, i32, Fault),
    /// From this number on the calls fail that change or sync what stands under this path.
    Deny(u64, i32, PathBuf),
    /// The calls from this number on fail, and nothing of them is done.
    End(u64),
}

#[derive(Clone, Debug, Default)]
struct Disk {
    nodes: Vec<Node>,
    plan: Plan,
    calls: u64,
    /// The names of the calls that were made.
    made: Vec<&'static str>,
    /// What stood since the commit started, or since the last loss.
    history: Option<History>,
}

/// The calls and their disk, which several stores can have one after another.
#[derive(Clone, Debug)]
pub struct Memory(Arc<Mutex<Disk>>);

fn error(kind: ErrorKind) -> io::Error {
    kind.into()
}

impl Memory {
    /// A disk with a store of these collections on it, all of it synced.
    pub fn with(tree: &Tree) -> Memory {
        let memory = Memory(Arc::new(Mutex::new(Disk { nodes: vec![Node::directory()], ..Disk::default() })));
        let path = |parts: &[&str]| parts.iter().fold(Path::new(ROOT).to_path_buf(), |path, part| path.join(part));
        if !tree.is_empty() {
            memory.make_directory(&path(&["collections"])).unwrap();
        }
        for (collection, files) in tree {
            memory.make_directory(&path(&["collections", collection])).unwrap();
            files.iter().for_each(|(key, content)| memory.write(&path(&["collections", collection, key]), content).unwrap());
        }
        memory.disk().nodes.iter_mut().for_each(Node::sync);
        memory.disk().start(Plan::Go);
        memory
    }

    /// Another disk that is as this one.
    pub fn apart(&self) -> Memory {
        Memory(Arc::new(Mutex::new(self.disk().clone())))
    }

    /// What is to happen from here on.
    pub fn plan(&self, plan: Plan) {
        self.disk().start(plan)
    }

    /// How many calls were made since the plan was set.
    pub fn calls(&self) -> u64 {
        self.disk().calls
    }

    /// The calls that were made since the plan was set, by name.
    pub fn made(&self) -> Vec<&'static str> {
        self.disk().made.clone()
    }

    /// The power is lost, and is back. What is found is chosen: a number below the one that is given.
    pub fn lose(&self, choose: &mut dyn FnMut(usize) -> usize) {
        let mut disk = self.disk();
        disk.lose(choose);
        disk.start(Plan::Go);
        if disk.history.is_some() {
            disk.history = Some(History::new(false, disk.stood()));
        }
    }

    /// The power is lost, and with it more than [`Memory::lose`] loses.
    pub fn lose_more(&self, random: &mut Random) {
        let mut disk = self.disk();
        disk.nodes.iter_mut().for_each(|node| node.lose_more(random));
        disk.start(Plan::Go);
        disk.history = None;
    }

    /// A commit starts: from here on it is told what stood. All of the store is on the disk, but for the log's content and staging files.
    pub fn commit_starts(&self) {
        let mut disk = self.disk();
        let parts = ["", "collections", "journal"].map(|part| disk.find(&Path::new(ROOT).join(part)).unwrap());
        let collections = disk.entries(parts[1]).values().copied().collect::<Vec<_>>();
        let files = collections.iter().flat_map(|node| disk.entries(*node).values().copied().collect::<Vec<_>>());
        let all = parts.iter().chain(&collections).copied().chain(files);
        let is_synced = all.into_iter().all(|node| disk.nodes[node].is_synced());
        disk.history = Some(History::new(true, disk.stood()));
        drop(disk);
        assert!(is_synced, "the store is on the disk when a commit starts: {self:?}");
    }

    /// The commit is over.
    pub fn commit_ends(&self) {
        self.disk().history = None;
    }

    /// What stood since a commit started, or since the power was lost behind that.
    pub fn history(&self) -> Option<History> {
        self.disk().history.clone()
    }

    /// The collections and the log.
    pub fn stood(&self) -> Stood {
        self.disk().stood()
    }

    /// The collections and their files.
    pub fn tree(&self) -> Tree {
        self.disk().tree()
    }

    /// The names in the journal and in the staging directory.
    pub fn journal(&self) -> Vec<String> {
        let disk = self.disk();
        let Some(journal) = disk.entries(0).get("journal") else { return Vec::new() };
        let entries = disk.entries(*journal);
        let staged: Option<Vec<String>> = entries.get("staging").map(|staging| disk.entries(*staging).keys().cloned().collect());
        entries.keys().filter(|name| *name != "staging").cloned().chain(staged.unwrap_or_default()).collect()
    }

    fn disk(&self) -> MutexGuard<'_, Disk> {
        self.0.lock().unwrap()
    }

    /// Makes a call that changes the disk, or syncs. A fault within it may leave it done.
    fn change<T>(&self, name: &'static str, path: &Path, call: impl FnOnce(&mut Disk, Option<Fault>) -> io::Result<T>) -> io::Result<T> {
        let mut disk = self.disk();
        let (number, plan) = (disk.calls, disk.plan.clone());
        disk.calls += 1;
        disk.made.push(name);
        match plan {
            Plan::Fail(at, error, Fault::Before) if at == number => Err(io::Error::from_raw_os_error(error)),
            Plan::Fail(at, error, Fault::Within) if at == number => {
                let _ = call(&mut disk, Some(Fault::Within));
                Err(io::Error::from_raw_os_error(error))
            }
            Plan::Deny(at, error, denied) if at <= number && path.starts_with(&denied) && !["list", "read"].contains(&name) => {
                Err(io::Error::from_raw_os_error(error))
            }
            Plan::End(at) if at <= number => Err(io::Error::other("the process has ended")),
            _ => {
                let done = call(&mut disk, None);
                disk.tell(name, path);
                done
            }
        }
    }
}

impl Node {
    fn directory() -> Node {
        Node::Directory { now: Entries::new(), synced: Entries::new(), changes: Vec::new() }
    }

    fn file() -> Node {
        Node::File { synced: None, since: Vec::new() }
    }

    fn sync(&mut self) {
        match self {
            Node::File { synced, since } => {
                *synced = Some(since.pop().or(synced.take()).unwrap_or_default());
                since.clear();
            }
            Node::Directory { now, synced, changes } => {
                synced.clone_from(now);
                changes.clear();
            }
        }
    }

    fn is_synced(&self) -> bool {
        match self {
            Node::File { synced, since } => synced.is_some() && since.is_empty(),
            Node::Directory { changes, .. } => changes.is_empty(),
        }
    }

    /// A directory's first changes are kept, and the others lost.
    fn lose_entries(&mut self, choose: &mut dyn FnMut(usize) -> usize) {
        let Node::Directory { now, synced, changes } = self else { return };
        now.clone_from(synced);
        changes.iter().take(choose(changes.len() + 1)).for_each(|change| change.make(now));
    }

    /// The content that the log is found with.
    fn lose_log(&mut self, choose: &mut dyn FnMut(usize) -> usize) {
        let Node::File { synced, since } = self else { panic!("a file") };
        let was_synced = synced.is_some();
        let mut contents: Vec<_> = synced.iter().chain(&*since).cloned().collect();
        let mut found = contents.swap_remove(choose(contents.len()));
        if !was_synced {
            found.truncate(choose(found.len() + 1));
        }
        *since = vec![found];
    }

    /// The content that another file is found with, where it was not synced.
    fn lose_content(&mut self, choose: &mut dyn FnMut(usize) -> usize) {
        let synced = self.is_synced();
        let Node::File { since, .. } = self else { panic!("a file") };
        if !synced {
            let now = since.last().cloned().unwrap_or_default();
            let anything = [Vec::new(), now.clone(), now[..now.len() / 2].to_vec(), vec![b'?'; now.len() + 1]];
            *since = vec![anything[choose(4)].clone()];
        }
    }

    fn lose_more(&mut self, random: &mut Random) {
        match self {
            Node::File { synced, since } => {
                let synced = synced.clone().unwrap_or_default();
                let found = kept(&synced, since.last().unwrap_or(&synced), random);
                *since = vec![found];
            }
            Node::Directory { .. } => self.lose_entries(&mut |count| some(0, count - 1, random)),
        }
        self.sync();
    }
}

/// A number between two, and often one of them.
pub fn some(least: usize, most: usize, random: &mut Random) -> usize {
    match random.below(4) {
        0 => least,
        1 => most,
        _ => least + random.below((most - least) as u64 + 1) as usize,
    }
}

/// A content that a file may have after a loss that takes more: as it was synced, or as it is, or something between. That is a first part of what
/// was written behind, or zeros in its place, and of what was written over the old bytes up to some place or from there on.
fn kept(synced: &[u8], now: &[u8], random: &mut Random) -> Vec<u8> {
    if now.len() < synced.len() {
        return random.pick(&[synced, now]).to_vec();
    }
    let mut left = now[..some(synced.len(), now.len(), random)].to_vec();
    if random.below(4) == 0 {
        left[synced.len()..].fill(0);
    }
    let torn = some(0, synced.len(), random);
    let old = if random.below(2) == 0 { 0..torn } else { torn..synced.len() };
    left[old.clone()].copy_from_slice(&synced[old]);
    left
}

impl Disk {
    fn start(&mut self, plan: Plan) {
        (self.plan, self.calls) = (plan, 0);
        self.made.clear();
    }

    fn entries(&self, node: usize) -> &Entries {
        match &self.nodes[node] {
            Node::Directory { now, .. } => now,
            Node::File { .. } => panic!("a directory"),
        }
    }

    fn content(&self, node: usize) -> &[u8] {
        match &self.nodes[node] {
            Node::File { synced, since } => since.last().or(synced.as_ref()).map_or(&[], |content| content),
            Node::Directory { .. } => panic!("a file"),
        }
    }

    /// A file's content, to be changed by one call.
    fn content_mut(&mut self, path: &Path) -> io::Result<&mut Vec<u8>> {
        let node = self.find(path)?;
        match &mut self.nodes[node] {
            Node::File { synced, since } => {
                since.push(since.last().or(synced.as_ref()).cloned().unwrap_or_default());
                Ok(since.last_mut().unwrap())
            }
            Node::Directory { .. } => Err(error(ErrorKind::IsADirectory)),
        }
    }

    fn tree(&self) -> Tree {
        let Some(collections) = self.entries(0).get("collections") else { return Tree::new() };
        let collection = |(name, node): (&String, &usize)| {
            let files = self.entries(*node).iter().map(|(name, node)| (name.clone(), self.content(*node).to_vec()));
            (name.clone(), files.collect())
        };
        self.entries(*collections).iter().map(collection).collect()
    }

    fn stood(&self) -> Stood {
        let log = self.find(&Path::new(ROOT).join(LOG)).ok().map(|node| self.content(node).to_vec());
        Stood { tree: self.tree(), log }
    }

    /// Tells the history of a call.
    fn tell(&mut self, name: &str, path: &Path) {
        if ["list", "read"].contains(&name) {
            return;
        }
        let Some(mut history) = self.history.take() else { return };
        let parts: Vec<_> = path.strip_prefix(ROOT).unwrap().iter().map(|part| part.to_str().unwrap()).collect();
        let area = match (name, &parts[..]) {
            ("sync", ["collections"]) => Some(Area::Collections),
            ("sync", ["collections", collection]) => Some(Area::Files(collection.to_string())),
            ("sync", ["journal"]) => Some(Area::Journal),
            ("sync", ["journal", "transaction.wal"]) => Some(Area::Log),
            _ => None,
        };
        history.tell(area, self.stood());
        self.history = Some(history);
    }

    /// All that was not synced is lost, or kept.
    fn lose(&mut self, choose: &mut dyn FnMut(usize) -> usize) {
        let at = |disk: &Disk, path: &str| disk.find(&Path::new(ROOT).join(path)).ok();
        let staging = at(self, STAGING);
        for node in (0..self.nodes.len()).filter(|node| Some(*node) != staging) {
            self.nodes[node].lose_entries(choose);
        }
        if let Some(log) = at(self, LOG) {
            self.nodes[log].lose_log(choose);
        }
        let collections = self.entries(0).get("collections").map(|node| self.entries(*node).values().copied().collect::<Vec<_>>());
        let files = collections.iter().flatten().flat_map(|node| self.entries(*node).values().copied().collect::<Vec<_>>());
        for file in files.collect::<Vec<_>>() {
            self.nodes[file].lose_content(choose);
        }
        self.nodes.iter_mut().for_each(Node::sync);
        if let Some(staging) = staging {
            self.lose_staging(staging, choose(4));
        }
    }

    /// Staging files are found as anything: none, those that stand, others under their names, a stray one.
    fn lose_staging(&mut self, staging: usize, way: usize) {
        let names: Vec<String> = self.entries(staging).keys().cloned().collect();
        let found = match way {
            0 => Vec::new(),
            1 => return,
            2 => names,
            _ => vec!["stray.tmp".to_string()],
        };
        let first = self.nodes.len();
        self.nodes.extend(found.iter().map(|_| Node::File { synced: Some(b"anything".to_vec()), since: Vec::new() }));
        let now: Entries = found.into_iter().zip(first..).collect();
        self.nodes[staging] = Node::Directory { synced: now.clone(), now, changes: Vec::new() };
    }

    fn find(&self, path: &Path) -> io::Result<usize> {
        let parts = path.strip_prefix(ROOT).expect("a path of the store").iter().map(|part| part.to_str().unwrap());
        parts.into_iter().try_fold(0, |node, part| match &self.nodes[node] {
            Node::Directory { now, .. } => now.get(part).copied().ok_or(error(ErrorKind::NotFound)),
            Node::File { .. } => Err(error(ErrorKind::NotADirectory)),
        })
    }

    /// The directory that a path stands in, and its last name.
    fn place(&self, path: &Path) -> io::Result<(usize, String)> {
        Ok((self.find(path.parent().unwrap())?, path.file_name().unwrap().to_str().unwrap().to_string()))
    }

    fn change(&mut self, directory: usize, change: Change) {
        let Node::Directory { now, changes, .. } = &mut self.nodes[directory] else { panic!("a directory") };
        change.make(now);
        changes.push(change);
    }

    /// Puts a new node at a path at which nothing stands.
    fn make(&mut self, path: &Path, node: Node) -> io::Result<()> {
        let (directory, name) = self.place(path)?;
        if self.entries(directory).contains_key(&name) {
            return Err(error(ErrorKind::AlreadyExists));
        }
        self.nodes.push(node);
        let last = self.nodes.len() - 1;
        self.change(directory, Change::Put(name, last));
        Ok(())
    }

    fn make_or_empty(&mut self, path: &Path) -> io::Result<&mut Vec<u8>> {
        match self.make(path, Node::file()) {
            Err(error) if error.kind() != ErrorKind::AlreadyExists => return Err(error),
            _ => {}
        }
        let content = self.content_mut(path)?;
        content.clear();
        Ok(content)
    }

    fn take(&mut self, path: &Path) -> io::Result<()> {
        let (directory, name) = self.place(path)?;
        self.find(path)?;
        self.change(directory, Change::Take(name));
        Ok(())
    }

    fn rename(&mut self, from: &Path, to: &Path) -> io::Result<()> {
        let (node, (source, name), (target, new)) = (self.find(from)?, self.place(from)?, self.place(to)?);
        if let Some(stands) = self.entries(target).get(&new)
            && let Node::Directory { now, .. } = &self.nodes[*stands]
            && !now.is_empty()
        {
            return Err(error(ErrorKind::DirectoryNotEmpty));
        }
        if source == target {
            self.change(source, Change::Move(name, new));
        } else {
            self.change(target, Change::Put(new, node));
            self.change(source, Change::Take(name));
        }
        Ok(())
    }
}

/// All of the bytes, or a half of them where the call fails.
fn part(bytes: &[u8], fault: Option<Fault>) -> &[u8] {
    &bytes[..bytes.len() >> u32::from(fault.is_some())]
}

impl Calls for Memory {
    fn lock(&self, _: &Path, _: Lock) -> io::Result<Option<File>> {
        Ok(None)
    }

    fn list(&self, directory: &Path) -> io::Result<Vec<(OsString, Kind)>> {
        self.change("list", directory, |disk, _| {
            let node = disk.find(directory)?;
            let kind = |node: usize| match disk.nodes[node] {
                Node::File { .. } => Kind::File,
                Node::Directory { .. } => Kind::Directory,
            };
            Ok(disk.entries(node).iter().map(|(name, node)| (name.into(), kind(*node))).collect())
        })
    }

    fn read(&self, file: &Path, _: u64) -> io::Result<Vec<u8>> {
        self.change("read", file, |disk, _| Ok(disk.content(disk.find(file)?).to_vec()))
    }

    fn write(&self, file: &Path, bytes: &[u8]) -> io::Result<()> {
        self.change("write", file, |disk, fault| {
            disk.make_or_empty(file)?.extend(part(bytes, fault));
            Ok(())
        })
    }

    fn append(&self, file: &Path, bytes: &[u8]) -> io::Result<()> {
        self.change("append", file, |disk, fault| {
            disk.content_mut(file)?.extend(part(bytes, fault));
            Ok(())
        })
    }

    fn overwrite(&self, file: &Path, bytes: &[u8]) -> io::Result<()> {
        self.change("overwrite", file, |disk, fault| {
            let bytes = part(bytes, fault);
            disk.content_mut(file)?[..bytes.len()].copy_from_slice(bytes);
            Ok(())
        })
    }

    fn make_file(&self, file: &Path) -> io::Result<()> {
        self.change("make_file", file, |disk, _| disk.make(file, Node::file()))
    }

    fn fill(&self, file: &Path, content: &mut dyn Read) -> io::Result<()> {
        let mut bytes = Vec::new();
        content.read_to_end(&mut bytes)?;
        self.change("fill", file, |disk, fault| {
            disk.content_mut(file)?.extend(part(&bytes, fault));
            Ok(())
        })
    }

    fn copy(&self, from: &Path, to: &Path) -> io::Result<()> {
        self.change("copy", to, |disk, fault| {
            let content = disk.content(disk.find(from)?).to_vec();
            disk.make_or_empty(to)?.extend(part(&content, fault));
            Ok(())
        })
    }

    fn sync(&self, path: &Path) -> io::Result<()> {
        self.change("sync", path, |disk, _| {
            let node = disk.find(path)?;
            disk.nodes[node].sync();
            Ok(())
        })
    }

    fn make_directory(&self, path: &Path) -> io::Result<()> {
        self.change("make_directory", path, |disk, _| disk.make(path, Node::directory()))
    }

    fn rename(&self, from: &Path, to: &Path) -> io::Result<()> {
        self.change("rename", to, |disk, _| disk.rename(from, to))
    }

    fn remove_file(&self, path: &Path) -> io::Result<()> {
        self.change("remove_file", path, |disk, _| disk.take(path))
    }

    /// Each file is removed by a call of its own, then the directory.
    fn remove_directory(&self, path: &Path) -> io::Result<()> {
        for (name, _) in self.list(path)? {
            self.remove_file(&path.join(name))?;
        }
        self.change("remove_directory", path, |disk, _| disk.take(path))
    }
}
