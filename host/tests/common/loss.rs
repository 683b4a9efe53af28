//! What a loss of power may leave: `Left` and `Survives` of crates/power/specs/Loss.antt, over what stood behind each file call.
use super::Tree;
use std::{
    collections::{BTreeMap, BTreeSet},
    sync::Arc,
};

/// "The areas: which collections stand, the entries of one collection, whether the log's name stands, the log's bytes."
#[derive(Clone, PartialEq, Eq, Debug)]
pub enum Area {
    Collections,
    Files(String),
    Journal,
    Log,
}

/// A store without its staging files, which may be anything.
#[derive(Clone, PartialEq, Eq, PartialOrd, Ord, Debug)]
pub struct Stood {
    pub tree: Tree,
    pub log: Option<Vec<u8>>,
}

impl Stood {
    fn names(&self) -> BTreeSet<&String> {
        self.tree.keys().collect()
    }

    fn files(&self, collection: &str) -> BTreeMap<String, Vec<u8>> {
        self.tree.get(collection).cloned().unwrap_or_default()
    }
}

/// What was on the disk, what stood behind each call since, and which area each call synced.
#[derive(Clone, Debug)]
pub struct History {
    /// Whether the log was appended to since it was on the disk.
    appended: bool,
    stood: Vec<Arc<Stood>>,
    synced: Vec<Option<Area>>,
}

impl History {
    pub fn new(appended: bool, disk: Stood) -> History {
        History { appended, stood: vec![Arc::new(disk)], synced: Vec::new() }
    }

    /// What stands now.
    pub fn last(&self) -> &Stood {
        &self.stood[self.stood.len() - 1]
    }

    pub fn tell(&mut self, synced: Option<Area>, stood: Stood) {
        self.stood.push(Arc::new(stood));
        self.synced.push(synced);
    }

    /// `Left`: "The steps done were `kept` and then `lost`, and no sync of the area is among those lost: it may be found as it was after those kept."
    fn left(&self, area: &Area) -> impl Iterator<Item = &Stood> {
        let kept = self.synced.iter().rposition(|synced| synced.as_ref() == Some(area)).map_or(0, |last| last + 1);
        self.stood[kept..].iter().map(|stood| &**stood)
    }

    /// "A log that was appended to and not synced yet is found as any first part of it."
    fn is_torn(&self) -> bool {
        self.appended && !self.synced.contains(&Some(Area::Log))
    }

    /// `Survives`: whether this store may be found after a loss of power.
    pub fn survives(&self, found: &Stood) -> bool {
        let files = |collection: &String| {
            self.left(&Area::Files(collection.clone())).any(|stood| stood.files(collection) == found.files(collection))
        };
        let content = |log: &Vec<u8>| {
            let torn = |stood: &Stood| self.is_torn() && stood.log.as_ref().is_some_and(|whole| whole.starts_with(log));
            self.left(&Area::Log).any(|stood| stood.log.as_ref() == Some(log) || torn(stood))
        };
        self.left(&Area::Collections).any(|stood| stood.names() == found.names())
            && found.tree.keys().all(files)
            && self.left(&Area::Journal).any(|stood| stood.log.is_some() == found.log.is_some())
            && found.log.as_ref().is_none_or(content)
    }

    /// All stores that may be found: each area by itself, and then every mixture. No collection is made or removed.
    pub fn all(&self) -> BTreeSet<Stood> {
        let mut trees = BTreeSet::from([Tree::new()]);
        for collection in self.stood[0].tree.keys() {
            let files: BTreeSet<_> = self.left(&Area::Files(collection.clone())).map(|stood| stood.files(collection)).collect();
            let with = |tree: &Tree, files| tree.clone().into_iter().chain([(collection.clone(), files)]).collect::<Tree>();
            trees = trees.iter().flat_map(|tree| files.iter().map(|files| with(tree, files.clone()))).collect();
        }
        let parts =
            |log: &Vec<u8>| (if self.is_torn() { 0 } else { log.len() }..=log.len()).map(|end| log[..end].to_vec()).collect::<Vec<_>>();
        let contents: BTreeSet<_> = self.left(&Area::Log).filter_map(|stood| stood.log.as_ref()).flat_map(parts).collect();
        let mut logs = BTreeSet::new();
        for stands in self.left(&Area::Journal).map(|stood| stood.log.is_some()) {
            logs.extend(if stands { contents.iter().cloned().map(Some).collect() } else { vec![None] });
        }
        trees.iter().flat_map(|tree| logs.iter().map(|log| Stood { tree: tree.clone(), log: log.clone() })).collect()
    }
}
