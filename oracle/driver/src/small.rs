//! Every small case: stores of up to two directories with up to two files each, lists of up to two operations, Writes of both kinds and with
//! either mark, every cut; each held, and what is held kept and reverted. Of each store, the backup that it has and its inventory.
use crate::panel::Panel;
use crate::text;
use plain::{Image, Name, Operation, image::Files, log::Status};
use std::collections::{BTreeMap, HashSet};
use std::hash::{DefaultHasher, Hash, Hasher};
use store::{Call, Lent, Plan};

/// The names of a run. Staging files s and t stand, u doesn't.
pub struct Names {
    pub dirs: &'static [&'static str],
    pub files: &'static [&'static str],
}

pub const NARROW: Names = Names { dirs: &["c", "c.bak"], files: &["a", "a.bak"] };
pub const WIDE: Names = Names { dirs: &["c", "c.bak", "d.tmp"], files: &["a", "a.bak", "a.tmp"] };

/// Each case whose number leaves this rest when divided by `every`.
pub fn run(panel: &mut Panel, names: &Names, every: u64, rest: u64) {
    let (stores, lists) = (stores(names), lists(names));
    let total = (stores.len() * lists.len()) as u64;
    for store in &stores {
        panel.ask(&Call::FindBackup, &store.encode(), Lent::AMPLE);
        panel.ask(&Call::Inventory, &store.encode(), Lent::AMPLE);
    }
    let mut seen: HashSet<u64> = HashSet::new();
    for case in (rest..total).step_by(every as usize) {
        let (store, list) = (&stores[case as usize / lists.len()], &lists[case as usize % lists.len()]);
        let images: Vec<Vec<u8>> = markings(list).iter().map(|list| transaction(store, list).encode()).collect();
        let cuts = panel.plans(Plan::Commit, &images);
        // Many cuts leave the same image, of this commit or another: it is recovered once.
        let mut is_new = |cut: &&[u8]| {
            let mut hasher = DefaultHasher::new();
            cut.hash(&mut hasher);
            seen.insert(hasher.finish())
        };
        for n in 0..cuts.iter().map(Vec::len).max().unwrap_or_default() {
            let after_n: Vec<&[u8]> = cuts.iter().filter_map(|cuts| Some(cuts.get(n)?.as_slice())).filter(&mut is_new).collect();
            panel.plans(Plan::Recover, &after_n);
        }
        let held: Vec<Vec<u8>> =
            panel.plans(Plan::Hold, &images).into_iter().filter_map(|mut cuts| cuts.pop()).filter(|end| is_new(&end.as_slice())).collect();
        panel.plans(Plan::Keep, &held);
        panel.plans(Plan::Revert, &held);
        panel.progress("small", case, total);
    }
    let part = if every == 1 { String::new() } else { format!(", every {every}th from {rest} on") };
    panel.summary(&format!("small, {} stores, {} lists, {} cut images{part}", stores.len(), lists.len(), seen.len()));
}

/// The store with an open transaction of these operations.
pub fn transaction(store: &Image, list: &[Operation]) -> Image {
    Image { log: Some(text::log(Status::Recording, list)), open: true, ..store.clone() }
}

/// The parts of at most two names.
fn parts<'a>(names: &[&'a str]) -> Vec<Vec<&'a str>> {
    let mut parts = vec![vec![]];
    for (i, name) in names.iter().enumerate() {
        parts.push(vec![*name]);
        parts.extend(names[..i].iter().map(|other| vec![*other, *name]));
    }
    parts
}

pub fn stores(names: &Names) -> Vec<Image> {
    let folders = parts(names.files);
    let mut stores = Vec::new();
    for dirs in parts(names.dirs) {
        let combinations = folders.len().pow(dirs.len() as u32);
        for combination in 0..combinations {
            let mut number = 0;
            let mut files = |at: usize| -> Files {
                let mut numbered = |file: &&str| {
                    number += 1;
                    (Name::from(*file), number)
                };
                folders[at].iter().map(&mut numbered).collect()
            };
            let tree = dirs.iter().enumerate().map(|(i, dir)| {
                let at = combination / folders.len().pow(i as u32) % folders.len();
                (Name::from(*dir), files(at))
            });
            let dirs = tree.collect::<BTreeMap<_, _>>();
            stores.push(Image { dirs, staging: Files::from([(b"s".into(), 8), (b"t".into(), 9)]), ..Image::default() });
        }
    }
    stores
}

/// Every list of at most two operations on these names, Writes of kind 1.
pub fn lists(names: &Names) -> Vec<Vec<Operation>> {
    use Operation::*;
    let mut all = Vec::new();
    for dir in names.dirs {
        let collection = Name::from(*dir);
        for file in names.files {
            let key = Name::from(*file);
            let write = |staged: &str| Write { collection: collection.clone(), key: key.clone(), staged: staged.into(), mark: None };
            all.extend(["s", "t", "u"].map(write));
            all.push(Delete { collection: collection.clone(), key });
        }
        for dest in names.dirs {
            all.extend([false, true].map(|existed| CopyCollection { source: collection.clone(), dest: Name::from(*dest), existed }));
        }
        all.push(DeleteAll { collection: collection.clone() });
        all.push(CreateCollection { name: collection.clone() });
        all.push(DeleteCollection { name: collection });
    }
    let mut lists = vec![vec![]];
    lists.extend(all.iter().map(|o| vec![o.clone()]));
    lists.extend(all.iter().flat_map(|first| all.iter().map(move |second| vec![first.clone(), second.clone()])));
    lists
}

/// A list, and the same with marked Writes: every choice of kinds and marks.
pub fn markings(list: &[Operation]) -> Vec<Vec<Operation>> {
    list.iter().fold(vec![vec![]], |lists, operation| {
        let marks = if matches!(operation, Operation::Write { .. }) { &[None, Some(false), Some(true)][..] } else { &[None] };
        let with_one_more = |list: Vec<Operation>| {
            let one_more = |mark: &Option<bool>| [list.clone(), vec![operation.clone().with_mark(*mark)]].concat();
            marks.iter().map(one_more).collect::<Vec<_>>()
        };
        lists.into_iter().flat_map(with_one_more).collect()
    })
}
