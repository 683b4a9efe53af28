//! Random calls. Behind each, the answers and the two directories are compared. The adapter is asked first; what it answers otherwise is held to the
//! list of docs/DIFFERENCES.md ('The adapter'), counted, and then both directories are made alike again.
use crate::{
    Random,
    call::{self, Call, ITS_OWN},
    disk::{Disk, disk},
    folder,
    side::{Answer, Side},
};
use cda_interfaces::storage_api::staging_folder;
use std::{collections::BTreeMap, fs, path::Path, time::Instant};

const OPERATIONS: usize = 32;

struct Both {
    original: Side<cda_storage::LocalStorage>,
    adapter: Side<cda_store_adapter::LocalStorage>,
    /// How often each call was made, and how often each listed difference was met.
    calls: BTreeMap<String, u64>,
    differences: BTreeMap<&'static str, u64>,
    /// What streams that failed have left in the original's staging.
    left: usize,
    staged: u64,
    errors: u64,
    history: Vec<Call>,
    swapped: u64,
    /// Whether the transaction goes on until it is full.
    long: bool,
}

fn original(root: &Path) -> Result<cda_storage::LocalStorage, cda_interfaces::storage_api::StorageError> {
    staging_folder(root.join("journal/staging").to_str().unwrap());
    cda_storage::LocalStorage::new(root)
}

fn adapter(root: &Path) -> Result<cda_store_adapter::LocalStorage, cda_interfaces::storage_api::StorageError> {
    cda_store_adapter::LocalStorage::new(root)
}

impl Both {
    /// Makes a call, if it can be made: whether it was, of both.
    fn call(&mut self, random: &mut Random) -> bool {
        let call = call::any(random, self.adapter.transaction.is_some(), self.long);
        if call.slot().is_some_and(|slot| self.adapter.directory(slot).is_none()) {
            return false;
        }
        let name = format!("{call:?}");
        let name = name.split(['(', ' ']).next().unwrap().to_string();
        self.history.push(call.clone());
        let asked = match &call {
            Call::Reopen => self.reopen(random),
            Call::Provision(collection, name, content) => self.provision(collection, name, content),
            Call::Commit => self.commit(),
            _ => {
                if let Call::Begin = call {
                    self.long = self.long || random.one_in(12);
                }
                self.ask(&call)
            }
        };
        *self.calls.entry(name).or_default() += u64::from(asked);
        asked
    }

    fn difference(&mut self, which: &'static str) {
        *self.differences.entry(which).or_default() += 1;
    }

    /// Asks both, unless the call is skipped: whether it did.
    fn ask(&mut self, call: &Call) -> bool {
        let in_transaction = self.adapter.transaction.is_some();
        let other_case = self.other_case(call);
        if other_case.is_some() && in_transaction {
            return false; // The original would rename a file that the open transaction knows by its name.
        }
        if let Call::GetOrCreate(..) = call {
            self.adapter.release(); // The stand-in's lock can't wait.
            self.original.release();
        }
        let before = disk(&self.adapter.root);
        let ours = self.adapter.ask(call);
        if let Some(which) = self.is_its_own(call, &ours, &before) {
            self.require(call, disk(&self.adapter.root) == before, "a refusal changes nothing");
            self.difference(which);
            self.long = self.long && which != "32 operations";
            return false;
        }
        self.staged += 1;
        uuid::name_next(&format!("{}.tmp", self.staged));
        let theirs = self.original.ask(call);
        self.errors += u64::from(ours.is_err());
        let renamed = |answer: &Answer| answer.clone().map(|text| if other_case.is_some() { text.to_lowercase() } else { text });
        self.require(call, renamed(&ours) == renamed(&theirs), &format!("adapter {ours:?}, original {theirs:?}"));
        if let (Some((directory, from, to)), true) = (&other_case, ours.is_ok()) {
            let directory = self.adapter.root.join("collections").join(directory);
            fs::rename(directory.join(from), directory.join(to)).unwrap();
            self.difference("reading renames nothing");
        }
        match call {
            Call::BrokenWrite(..) if ours == Err("Io".to_string()) => {
                self.left += 1;
                self.difference("content that fails leaves no staging file");
            }
            Call::Rollback | Call::DropTransaction => self.left = 0,
            _ => {}
        }
        self.same(call)
    }

    /// A call that the adapter alone refuses, by a rule that is listed: the original is not asked then.
    fn is_its_own(&self, call: &Call, ours: &Answer, before: &Disk) -> Option<&'static str> {
        let own = |name: &String| ITS_OWN.contains(&name.as_str());
        let full = before.log.as_ref().is_some_and(|log| log.operations.len() == OPERATIONS);
        match call {
            Call::CreateUnawaited(name) if own(name) => return Some("names"),
            Call::CreateUnawaited(_) | Call::DeleteUnawaited(..) if full => return Some("32 operations"),
            _ => {}
        }
        let error = ours.as_ref().err()?;
        match call {
            Call::Create(_, name) | Call::GetOrCreate(_, name) | Call::Copy(_, name) if own(name) && error == "Other" => Some("names"),
            Call::Write(_, key, _) | Call::BrokenWrite(_, key, _) if own(key) && error == "Other" => Some("names"),
            _ if full && error == "NoSpaceLeft" => Some("32 operations"),
            _ => None,
        }
    }

    /// A file that is looked for under its lowered name and stands in other letter cases: the original renames it when it is read.
    fn other_case(&self, call: &Call) -> Option<(String, String, String)> {
        let (Call::Read(slot, key, _) | Call::Keep(slot, key) | Call::Metadata(slot, key) | Call::FilePath(slot, key)) = call else {
            return None;
        };
        let directory = self.adapter.directory(*slot)?.rsplit('/').next()?.to_string();
        let files = disk(&self.adapter.root).collections?.remove(&directory)?;
        let key = key.to_ascii_lowercase();
        let listed = |name: &&String| !name.ends_with(".bak") && !name.ends_with(".tmp") && name.eq_ignore_ascii_case(&key);
        let found = files.keys().find(listed).filter(|_| !files.contains_key(&key))?.clone();
        Some((directory, found, key))
    }

    fn commit(&mut self) -> bool {
        self.adapter.release();
        self.original.release();
        let before = disk(&self.adapter.root);
        let (ours, theirs) = (self.adapter.ask(&Call::Commit), self.original.ask(&Call::Commit));
        self.left = 0;
        self.errors += u64::from(ours.is_err());
        if ours == theirs && ours.is_ok() || self.adapter.transaction.is_none() && ours == Err("no transaction".to_string()) {
            return self.same(&Call::Commit);
        }
        let after = disk(&self.adapter.root);
        self.require(&Call::Commit, ours == Err("Io".to_string()), &format!("adapter {ours:?}, original {theirs:?}"));
        self.require(&Call::Commit, after.collections == before.collections && after.log.is_none(), "a refused commit changes nothing");
        self.require(&Call::Commit, after.staging == Some(Vec::new()), "a refused commit leaves nothing");
        match theirs {
            Ok(_) => self.difference("a backup's name over 64 bytes"),
            Err(error) => {
                self.require(&Call::Commit, error == "Io", &error);
                self.difference("a failing commit is discarded, where the original begins it");
            }
        }
        self.make_alike()
    }

    /// The original's directory becomes what the adapter's is.
    fn make_alike(&mut self) -> bool {
        self.original.stop(false);
        fs::remove_dir_all(self.original.root.join("collections")).unwrap();
        copy(&self.adapter.root.join("collections"), &self.original.root.join("collections"));
        self.original.start().unwrap();
        self.adapter.stop(false);
        self.adapter.start().unwrap();
        self.same(&Call::Reopen)
    }

    /// Each is closed and opened, by lot on the other's directory. The original's transaction is left there as if its process had ended, unless a
    /// backup's name stands: recovery leaves that where it discards a log, and else removes it (docs/FINDINGS.md, 14).
    fn reopen(&mut self, random: &mut Random) -> bool {
        self.left = 0;
        let tree = disk(&self.original.root).collections.unwrap_or_default();
        let backup = tree.iter().any(|(name, files)| files.keys().chain([name]).any(|name| name.ends_with(".bak")));
        self.original.stop(!backup);
        self.adapter.stop(false);
        if random.one_in(2) {
            std::mem::swap(&mut self.original.root, &mut self.adapter.root);
            self.swapped += 1;
        }
        let (ours, theirs) = (self.adapter.start(), self.original.start());
        self.require(&Call::Reopen, ours == theirs && ours.is_ok(), &format!("adapter {ours:?}, original {theirs:?}"));
        self.same(&Call::Reopen)
    }

    /// It is no call of a trait.
    fn provision(&mut self, collection: &str, name: &str, content: &[u8]) -> bool {
        let stands = |files: &BTreeMap<String, Vec<u8>>| files.keys().any(|other| other.eq_ignore_ascii_case(name));
        let tree = disk(&self.adapter.root).collections.unwrap_or_default();
        if tree.get(collection).is_some_and(|files| !stands(files)) {
            for root in [&self.adapter.root, &self.original.root] {
                fs::write(root.join("collections").join(collection).join(name), content).unwrap();
            }
        }
        false
    }

    /// The two directories hold the same.
    fn same(&mut self, call: &Call) -> bool {
        let (ours, mut theirs) = (disk(&self.adapter.root), disk(&self.original.root));
        if self.left > 0 {
            let (own, both) = (ours.staging.clone().unwrap_or_default(), theirs.staging.clone().unwrap_or_default());
            let mut rest = both.clone();
            let inside = own.iter().all(|content| rest.iter().position(|other| other == content).map(|at| rest.remove(at)).is_some());
            self.require(call, inside && rest.len() == self.left, "the staging files of failed streams alone are more");
            theirs.staging = ours.staging.clone();
        }
        self.require(call, ours == theirs, &format!("\nadapter {ours:?}\noriginal {theirs:?}"));
        true
    }

    fn require(&self, call: &Call, holds: bool, why: &str) {
        if !holds {
            println!("DIFFERENCE at {call:?}: {why}\nafter");
            self.history.iter().rev().take(30).rev().for_each(|call| println!("    {call:?}"));
            println!("The directories are left: {} and {}", self.adapter.root.display(), self.original.root.display());
            std::process::exit(1)
        }
    }
}

fn copy(from: &Path, to: &Path) {
    fs::create_dir(to).unwrap();
    for entry in fs::read_dir(from).unwrap().map(|entry| entry.unwrap()) {
        match entry.path().is_dir() {
            true => copy(&entry.path(), &to.join(entry.file_name())),
            false => assert!(fs::copy(entry.path(), to.join(entry.file_name())).is_ok()),
        }
    }
}

pub fn run(seed: u64, calls: u64) {
    let started = Instant::now();
    let roots = [folder("a"), folder("b")];
    let mut both = Both {
        original: Side::new(roots[0].clone(), original),
        adapter: Side::new(roots[1].clone(), adapter),
        calls: BTreeMap::new(),
        differences: BTreeMap::new(),
        left: 0,
        staged: 0,
        errors: 0,
        history: Vec::new(),
        swapped: 0,
        long: false,
    };
    let mut random = Random::new(seed, 0);
    let mut done = 0;
    while done < calls {
        done += u64::from(both.call(&mut random));
        if both.history.len() > 1000 {
            both.history.drain(..900);
        }
    }
    let Both { calls: made, differences, errors, swapped, .. } = &both;
    let told = |counts: Vec<String>| counts.join(", ");
    println!(
        "random, seed {seed}: {calls} calls of both, {errors} of them answered by an error, no difference but {}; directories swapped {swapped} times; \
         {:.1} s",
        if differences.is_empty() {
            "none".to_string()
        } else {
            told(differences.iter().map(|(name, n)| format!("{n} x {name}")).collect())
        },
        started.elapsed().as_secs_f64()
    );
    println!("  {}", told(made.iter().map(|(name, n)| format!("{name} {n}")).collect()));
    drop(both);
    roots.iter().for_each(|root| drop(fs::remove_dir_all(root)));
}
