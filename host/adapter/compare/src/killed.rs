//! A process that updates a directory through the adapter, killed at any moment. Opened again, the directory holds what all commits left that had
//! answered, or these and the one that was under way; read through the adapter's own traits.
use crate::{
    Random, block_on,
    disk::{Tree, disk},
    folder,
};
use cda_interfaces::storage_api::{Collection, CollectionName, RandomAccessData, Storage, StorageError};
use cda_store_adapter::LocalStorage;
use std::{
    collections::BTreeMap,
    env, fs,
    io::{BufRead, BufReader, Write},
    process::{Command, Stdio},
    thread,
    time::{Duration, Instant},
};

const COLLECTIONS: [&str; 3] = ["current", "next", "backup"];
const KEYS: [&str; 6] = ["a", "b", "c.odx", "version", "long.name.mdd", "z"];

/// What the update of a number does: puts, a put beside deletions, or the rotation of collections.
enum Update {
    Put(Vec<(&'static str, &'static str, Vec<u8>)>),
    Replace { put: (&'static str, &'static str, Vec<u8>), delete: &'static str },
    Rotate,
}

fn update(seed: u64, number: u64) -> Update {
    let random = &mut Random::new(seed, number);
    let content = |random: &mut Random| vec![random.next() as u8; random.below(20_000)];
    match random.below(6) {
        0 => Update::Rotate,
        1 => Update::Replace { put: ("next", "version", content(random)), delete: random.pick(&["a", "b", "z"]) },
        _ => {
            let collection = random.pick(&COLLECTIONS[..2]);
            let keys: Vec<&str> = KEYS.into_iter().filter(|_| random.one_in(2)).collect();
            Update::Put(keys.into_iter().map(|key| (collection, key, content(random))).collect())
        }
    }
}

/// The files behind an update.
fn after(seed: u64, number: u64, tree: &mut Tree) {
    match update(seed, number) {
        Update::Put(puts) => puts.into_iter().for_each(|(collection, key, content)| {
            tree.entry(collection.to_string()).or_default().insert(key.to_string(), content);
        }),
        Update::Replace { put: (collection, key, content), delete } => {
            let files = tree.entry(collection.to_string()).or_default();
            files.insert(key.to_string(), content);
            files.remove(delete);
        }
        Update::Rotate => {
            tree.insert("backup".to_string(), tree["current"].clone());
            tree.insert("current".to_string(), tree["next"].clone());
        }
    }
}

fn named(name: &str) -> CollectionName {
    CollectionName::Custom(name.to_string())
}

async fn carry_out(storage: &LocalStorage, update: Update) -> Result<(), StorageError> {
    let mut transaction = storage.begin_transaction()?;
    let puts = match &update {
        Update::Put(puts) => puts.as_slice(),
        Update::Replace { put, .. } => std::slice::from_ref(put),
        Update::Rotate => &[],
    };
    for (collection, key, content) in puts {
        storage.get_collection(&named(collection)).await?.write(&mut transaction, key, &mut &content[..]).await?;
    }
    match update {
        Update::Replace { put: (collection, ..), delete } => {
            let deleted = storage.get_collection(&named(collection)).await?.delete(&mut transaction, delete).await;
            assert!(matches!(deleted, Ok(()) | Err(StorageError::KeyNotFound(_))));
        }
        Update::Rotate => {
            storage.copy_collection(&mut transaction, &named("current"), &named("backup")).await?;
            storage.copy_collection(&mut transaction, &named("next"), &named("current")).await?;
        }
        Update::Put(_) => {}
    }
    transaction.commit().await
}

/// The process that is killed: it tells the number of each update that was committed.
pub fn victim(folder: &str, seed: u64, from: u64) {
    let storage = LocalStorage::new(folder).unwrap();
    for number in from.. {
        block_on(carry_out(&storage, update(seed, number))).unwrap();
        println!("{number}");
        std::io::stdout().flush().unwrap();
    }
}

/// The files as the traits show them.
fn seen(storage: &LocalStorage) -> Tree {
    let files = |name: &str| {
        let collection = block_on(storage.get_collection(&named(name))).ok()?;
        let mut files = BTreeMap::new();
        for key in block_on(collection.list()).unwrap() {
            let data = block_on(collection.read(&key)).unwrap();
            let mut content = vec![0; data.data_size().unwrap() as usize];
            assert_eq!(data.read_at(0, &mut content).unwrap(), content.len());
            files.insert(key, content);
        }
        Some((name.to_string(), files))
    };
    COLLECTIONS.iter().filter_map(|name| files(name)).collect()
}

pub fn run(seed: u64, kills: u64) {
    let (started, root) = (Instant::now(), folder("killed"));
    let storage = LocalStorage::new(&root).unwrap();
    COLLECTIONS.iter().for_each(|name| drop(block_on(storage.get_or_create_collection(&named(name))).unwrap()));
    let mut tree = seen(&storage);
    drop(storage);
    let (mut number, mut committed, mut pending, mut before, mut behind) = (0, 0, 0, 0, 0);
    for kill in 0..kills {
        let mut child = Command::new(env::current_exe().unwrap());
        let words = ["victim", root.to_str().unwrap(), &seed.to_string(), &number.to_string()];
        let mut child = child.args(words).stdout(Stdio::piped()).spawn().unwrap();
        let mut lines = BufReader::new(child.stdout.take().unwrap());
        let mut line = String::new();
        lines.read_line(&mut line).unwrap();
        thread::sleep(Duration::from_micros(Random::new(seed, kill).next() % 12_000));
        child.kill().unwrap();
        child.wait().unwrap();
        let told = [line].into_iter().chain(lines.lines().map(Result::unwrap)).filter(|line| !line.trim().is_empty()).count() as u64;
        (number..number + told).for_each(|number| after(seed, number, &mut tree));
        (number, committed) = (number + told, committed + told);
        let mut later = tree.clone();
        after(seed, number, &mut later);
        pending += u64::from(disk(&root).log.is_some());
        let storage = LocalStorage::new(&root).unwrap();
        let (found, standing) = (seen(&storage), disk(&root));
        assert_eq!(standing.collections.as_ref(), Some(&found), "kill {kill}");
        assert!(standing.log.is_none() && standing.staging.is_none_or(|staging| staging.is_empty()), "kill {kill}");
        if found == later && later != tree {
            (tree, number, behind) = (later, number + 1, behind + 1);
        } else {
            assert!(found == tree, "kill {kill}, update {number}: neither the earlier files nor the later ones");
            before += 1;
        }
    }
    println!(
        "killed, seed {seed}: {kills} kills at any moment, {pending} of them beside a log, {committed} updates that had answered; {before} left the \
         earlier files, {behind} the later ones, none anything else; {:.1} s",
        started.elapsed().as_secs_f64()
    );
    let _ = fs::remove_dir_all(root);
}
