//! The original and the adapter on a real runtime: what its users see of the locks, of tasks that are dropped, and of eight tasks at once.
use cda_interfaces::storage_api::{Collection, CollectionName, DirectFileAccess, RandomAccessData, Storage, StorageError, Transaction};
use std::{
    fs,
    path::{Path, PathBuf},
    sync::{
        Arc,
        atomic::{AtomicBool, AtomicU32, Ordering},
    },
    time::Duration,
};
use tokio::{io::AsyncWriteExt, time};

/// A folder that is removed when it is dropped.
struct Folder(PathBuf);

impl Folder {
    /// With db/a in it, and db/b.
    fn new() -> Folder {
        static NEXT: AtomicU32 = AtomicU32::new(0);
        let path = Path::new(env!("CARGO_TARGET_TMPDIR")).join(format!("{}-{}", std::process::id(), NEXT.fetch_add(1, Ordering::Relaxed)));
        let _ = fs::remove_dir_all(&path);
        fs::create_dir_all(path.join("collections/db")).unwrap();
        fs::write(path.join("collections/db/a"), "old").unwrap();
        Folder(path)
    }

    fn a(&self) -> String {
        fs::read_to_string(self.0.join("collections/db/a")).unwrap()
    }

    fn staged(&self) -> usize {
        fs::read_dir(self.0.join("journal/staging")).unwrap().count()
    }
}

impl Drop for Folder {
    fn drop(&mut self) {
        let _ = fs::remove_dir_all(&self.0);
    }
}

/// A storage as a service knows it.
trait Opens: Storage<CollectionHandle: Collection + DirectFileAccess + Send + Sync + 'static> + Send + Sync + Sized + 'static {
    fn opened(root: &Path) -> Arc<Self>;
}

impl Opens for cda_storage::LocalStorage {
    fn opened(root: &Path) -> Arc<Self> {
        Arc::new(cda_storage::LocalStorage::new(root).unwrap())
    }
}

impl Opens for cda_store_adapter::LocalStorage {
    fn opened(root: &Path) -> Arc<Self> {
        Arc::new(cda_store_adapter::LocalStorage::new(root).unwrap())
    }
}

macro_rules! both {
    ($($name:ident),* $(,)?) => {
        mod original {
            $(#[tokio::test(flavor = "multi_thread", worker_threads = 4)] async fn $name() { super::$name::<cda_storage::LocalStorage>().await })*
        }
        mod adapter {
            $(#[tokio::test(flavor = "multi_thread", worker_threads = 4)] async fn $name() { super::$name::<cda_store_adapter::LocalStorage>().await })*
        }
    };
}

both!(
    a_commit_waits_for_who_reads,
    a_dropped_commit_runs_to_its_end,
    a_dropped_transaction_is_rolled_back,
    content_comes_as_a_stream,
    a_dropped_write_records_nothing,
    a_panic_rolls_back,
    eight_tasks_at_once,
);

fn db() -> CollectionName {
    CollectionName::Custom("db".to_string())
}

async fn put<S: Opens>(storage: &S, tx: &mut Transaction, key: &str, text: &str) {
    storage.get_collection(&db()).await.unwrap().write(tx, key, &mut text.as_bytes()).await.unwrap();
}

/// Begins as soon as no other is open.
async fn begin<S: Opens>(storage: &S) -> Transaction {
    loop {
        match storage.begin_transaction() {
            Err(StorageError::TransactionBusy) => time::sleep(Duration::from_micros(300)).await,
            begun => return begun.unwrap(),
        }
    }
}

async fn a_commit_waits_for_who_reads<S: Opens>() {
    let folder = Folder::new();
    let storage = S::opened(&folder.0);
    let read = storage.get_collection(&db()).await.unwrap().read("a").await.unwrap();
    let mut tx = storage.begin_transaction().unwrap();
    put(&*storage, &mut tx, "a", "new").await;
    let commit = tokio::spawn(tx.commit());
    time::sleep(Duration::from_millis(40)).await;
    assert!(!commit.is_finished() && folder.a() == "old");
    assert!(matches!(storage.begin_transaction(), Err(StorageError::TransactionBusy)), "it is under way");
    let mut text = [0; 3];
    assert_eq!((read.read_at(0, &mut text).unwrap(), &text), (3, b"old"));
    drop(read);
    commit.await.unwrap().unwrap();
    assert_eq!(folder.a(), "new");
    storage.begin_transaction().unwrap();
}

async fn a_dropped_commit_runs_to_its_end<S: Opens>() {
    let folder = Folder::new();
    let storage = S::opened(&folder.0);
    for round in 0..20 {
        let read = storage.get_collection(&db()).await.unwrap().read("a").await.unwrap();
        let mut tx = begin(&*storage).await;
        put(&*storage, &mut tx, "a", &format!("round {round}")).await;
        let gave_up = time::timeout(Duration::from_millis(5), tx.commit()).await;
        assert!(gave_up.is_err(), "the commit's future is dropped while it waits");
        drop(read);
        drop(begin(&*storage).await);
        assert_eq!(folder.a(), format!("round {round}"));
        assert_eq!(folder.staged(), 0);
    }
}

async fn a_dropped_transaction_is_rolled_back<S: Opens>() {
    let folder = Folder::new();
    let storage = S::opened(&folder.0);
    let mut tx = storage.begin_transaction().unwrap();
    put(&*storage, &mut tx, "a", "new").await;
    assert_eq!(folder.staged(), 1);
    tokio::spawn(async move { drop(tx) }).await.unwrap();
    assert!(folder.staged() == 0 && !folder.0.join("journal/transaction.wal").exists() && folder.a() == "old");
    storage.begin_transaction().unwrap();
}

async fn content_comes_as_a_stream<S: Opens>() {
    let folder = Folder::new();
    let storage = S::opened(&folder.0);
    let mut tx = storage.begin_transaction().unwrap();
    let (mut source, mut stream) = tokio::io::duplex(1000);
    let sent = tokio::spawn(async move {
        for piece in 0..50u8 {
            source.write_all(&vec![piece; 7000]).await.unwrap();
            if piece % 10 == 0 {
                time::sleep(Duration::from_millis(1)).await;
            }
        }
    });
    storage.get_collection(&db()).await.unwrap().write(&mut tx, "A", &mut stream).await.unwrap();
    sent.await.unwrap();
    tx.commit().await.unwrap();
    let content = fs::read(folder.0.join("collections/db/a")).unwrap();
    assert!(content.len() == 350_000 && content.iter().enumerate().all(|(i, byte)| usize::from(*byte) == i / 7000));
}

async fn a_dropped_write_records_nothing<S: Opens>() {
    let folder = Folder::new();
    let storage = S::opened(&folder.0);
    let collection = storage.get_collection(&db()).await.unwrap();
    let mut tx = storage.begin_transaction().unwrap();
    let (mut source, mut stream) = tokio::io::duplex(1000);
    source.write_all(b"half of it").await.unwrap();
    let gave_up = time::timeout(Duration::from_millis(10), collection.write(&mut tx, "a", &mut stream)).await;
    assert!(gave_up.is_err(), "the stream has no end");
    put(&*storage, &mut tx, "b", "whole").await;
    tx.commit().await.unwrap();
    assert!(folder.a() == "old" && folder.staged() == 0);
    assert_eq!(collection.len().await.unwrap(), 2);
}

async fn a_panic_rolls_back<S: Opens>() {
    let folder = Folder::new();
    let storage = S::opened(&folder.0);
    let shared = Arc::clone(&storage);
    let panicked = tokio::spawn(async move {
        let mut tx = shared.begin_transaction().unwrap();
        put(&*shared, &mut tx, "a", "new").await;
        panic!("on purpose")
    });
    assert!(panicked.await.is_err());
    assert_eq!(folder.a(), "old");
    storage.begin_transaction().unwrap();
}

/// Eight tasks update their own key and a pair of keys, whenever they get a transaction, and end it in every way; four more read all the while.
async fn eight_tasks_at_once<S: Opens>() {
    let folder = Folder::new();
    let storage = S::opened(&folder.0);
    let over = Arc::new(AtomicBool::new(false));
    let readers: Vec<_> = (0..4)
        .map(|reader| {
            let (storage, over) = (Arc::clone(&storage), Arc::clone(&over));
            tokio::spawn(async move {
                let collection = storage.get_collection(&db()).await.unwrap();
                let mut seen = 0u32;
                while !over.load(Ordering::Relaxed) {
                    let keys = collection.list().await.unwrap();
                    assert_eq!(keys.contains(&"left".to_string()), keys.contains(&"right".to_string()), "{keys:?}");
                    if reader % 2 == 0 {
                        if let Ok(data) = collection.read("left").await {
                            let mut text = vec![0; 64];
                            let length = data.read_at(0, &mut text).unwrap();
                            assert_eq!(length, 40);
                            assert_eq!(length as u64, data.data_size().unwrap());
                        }
                    } else if let Ok(metadata) = collection.metadata("Right").await {
                        assert_eq!(metadata.data_size, 40);
                    }
                    seen += 1;
                    tokio::task::yield_now().await;
                }
                seen
            })
        })
        .collect();
    let writers: Vec<_> = (0..8)
        .map(|writer| {
            let storage = Arc::clone(&storage);
            tokio::spawn(async move {
                for turn in 0..12 {
                    let mut tx = begin(&*storage).await;
                    let text = format!("{:40}", format!("{writer} {turn}"));
                    for key in [&format!("own{writer}"), "left", "RIGHT"] {
                        put(&*storage, &mut tx, key, &text).await;
                    }
                    match turn % 6 {
                        2 => tx.rollback(),
                        3 => drop(tx),
                        4 => drop(time::timeout(Duration::ZERO, tx.commit()).await),
                        _ => tx.commit().await.unwrap(),
                    }
                }
            })
        })
        .collect();
    for writer in writers {
        writer.await.unwrap();
    }
    drop(begin(&*storage).await);
    over.store(true, Ordering::Relaxed);
    for reader in readers {
        assert!(reader.await.unwrap() > 0);
    }
    let file = |name: String| fs::read_to_string(folder.0.join("collections/db").join(name)).unwrap();
    assert_eq!(file("left".into()), file("right".into()));
    (0..8).for_each(|writer| assert_eq!(file(format!("own{writer}")), format!("{:40}", format!("{writer} 11"))));
    assert_eq!(fs::read_dir(folder.0.join("collections/db")).unwrap().count(), 11);
    assert_eq!(folder.staged(), 0);
}
