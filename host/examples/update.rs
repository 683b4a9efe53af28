//! Two files in one transaction: cargo run --example update DIR
use cda_store::{FileStore, Refusal, StoreError};

fn main() -> Result<(), StoreError> {
    let directory = std::env::args().nth(1).expect("a directory");
    // If an update was interrupted, it is recovered here.
    let store = FileStore::open(directory)?;

    let mut transaction = store.begin()?;
    transaction.write("db", "faults", &b"engine, brakes"[..])?;
    transaction.write("db", "version", &b"2"[..])?;
    transaction.commit()?;
    println!("db holds {}", store.list("db")?.join(", "));

    // A refusal records nothing. The transaction is rolled back where it is dropped.
    match store.begin()?.delete("db", "missing") {
        Err(StoreError::Refused(Refusal::KeyNotFound)) => println!("nothing to delete"),
        other => other?,
    }
    Ok(())
}
