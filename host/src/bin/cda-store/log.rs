//! A log in words, and the one way to write it.
use crate::failure::Failure;
use cda_store::{Log, Reader, StoreError};
use std::{fmt::Write as _, fs::File, io::Read as _, path::Path};

/// The log of a store, or one in a file: status, operations, where it ends and how.
pub fn log(of: &Path) -> Result<String, Failure> {
    match bytes(of)? {
        Some(bytes) => Ok(text(&Log::read(&bytes)?, bytes.len())),
        None => Ok("No log stands: no update is open or interrupted.\n".to_string()),
    }
}

/// The same log, as every log with its status and operations is written.
pub fn canonical(of: &Path) -> Result<Vec<u8>, Failure> {
    match bytes(of)? {
        Some(bytes) => Log::canonical(&bytes).map_err(Failure::Log),
        None => Err(Failure::Io(format!("{}: no log stands", of.display()))),
    }
}

fn bytes(of: &Path) -> Result<Option<Vec<u8>>, Failure> {
    if of.is_dir() {
        return Ok(Reader::open(of)?.log()?);
    }
    let mut bytes = Vec::new();
    let file = File::open(of).map_err(Failure::at(of))?;
    file.take(Log::LIMIT as u64 + 1).read_to_end(&mut bytes).map_err(Failure::at(of))?;
    match bytes.len() > Log::LIMIT {
        true => Err(StoreError::Foreign { path: of.to_path_buf(), why: format!("a log has at most {} bytes", Log::LIMIT) }.into()),
        false => Ok(Some(bytes)),
    }
}

fn text(log: &Log, length: usize) -> String {
    let mut text = format!("{:?}, {length} bytes\n", log.status);
    for (i, operation) in log.operations.iter().enumerate() {
        let _ = writeln!(text, "{:4}  {operation}", i + 1);
    }
    let end = log.end;
    text + &match &log.broke {
        Ok(None) => format!("It ends at byte {end} and is whole.\n"),
        Ok(Some(cause)) => format!("It breaks at byte {end}: {cause}. See cda-store log --help.\n"),
        Err(refusal) => format!("It is read up to byte {end}: {refusal}.\n"),
    }
}
