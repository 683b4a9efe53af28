//! `cda-store`: a store on a directory from the command line.
mod arguments;
mod count;
mod cuts;
mod failure;
mod fold;
mod help;
mod log;
mod operation;
mod progress;
mod rule;
mod svg;
mod table;
mod update;
mod why;

use arguments::Command;
use failure::Failure;
use std::{
    env,
    ffi::OsString,
    io::{ErrorKind, Write, stderr, stdout},
    process::ExitCode,
};

fn main() -> ExitCode {
    let words: Vec<OsString> = env::args_os().skip(1).collect();
    match arguments::read(&words).and_then(answer) {
        Ok(()) => ExitCode::SUCCESS,
        Err(failure) => {
            tell(&failure.to_string());
            ExitCode::from(failure.status())
        }
    }
}

/// Runs a command and prints its text. What was done in a store stays done where that can't be printed, and the status says so.
fn answer(command: Command) -> Result<(), Failure> {
    let done = command.works_on_a_store();
    match print(&run(command)?) {
        Err(failure) if done => {
            tell(&format!("done; {failure}"));
            Ok(())
        }
        printed => printed,
    }
}

/// A message on standard error; where it is closed, the status alone speaks.
fn tell(message: &str) {
    let _ = writeln!(stderr(), "cda-store: {message}");
}

/// Prints a text, or the bytes of a log. A reader that has seen enough is no failure.
fn print(bytes: &[u8]) -> Result<(), Failure> {
    match stdout().write_all(bytes).and_then(|()| stdout().flush()) {
        Err(error) if error.kind() != ErrorKind::BrokenPipe => Err(Failure::Io(format!("standard output: {error}"))),
        _ => Ok(()),
    }
}

/// Runs a command: what it prints.
fn run(command: Command) -> Result<Vec<u8>, Failure> {
    let text = match command {
        Command::Tell(text) => text,
        Command::List { store } => update::list(&store)?,
        Command::Inventory { store } => update::image(&store)?.inventory()? + "\n",
        Command::Log { of } => log::log(&of)?,
        Command::Canonical { of } => return log::canonical(&of),
        Command::Recover { store, way } => update::recover(&store, way)?,
        Command::Update { store, operations, hold, rotation, stop_after, trace } => {
            update::update(&store, &operations, hold, rotation.as_ref(), stop_after, trace.as_deref())?
        }
        Command::End { store, plan, stop_after } => update::end(&store, plan, stop_after)?,
        Command::Cuts { store, plan, operations, picture } => {
            let cuts = cuts::cuts(plan, &cuts::subject(&store, plan, &operations)?)?;
            if let Some(picture) = picture {
                std::fs::write(&picture, svg::picture(&cuts)).map_err(Failure::at(&picture))?;
            }
            table::text(&cuts)
        }
    };
    Ok(text.into_bytes())
}
