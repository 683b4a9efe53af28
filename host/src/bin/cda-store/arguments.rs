//! The command line.
use crate::{failure::Failure, help, operation::Operation};
use cda_store::{Plan, Rotation};
use std::{ffi::OsString, path::PathBuf};

#[derive(Debug)]
pub enum Command {
    Tell(String),
    List {
        store: PathBuf,
    },
    Inventory {
        store: PathBuf,
    },
    Log {
        of: PathBuf,
    },
    /// Writes a log as every log with its status and operations is written.
    Canonical {
        of: PathBuf,
    },
    Recover {
        store: PathBuf,
        way: Way,
    },
    Update {
        store: PathBuf,
        operations: Vec<Operation>,
        hold: bool,
        /// The collections of a rotation, whose operations these are.
        rotation: Option<Rotation>,
        stop_after: Option<u64>,
        /// Where the image and the steps that were carried out go.
        trace: Option<PathBuf>,
    },
    /// Keeps or reverts the held update.
    End {
        store: PathBuf,
        plan: Plan,
        stop_after: Option<u64>,
    },
    Cuts {
        store: PathBuf,
        plan: Plan,
        operations: Vec<Operation>,
        picture: Option<PathBuf>,
    },
}

/// How a store is recovered.
#[derive(Clone, Copy, PartialEq, Eq, Debug)]
pub enum Way {
    Usual,
    /// Where that is refused: the backups are put back.
    Restore,
    /// Where that is refused: what stands is kept.
    Accept,
}

impl Command {
    /// Whether the command's work is done in a store; that of the others is the text that they print.
    pub fn works_on_a_store(&self) -> bool {
        matches!(self, Command::Recover { .. } | Command::Update { .. } | Command::End { .. })
    }
}

/// Reads the words behind the program's name. Those behind `--` are no options.
pub fn read(words: &[OsString]) -> Result<Command, Failure> {
    let mut parts = words.splitn(2, |word| word == "--").map(<[OsString]>::to_vec);
    let (mut words, behind) = (parts.next().unwrap_or_default(), parts.next().unwrap_or_default());
    if let Some(text) = told(&words)? {
        return Ok(Command::Tell(text));
    }
    let name = words.first().or(behind.first()).ok_or_else(|| Failure::Usage("no command".into()))?;
    let name = name.to_string_lossy().into_owned();
    help::of(&name)?;
    let stop_after = option(&mut words, "--stop-after", &name, help::has_steps(&name))?.map(number).transpose()?;
    let trace = option(&mut words, "--trace", &name, help::has_trace(&name))?.map(PathBuf::from);
    let picture = option(&mut words, "--svg", &name, name == "cuts")?.map(PathBuf::from);
    let rotation = rotation(&mut words, &name)?;
    let canonical = flag(&mut words, "--canonical", &name, "log")?;
    let way = match [flag(&mut words, "--restore", &name, "recover")?, flag(&mut words, "--accept", &name, "recover")?] {
        [false, false] => Way::Usual,
        [true, false] => Way::Restore,
        [false, true] => Way::Accept,
        [true, true] => return Err(Failure::Usage("recover takes one of --restore and --accept".into())),
    };
    if let Some(word) = words.iter().find(|word| word.len() > 1 && word.as_encoded_bytes().starts_with(b"-")) {
        return Err(Failure::Usage(format!("{name} has no {}; -- goes before a word that begins with -", word.display())));
    }
    let mut words = words.into_iter().chain(behind).skip(1);
    let what = if name == "log" { "a directory or a log" } else { "a directory" };
    let store = words.next().map(PathBuf::from).ok_or_else(|| Failure::Usage(format!("{name} takes {what}")))?;
    let words: Vec<OsString> = words.collect();
    match name.as_str() {
        "list" | "log" | "recover" | "keep" | "revert" | "rotate" if !words.is_empty() => {
            Err(Failure::Usage(format!("{name} takes {what} alone")))
        }
        "inventory" if !words.is_empty() => Err(Failure::Usage("inventory takes a directory or an image alone".into())),
        "list" => Ok(Command::List { store }),
        "log" if canonical => Ok(Command::Canonical { of: store }),
        "log" => Ok(Command::Log { of: store }),
        "inventory" => Ok(Command::Inventory { store }),
        "recover" => Ok(Command::Recover { store, way }),
        "keep" => Ok(Command::End { store, plan: Plan::Keep, stop_after }),
        "revert" => Ok(Command::End { store, plan: Plan::Revert, stop_after }),
        "hold" if words.is_empty() => Err(Failure::Usage("hold takes an operation".into())),
        "hold" => Ok(Command::Update { store, operations: operations(&words)?, hold: true, rotation: None, stop_after, trace }),
        "rotate" => {
            let operations = Operation::rotation(&rotation);
            Ok(Command::Update { store, operations, hold: false, rotation: Some(rotation), stop_after, trace })
        }
        "cuts" => {
            let (plan, words) = planned(&words)?;
            Ok(Command::Cuts { store, plan, operations: operations(words)?, picture })
        }
        _ => Ok(Command::Update { store, operations: Operation::read(&name, &words)?, hold: false, rotation: None, stop_after, trace }),
    }
}

/// The names of the collections of a rotation.
fn rotation(words: &mut Vec<OsString>, name: &str) -> Result<Rotation, Failure> {
    let mut rotation = Rotation::default();
    let names = [("--current", &mut rotation.current), ("--next", &mut rotation.next), ("--backup", &mut rotation.backup)];
    for (word, collection) in names {
        if let Some(given) = option(words, word, name, name == "rotate")? {
            *collection = given.to_string_lossy().into_owned();
        }
    }
    Ok(rotation)
}

/// An operation and its words; none where there are no words.
fn operations(words: &[OsString]) -> Result<Vec<Operation>, Failure> {
    words.split_first().map_or(Ok(Vec::new()), |(name, words)| Operation::read(&name.to_string_lossy(), words))
}

/// Which plan `cuts` is asked for, and the words behind it.
fn planned(words: &[OsString]) -> Result<(Plan, &[OsString]), Failure> {
    let Some((first, rest)) = words.split_first() else { return Ok((Plan::Commit, words)) };
    match first.to_str() {
        Some("hold") => Ok((Plan::Hold, rest)),
        Some("keep" | "revert") if !rest.is_empty() => Err(Failure::Usage(format!("cuts takes no word behind {}", first.display()))),
        Some("keep") => Ok((Plan::Keep, rest)),
        Some("revert") => Ok((Plan::Revert, rest)),
        _ => Ok((Plan::Commit, words)),
    }
}

/// The help or the version, if the words ask for it.
fn told(words: &[OsString]) -> Result<Option<String>, Failure> {
    let is = |word: &OsString, names: &[&str]| names.iter().any(|name| word == name);
    match words {
        [first, ..] if is(first, &["--version", "-V"]) => Ok(Some(help::version())),
        [first, name, ..] if is(first, &["help", "--help", "-h"]) => help::of(&name.to_string_lossy()).map(Some),
        [first] if is(first, &["help", "--help", "-h"]) => Ok(Some(help::overview())),
        [name, rest @ ..] if rest.iter().any(|word| is(word, &["--help", "-h"])) => help::of(&name.to_string_lossy()).map(Some),
        _ => Ok(None),
    }
}

fn number(word: OsString) -> Result<u64, Failure> {
    word.to_str().and_then(|word| word.parse().ok()).ok_or_else(|| Failure::Usage(format!("{} is no step number", word.display())))
}

/// Takes a word out of those of the command that has it: whether it was there.
fn flag(words: &mut Vec<OsString>, flag: &str, command: &str, of: &str) -> Result<bool, Failure> {
    let Some(at) = words.iter().position(|word| word == flag) else { return Ok(false) };
    words.remove(at);
    if command == of { Ok(true) } else { Err(Failure::Usage(format!("{command} has no {flag}"))) }
}

/// Takes an option and its word out of the words of a command that may have it.
fn option(words: &mut Vec<OsString>, option: &str, command: &str, may: bool) -> Result<Option<OsString>, Failure> {
    let Some(at) = words.iter().position(|word| word == option) else { return Ok(None) };
    if !may {
        return Err(Failure::Usage(format!("{command} has no {option}")));
    }
    if at + 1 == words.len() {
        return Err(Failure::Usage(format!("{option} takes a word")));
    }
    Ok(words.drain(at..at + 2).nth(1))
}
