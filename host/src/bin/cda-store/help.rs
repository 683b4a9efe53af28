//! What `--help` prints.
use crate::failure::Failure;
use std::fmt::Write;

struct Topic {
    name: &'static str,
    usage: &'static str,
    /// One line for the list of commands.
    line: &'static str,
    more: &'static str,
}

const UPDATE: &str = "The operations are one transaction. An update that was interrupted before is recovered first. `cda-store cuts` shows what an interruption
of this one would leave.
  --stop-after N   For tests: the process ends behind step N of the commit, as if it were killed there, with status 3.";

const TRACE: &str = "  --trace FILE     Keeps the step trace: the image before the commit, then the field of each step as it is carried out. The program step_trace
                   of this repository says whether they are the commit's: step_trace < FILE prints steps N, or differs at N.
";

const STOP: &str = "  --stop-after N   For tests: the process ends behind step N, as if it were killed there, with status 3.\n";

const TOPICS: [Topic; 16] = [
    Topic {
        name: "list",
        usage: "list DIR",
        line: "print collections, files and their sizes",
        more: "Sizes are in bytes. Nothing is changed. Last lines say if an interrupted update stands, or a held one, and which backup is the first.",
    },
    Topic {
        name: "log",
        usage: "log DIR|FILE [--canonical]",
        line: "print the log of an update: its operations, where it ends and how",
        more: "FILE is a log, such as journal/transaction.wal of a store. Nothing is changed.
A log is written from its front. Where it ends before its time, the first entry that is not whole has a cause:
  1                its header of 8 bytes is too short
  2                its payload is missing: its length is 0 or goes past the end
  3                its checksum is wrong
1 and 2 suggest that writing stopped, as on a full flash; 3 that bytes changed which were written, as on a worn one.
  --canonical      Writes the log itself to standard output, with the same status and operations and zeros in bytes 2 and 3, for an archive that
                   keeps each log once: two logs give the same bytes exactly if they have the same status and operations. A log that is not
                   read whole is refused: 21 without a valid header or where it breaks, 11 or 12 where its reading ends at one of these.",
    },
    Topic {
        name: "inventory",
        usage: "inventory DIR|IMAGE",
        line: "print collections and files as JSON",
        more: "One object: each collection's name with an object of its files' names and content numbers, such as {\"db\":{\"a\":7}}. Nothing is changed.
An image file (document 01, 'How a store is handed over') has these numbers; the files of DIR are numbered from 1 in their order. Backups are
shown too; staging files and the log of an interrupted update are not.",
    },
    Topic {
        name: "recover",
        usage: "recover DIR [--restore | --accept]",
        line: "end an interrupted update: undo it, or clear up behind it",
        more: "Prints the file steps that recovery carried out. Nothing is done where no update was interrupted. A held update stays held; a revert
of one that was interrupted is ended. Where the update's log was broken, but nothing was done yet, the log is discarded, and its cause is told:
see cda-store log --help.
Recovery is refused, and nothing is changed, where the log is damaged: refusals 11, 12 and 13, or a damaged header while backups stand. So is
the revert of a held update. Copy DIR, then choose:
  --restore        Each .bak is put back in place of its original, and log and staging files go. What the update had put anew, where nothing
                   stood before, stays. Choose it to have the files from before the update.
  --accept         Log, staging files and every .bak go, and what stands is kept. Choose it if the update had come to its end, or if the files
                   from before are worth less than those that stand.",
    },
    Topic {
        name: "put",
        usage: "put DIR COLLECTION/KEY FILE [COLLECTION/KEY FILE ..]",
        line: "write files",
        more: "The key is lowered. A collection that is missing is made.",
    },
    Topic {
        name: "delete",
        usage: "delete DIR COLLECTION/KEY ..",
        line: "delete files",
        more: "The keys are lowered. Keys of one collection that follow one another are deleted as one set: where one is missing or no name, it is named,
and nothing is renamed or deleted.",
    },
    Topic {
        name: "copy",
        usage: "copy DIR FROM TO",
        line: "copy a collection in place of another",
        more: "A collection that is copied onto itself ends empty, as in the original.",
    },
    Topic { name: "create", usage: "create DIR COLLECTION ..", line: "create collections", more: "It is refused where one exists." },
    Topic { name: "drop", usage: "drop DIR COLLECTION ..", line: "delete collections with their files", more: "It is refused where one is missing." },
    Topic { name: "clear", usage: "clear DIR COLLECTION ..", line: "delete all files of collections", more: "The collections stay." },
    Topic {
        name: "rotate",
        usage: "rotate DIR [--current NAME] [--next NAME] [--backup NAME]",
        line: "copy current to backup and next to current, delete next",
        more: "As one transaction. It is turned away where current is missing (19), or next is missing or has no file (20).
  --current, --next, --backup NAME   The collections, if they have other names: --current diagnostic_database.",
    },
    Topic {
        name: "apply",
        usage: "apply DIR SCRIPT",
        line: "several operations as one transaction",
        more: "A line of the script is a command from put to clear without DIR, such as: put db/a new.bin. # begins a remark.",
    },
    Topic {
        name: "hold",
        usage: "hold DIR OPERATION WORDS ..",
        line: "update, and keep the way back open",
        more: "OPERATION is a command from put to apply, without DIR: cda-store hold store put db/a new.bin. The new files stand and are read, beside
backups of those from before; until cda-store keep or cda-store revert the next update is refused (17).",
    },
    Topic {
        name: "keep",
        usage: "keep DIR",
        line: "accept the held update",
        more: "The backups go, and the store is as after an ordinary update. Prints the file steps. A keep that was interrupted leaves the update held,
or is ended by cda-store recover.",
    },
    Topic {
        name: "revert",
        usage: "revert DIR",
        line: "take the held update back",
        more: "The files from before stand again. Prints the file steps. A revert that was interrupted is ended by the next command that opens the store,
cda-store recover for one: a keep after half a revert would lose keys, so none is offered.",
    },
    Topic {
        name: "cuts",
        usage: "cuts DIR|IMAGE [hold] [OPERATION WORDS ..] [--svg FILE]
       cda-store cuts DIR|IMAGE keep|revert [--svg FILE]",
        line: "what a cut leaves, for each step of an update",
        more: "For each step n of the commit: the step, and what recovery leaves of a cut behind it. Nothing is changed and nothing is read but names.
OPERATION is a command from put to apply, without DIR: cda-store cuts store put db/a new.bin. It is taken upon what
recovery would make of DIR. Without it, the update is the one that was recorded in DIR and not committed, or that an image file holds
(document 01, 'How a store is handed over'). With hold it is that of the held commit, with keep or revert that of the held update in DIR; a revert
that is cut is ended by the next open.
For puts alone a line gives the number of steps as a sum, where no key is put twice, the collections stand, no name ends in .bak or .tmp, and
the commit is not refused.
Of an update, held or not, a last line says that it is within the cut rule: then every cut leaves exactly the earlier files or exactly the later
ones, which is proved. Else a line for each condition that does not hold, and for which operation:
  - no collection, file or key that stands or that the update touches has a name that ends in .bak or .tmp;
  - no two operations touch the same key, and none touches a collection of which another touches a key or the whole: clear, create and drop
    touch the whole of it, and copy the whole of TO;
  - the collections that are put to stand;
  - the log says rightly which keys that are put, and which TO, were there, and a collection to create is not there. A log of an older version
    does not say it of keys.
  --svg FILE       Draws a picture too.",
    },
];

const STATUS: &str =
    "Exit status: 0 done; 1 refused (why is printed, and the number if it has one); 2 a file call failed, or something stands in DIR that no store has;
3 stopped by --stop-after; 64 the command line is wrong. What was done in DIR is 0 even where standard output takes no text.
";

/// Whether a command records operations and commits them.
fn is_update(name: &str) -> bool {
    !["list", "log", "inventory", "recover", "keep", "revert", "cuts"].contains(&name)
}

/// Whether a command has steps behind which it can be stopped.
pub fn has_steps(name: &str) -> bool {
    is_update(name) || ["keep", "revert"].contains(&name)
}

/// Whether a command keeps a trace of its commit. The held commit is another plan than the one that a trace is held to.
pub fn has_trace(name: &str) -> bool {
    is_update(name) && name != "hold"
}

/// The help of a command, if there is one of that name.
pub fn of(name: &str) -> Result<String, Failure> {
    let topic = TOPICS.iter().find(|topic| topic.name == name);
    let Topic { usage, line, more, .. } = topic.ok_or_else(|| Failure::Usage(format!("no command is called {name}")))?;
    let option = match (has_trace(name), has_steps(name)) {
        (true, _) => " [--stop-after N] [--trace FILE]",
        (false, true) => " [--stop-after N]",
        _ => "",
    };
    let update = match (is_update(name), has_steps(name)) {
        (true, _) => format!("{UPDATE}\n{}", if has_trace(name) { TRACE } else { "" }),
        (false, true) => STOP.to_string(),
        _ => String::new(),
    };
    Ok(format!("Usage: cda-store {usage}{option}\n\n{name}: {line}.\n{more}\n{update}\n{STATUS}"))
}

pub fn overview() -> String {
    let mut text = "Usage: cda-store COMMAND ..\n\nA store of collections on a directory, updated by transactions.\n\n".to_string();
    for topic in &TOPICS {
        let _ = writeln!(text, "  {:9} {}", topic.name, topic.line);
    }
    text + "\ncda-store COMMAND --help says more, cda-store --version which version this is. Words behind -- are no options.
DIR must exist; a store needs nothing in it.\n\n"
        + STATUS
}

pub fn version() -> String {
    format!("cda-store {}\n", env!("CARGO_PKG_VERSION"))
}
