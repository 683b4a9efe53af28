//! Images, calls and answers as text, so that a difference can be read, and pasted back.
//!
//! An image is words: `db/` a directory, `db/a=7` a file, `~s.tmp=9` a staging file, `recording`, `committing` or `held` a log,
//! `/write/db/a/s.tmp` an operation in it, a Write of kind 1, `/write/db/a/s.tmp/1` a marked Write with its mark (and
//! `/delete/db/a`, `/delete_all/db`, `/create_collection/db`, `/delete_collection/db`, `/copy_collection/db/e/0` with whether the
//! destination existed), `times:32` that operation so many times in all, `more:HEX` bytes behind the log, `log:HEX` any other
//! log, `open` the open mark. `dirs:16`, `files:128`, `staged:32` and `bytes:6952` are so many directories, files of db, staging
//! files and zero bytes of log. `hex:HEX` is an image by its bytes. A name that can't be a word is `hex:HEX` too.
pub use plain::log::written as log;
use plain::{
    Image, Name, Operation,
    log::{Ending, Status, append, header, operations, status},
};
use store::{Answer, Call, Lent};

pub fn hex(bytes: &[u8]) -> String {
    bytes.iter().map(|b| format!("{b:02x}")).collect()
}

fn unhex(text: &str) -> Vec<u8> {
    let digit = |i: usize| u8::from_str_radix(&text[i..i + 2], 16).expect("two hexadecimal digits");
    (0..text.len()).step_by(2).map(digit).collect()
}

pub fn name(name: &[u8]) -> String {
    let plain = !name.is_empty() && !name.starts_with(b"hex:") && name.iter().all(|b| (0x21..=0x7E).contains(b));
    if plain { String::from_utf8(name.to_vec()).unwrap() } else { format!("hex:{}", hex(name)) }
}

fn read_name(text: &str) -> Name {
    text.strip_prefix("hex:").map_or_else(|| text.as_bytes().to_vec(), unhex)
}

fn operation(o: &Operation) -> String {
    use Operation::*;
    match o {
        Write { collection, key, staged, mark } => {
            let mark = mark.map_or(String::new(), |stood| format!("/{}", u8::from(stood)));
            format!("/write/{}/{}/{}{mark}", name(collection), name(key), name(staged))
        }
        Delete { collection, key } => format!("/delete/{}/{}", name(collection), name(key)),
        DeleteAll { collection } => format!("/delete_all/{}", name(collection)),
        CreateCollection { name: n } => format!("/create_collection/{}", name(n)),
        DeleteCollection { name: n } => format!("/delete_collection/{}", name(n)),
        CopyCollection { source, dest, existed } => format!("/copy_collection/{}/{}/{}", name(source), name(dest), u8::from(*existed)),
    }
}

fn read_flag(text: &str) -> bool {
    match text {
        "0" => false,
        "1" => true,
        other => panic!("{other} is not 0 or 1"),
    }
}

fn read_operation(text: &str) -> Operation {
    use Operation::*;
    let parts: Vec<&str> = text.split('/').skip(1).collect();
    let n = |i: usize| read_name(parts[i]);
    match parts[0] {
        "write" => Write { collection: n(1), key: n(2), staged: n(3), mark: parts.get(4).map(|mark| read_flag(mark)) },
        "delete" => Delete { collection: n(1), key: n(2) },
        "delete_all" => DeleteAll { collection: n(1) },
        "create_collection" => CreateCollection { name: n(1) },
        "delete_collection" => DeleteCollection { name: n(1) },
        "copy_collection" => CopyCollection { source: n(1), dest: n(2), existed: read_flag(parts[3]) },
        other => panic!("no operation is called {other}"),
    }
}

fn log_words(bytes: &[u8]) -> Vec<String> {
    if let Some(status) = status(bytes)
        && let (found, Ending::Whole) = operations(bytes)
        && log(status, &found) == bytes
    {
        let word = ["recording", "committing", "held"][status as usize];
        return std::iter::once(word.to_string()).chain(found.iter().map(operation)).collect();
    }
    vec![format!("log:{}", hex(bytes))]
}

pub fn image(bytes: &[u8]) -> String {
    match Image::decode(bytes) {
        Some(image) => store(&image),
        None => format!("hex:{}", hex(bytes)),
    }
}

/// As `image`, of a store that need not pass for one.
pub fn store(image: &Image) -> String {
    let mut words = Vec::new();
    for (dir, files) in &image.dirs {
        if files.is_empty() {
            words.push(format!("{}/", name(dir)));
        }
        words.extend(files.iter().map(|(file, number)| format!("{}/{}={number}", name(dir), name(file))));
    }
    words.extend(image.staging.iter().map(|(file, number)| format!("~{}={number}", name(file))));
    words.extend(image.log.iter().flat_map(|l| log_words(l)));
    words.extend(image.open.then(|| "open".to_string()));
    words.join(" ")
}

pub fn read_store(text: &str) -> Image {
    let mut image = Image::default();
    let numbered = |word: &str| {
        let (file, number) = word.rsplit_once('=').unwrap_or_else(|| panic!("what is {word}?"));
        (read_name(file), number.parse().expect("a content number"))
    };
    for word in text.split_whitespace() {
        if let Some(staged) = word.strip_prefix('~').filter(|w| !w.contains('/')) {
            image.staging.extend([numbered(staged)]);
        } else if word.starts_with('/') {
            append(image.log.as_mut().expect("a log before its operations"), &read_operation(word).encode());
        } else if let Some((dir, file)) = word.split_once('/') {
            let files = image.dirs.entry(read_name(dir)).or_default();
            files.extend((!file.is_empty()).then(|| numbered(file)));
        } else {
            read_word(&mut image, word);
        }
    }
    image
}

/// A word that is no file, directory or operation.
fn read_word(image: &mut Image, word: &str) {
    let (kind, value) = word.split_once(':').unwrap_or((word, ""));
    let count = || value.parse::<usize>().expect("a count");
    let numbered = |letter: char| (0..count()).map(move |i| (format!("{letter}{i:03}").into_bytes(), 1));
    match kind {
        "recording" => image.log = Some(header(Status::Recording)),
        "committing" => image.log = Some(header(Status::Committing)),
        "held" => image.log = Some(header(Status::Held)),
        "open" => image.open = true,
        "times" => {
            let log = image.log.as_mut().expect("a log");
            let last = operations(log).0.pop().expect("an operation").encode();
            (1..count()).for_each(|_| append(log, &last));
        }
        "more" => image.log.as_mut().expect("a log").extend(unhex(value)),
        "log" => image.log = Some(unhex(value)),
        "dirs" => image.dirs.extend(numbered('d').map(|(dir, _)| (dir, Default::default()))),
        "files" => image.dirs.entry(b"db".to_vec()).or_default().extend(numbered('f')),
        "staged" => image.staging.extend(numbered('s')),
        "bytes" => image.log = Some(vec![0; count()]),
        _ => panic!("what is {word}?"),
    }
}

pub fn read_image(text: &str) -> Vec<u8> {
    text.strip_prefix("hex:").map_or_else(|| read_store(text).encode(), unhex)
}

/// What a call is lent, in the words of an image; of one that takes a log the log in them, alone.
pub fn read_lent(call: &Call, text: &str) -> Vec<u8> {
    if call.takes_log() { read_store(text).log.expect("a log") } else { read_image(text) }
}

pub fn lent(call: &Call, bytes: &[u8]) -> String {
    if call.takes_log() { log_words(bytes).join(" ") } else { image(bytes) }
}

pub fn call(call: &Call) -> String {
    let words = |entry: &str, names: &[&Name]| names.iter().fold(entry.to_string(), |line, n| format!("{line} {}", quoted(&name(n))));
    match call {
        Call::Begin => "begin".into(),
        Call::Write { collection, key, staged, number } => format!("{} {number}", words("write", &[collection, key, staged])),
        Call::Delete { collection, key } => words("delete", &[collection, key]),
        Call::DeleteAll { collection } => words("delete_all", &[collection]),
        Call::CreateCollection { name } => words("create_collection", &[name]),
        Call::DeleteCollection { name } => words("delete_collection", &[name]),
        Call::CopyCollection { source, dest } => words("copy_collection", &[source, dest]),
        Call::Commit => "commit".into(),
        Call::CommitStep(n) => format!("commit_step {n}"),
        Call::Rollback => "rollback".into(),
        Call::HasPendingWork => "has_pending_work".into(),
        Call::Recover => "recover".into(),
        Call::RecoverStep(n) => format!("recover_step {n}"),
        Call::ListKeys { collection } => words("list_keys", &[collection]),
        Call::FindBackup => "find_backup".into(),
        Call::LogCause => "log_cause".into(),
        Call::Inventory => "inventory".into(),
        Call::Hold => "hold".into(),
        Call::HoldStep(n) => format!("hold_step {n}"),
        Call::Keep => "keep".into(),
        Call::KeepStep(n) => format!("keep_step {n}"),
        Call::Revert => "revert".into(),
        Call::RevertStep(n) => format!("revert_step {n}"),
    }
}

/// Takes a call off the front of the words.
pub fn read_call(words: &mut std::slice::Iter<String>) -> Call {
    let entry = words.next().expect("a call").as_str();
    let mut word = || words.next().unwrap_or_else(|| panic!("{entry} takes more")).as_str();
    match entry {
        "begin" => Call::Begin,
        "write" => Call::Write {
            collection: read_name(word()),
            key: read_name(word()),
            staged: read_name(word()),
            number: word().parse().expect("a content number"),
        },
        "delete" => Call::Delete { collection: read_name(word()), key: read_name(word()) },
        "delete_all" => Call::DeleteAll { collection: read_name(word()) },
        "create_collection" => Call::CreateCollection { name: read_name(word()) },
        "delete_collection" => Call::DeleteCollection { name: read_name(word()) },
        "copy_collection" => Call::CopyCollection { source: read_name(word()), dest: read_name(word()) },
        "commit" => Call::Commit,
        "commit_step" => Call::CommitStep(word().parse().expect("a step number")),
        "rollback" => Call::Rollback,
        "has_pending_work" => Call::HasPendingWork,
        "recover" => Call::Recover,
        "recover_step" => Call::RecoverStep(word().parse().expect("a step number")),
        "list_keys" => Call::ListKeys { collection: read_name(word()) },
        "find_backup" => Call::FindBackup,
        "log_cause" => Call::LogCause,
        "inventory" => Call::Inventory,
        "hold" => Call::Hold,
        "hold_step" => Call::HoldStep(word().parse().expect("a step number")),
        "keep" => Call::Keep,
        "keep_step" => Call::KeepStep(word().parse().expect("a step number")),
        "revert" => Call::Revert,
        "revert_step" => Call::RevertStep(word().parse().expect("a step number")),
        other => panic!("no entry is called {other}"),
    }
}

/// The command that asks all judges this again.
pub fn command(c: &Call, bytes: &[u8], room: Lent) -> String {
    let room = if room == Lent::AMPLE { String::new() } else { format!(" --lent {} {}", room.out, room.step) };
    format!("oracle/show {} '{}'{room}", call(c), lent(c, bytes).replace('\'', r"'\''"))
}

fn quoted(word: &str) -> String {
    let safe = word.bytes().all(|b| b.is_ascii_alphanumeric() || b"._-:=~/".contains(&b)) && !word.starts_with('~');
    if safe { word.to_string() } else { format!("'{}'", word.replace('\'', r"'\''")) }
}

/// A step's field: its tag and names.
pub fn field(bytes: &[u8]) -> String {
    match bytes {
        [] => "-".into(),
        [tag, _, _] => format!("{tag:02x}"),
        [tag, _, _, names @ ..] => format!("{tag:02x} {}", names.split(|b| *b == 0).map(name).collect::<Vec<_>>().join(" ")),
        _ => hex(bytes),
    }
}

pub fn answer(c: &Call, a: &Answer) -> String {
    let mut words = vec![if a.number == store::NO_OPINION { "no opinion".into() } else { a.number.to_string() }];
    words.extend(a.step.as_ref().map(|s| format!("[{}]", field(s))));
    words.extend(a.pending.map(|p| format!("pending {p}")));
    words.extend(a.cause.map(|cause| format!("cause {cause}")));
    words.extend(a.out.as_ref().map(|out| match c {
        Call::ListKeys { .. } => format!("keys {}", hex(out)),
        Call::Inventory => String::from_utf8_lossy(out).into_owned(),
        _ => format!("'{}'", image(out)),
    }));
    words.extend(a.stray.as_ref().map(|s| format!("STRAY {s}")));
    words.join("  ")
}
