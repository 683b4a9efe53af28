//! The command `cda-store`, run as a process.
mod common;

use cda_store::{Contents, FileStore, Files};
use common::{COMMITTING, Folder, OLD_WRITE, RECORDING, crc32, ten_steps};
use std::{
    collections::BTreeMap,
    fs,
    io::{ErrorKind, Write},
    path::PathBuf,
    process::{Command, Output, Stdio},
    thread,
    time::Duration,
};

const COMMANDS: [&str; 15] =
    ["list", "log", "inventory", "recover", "put", "delete", "copy", "create", "drop", "clear", "apply", "hold", "keep", "revert", "cuts"];

/// Document 01's ten-step case.
const TEN_STEPS: &str = "\
The commit has 10 steps. Cut behind step n and recovered, the store has:

 n  step                       files
 0  -                          earlier
 1  mark the log Committing    earlier
 2  sync the staging files     earlier
 3  sync the log               earlier
 4  rename db/a to db/a.bak    earlier
 5  move staged 2.tmp to db/a  earlier
 6  sync directory db          earlier
 7  sync the collections       earlier
 8  remove the log             later
 9  sync the journal           later
10  remove db/a.bak            later

11 cuts: 8 earlier, 3 later.
10 steps = 6 + w 1 + 2 x b 1 + c 1 + s 0: w writes, b of their keys already there, c collections named, s staging files that no write names.
";

/// A folder with a store in `store` and the files that are put.
struct Place(Folder);

impl Place {
    fn new() -> Place {
        let folder = Folder::new();
        fs::create_dir(folder.0.join("store")).unwrap();
        fs::write(folder.0.join("old"), "old").unwrap();
        fs::write(folder.0.join("new"), "newer").unwrap();
        Place(folder)
    }

    /// With db/a in it.
    fn with_a() -> Place {
        let place = Place::new();
        place.done("put store db/a old");
        place
    }

    fn run(&self, line: &str) -> Output {
        let mut command = Command::new(env!("CARGO_BIN_EXE_cda-store"));
        command.current_dir(&self.0.0).args(line.split_whitespace()).output().unwrap()
    }

    /// What the command prints, with its exit status.
    fn said(&self, line: &str) -> (i32, String) {
        let output = self.run(line);
        let text = [output.stdout, output.stderr].concat();
        (output.status.code().unwrap(), String::from_utf8(text).unwrap())
    }

    fn done(&self, line: &str) -> String {
        let (status, text) = self.said(line);
        assert_eq!(status, 0, "{line}: {text}");
        text
    }

    fn fails(&self, status: i32, line: &str, why: &str) {
        let before = self.0.everything();
        let (got, text) = self.said(line);
        assert_eq!(got, status, "{line}: {text}");
        assert!(text.contains(why), "{line}: {text}");
        assert_eq!(files(before), files(self.0.everything()), "{line} changes nothing");
    }
}

/// The files alone: a first begin makes directories.
fn files(everything: BTreeMap<PathBuf, Option<Vec<u8>>>) -> Vec<(PathBuf, Vec<u8>)> {
    everything.into_iter().filter_map(|(path, content)| Some((path, content?))).collect()
}

#[test]
fn every_command_does_its_work() {
    let place = Place::new();
    assert_eq!(place.done("create store db spare"), "Committed in 10 steps.\n");
    assert_eq!(place.done("put store db/A old db/b new"), "Committed in 9 steps.\n");
    assert_eq!(place.done("list store"), "db/\ndb/a 3\ndb/b 5\nspare/\n");
    place.done("copy store db other");
    place.done("delete store db/a");
    place.done("clear store other");
    place.done("drop store spare");
    assert_eq!(place.done("list store"), "db/\ndb/b 5\nother/\n");
    assert_eq!(place.done("recover store"), "Nothing to recover.\n");
}

#[test]
fn a_script_is_one_transaction() {
    let place = Place::with_a();
    fs::write(place.0.0.join("script"), "# both or none\nput db/a new\n\ncreate other # empty\n").unwrap();
    place.done("apply store script");
    assert_eq!(place.done("list store"), "db/\ndb/a 5\nother/\n");
    fs::write(place.0.0.join("script"), "delete db/a\ndrop missing\n").unwrap();
    place.fails(1, "apply store script", "refusal 7");
    fs::write(place.0.0.join("script"), "delete db/a\nput db/a\n").unwrap();
    place.fails(64, "apply store script", "script, line 2");
}

#[test]
fn a_set_of_keys_is_deleted_whole_or_not() {
    let place = Place::new();
    place.done("create store db");
    place.done("put store db/a old db/b new");
    place.fails(1, "delete store db/a db/gone db/b", "db/gone: refusal 8 (KeyNotFound)");
    place.fails(1, "delete store db/a db/..", "db/..: refusal 6 (InvalidName)");
    place.done("delete store db/B db/a db/b");
    assert_eq!(place.done("list store"), "db/\n");
}

#[test]
fn failures_are_told_apart() {
    let place = Place::with_a();
    place.fails(1, "drop store missing", "refusal 7 (CollectionNotFound)");
    place.fails(1, "put store db/.. new", "refusal 6 (InvalidName)");
    place.fails(1, "create store db", "refusal 9");
    place.fails(1, "cuts store", "refusal 4");
    place.fails(2, "put store db/a missing", "missing: ");
    place.fails(2, "list nowhere", "nowhere");
    fs::create_dir(place.0.0.join("store/collections/db/folder")).unwrap();
    place.fails(2, "list store", "store/collections/db/folder");
    place.fails(2, "put store db/a new", "store/collections/db/folder");
    for line in [
        "",
        "frob",
        "frob store",
        "list",
        "list store more",
        "put store",
        "put store db/a",
        "put store a new",
        "copy store db",
        "apply store",
        "hold store",
        "hold store frob",
        "keep",
        "keep store more",
        "revert store more",
        "cuts store keep more",
    ] {
        place.fails(64, line, "see cda-store --help");
    }
    for line in
        ["put store db/a new --svg x", "list store --stop-after 1", "put store db/a new --stop-after", "put store db/a new --stop-after x"]
    {
        place.fails(64, line, "see cda-store --help");
    }
}

#[test]
fn every_command_has_help() {
    let place = Place::new();
    let overview = place.done("--help");
    for command in COMMANDS {
        assert!(overview.contains(&format!("\n  {command} ")), "{command} in the overview");
        let help = place.done(&format!("{command} --help"));
        assert!(help.starts_with(&format!("Usage: cda-store {command} DIR")), "{help}");
        assert_eq!(help, place.done(&format!("help {command}")));
        assert!(help.contains("Exit status: 0 done; 1 refused"));
    }
    place.fails(64, "help frob", "no command is called frob");
}

#[test]
fn the_ten_step_case() {
    let place = Place::with_a();
    let before = place.0.everything();
    let table = place.done("cuts store put db/a new");
    assert!(table.starts_with(TEN_STEPS), "{table}");
    assert_eq!(before, place.0.everything());
    assert_eq!(place.said("put store db/a new --stop-after 0").0, 3);
    assert_eq!(place.done("cuts store"), table, "the same for the recorded transaction");
}

#[test]
fn an_image_file_holds_a_transaction() {
    let place = Place::new();
    fs::write(place.0.0.join("image"), ten_steps().bytes()).unwrap();
    assert!(place.done("cuts image").starts_with(&TEN_STEPS.replace("2.tmp", "s.tmp")));
    fs::write(place.0.0.join("image"), "no image").unwrap();
    place.fails(1, "cuts image", "refusal 1");
}

#[test]
fn an_old_log_can_lose_a_key() {
    let log = Some([RECORDING, OLD_WRITE].concat());
    let old = Contents { staging: [("s".to_string(), 9)].into(), log, ..ten_steps().contents() };
    let place = Place::new();
    fs::write(place.0.0.join("image"), old.image().unwrap().bytes()).unwrap();
    let table = place.done("cuts image");
    for step in ["1  mark the log Committing", "2  sync the staging files ", "3  sync the log           "] {
        assert!(table.contains(&format!("\n {step}  lost db/a (no mark and no backup)\n")), "{table}");
    }
    assert!(table.contains("\n11 cuts: 5 earlier, 3 lost, 3 later.\n"), "{table}");
    assert_eq!(sum(&table), Some([1, 1, 1, 0]), "counted as a marked Write");
}

/// The numbers w, b, c and s of the table's sum, which is the number of its steps; none where it has no sum.
fn sum(table: &str) -> Option<[usize; 4]> {
    let (steps, parts) = table.lines().find_map(|line| line.split(": ").next()?.split_once(" steps = 6 + "))?;
    let number = |part: &str| part.rsplit(' ').next().unwrap().parse::<usize>().unwrap();
    let [w, b, c, s] = parts.split(" + ").map(number).collect::<Vec<_>>().try_into().unwrap();
    assert_eq!((number(steps), claims(table).len()), (6 + w + 2 * b + c + s, number(steps) + 1), "{table}");
    Some([w, b, c, s])
}

#[test]
fn the_steps_of_puts_are_a_sum() {
    let (place, long) = (Place::with_a(), "l".repeat(62));
    place.done(&format!("put store e/k old e/{long} old"));
    fs::write(place.0.0.join("store/collections/db/K"), "").unwrap();
    let counted = |update: &str| sum(&place.done(&format!("cuts store {update}")));
    assert_eq!(counted("put db/a new"), Some([1, 1, 1, 0]));
    assert_eq!(counted("put db/b new"), Some([1, 0, 1, 0]));
    assert_eq!(counted("put db/k new"), Some([1, 0, 1, 0]), "K is another file");
    assert_eq!(counted("put db/A new db/b new e/k new e/l new"), Some([4, 2, 2, 0]));
    let failing = format!("put e/{long} new");
    for outside in ["put n/k new", "put db/a new db/A old", "put db/b.bak new", "put db/b.tmp new", "delete db/a", "clear n", &failing] {
        assert_eq!(counted(outside), None, "{outside}");
    }
    place.said("put store db/a new e/n new --stop-after 0");
    ["one", "two"].iter().for_each(|name| fs::write(place.0.0.join("store/journal/staging").join(name), "").unwrap());
    assert_eq!(counted(""), Some([2, 1, 2, 2]));
    place.done("put store db/t.tmp old");
    assert_eq!(counted("put db/a new"), None, "a name in .tmp");
}

#[test]
fn the_steps_of_a_false_mark_are_no_sum() {
    let (place, image) = (Place::new(), ten_steps());
    let with_mark = |mark: u8| {
        let mut contents = image.contents();
        let log = contents.log.as_mut().unwrap();
        *log.last_mut().unwrap() = mark;
        let checksum = crc32(&log[16..]).to_le_bytes();
        log[8..12].copy_from_slice(&checksum);
        fs::write(place.0.0.join("image"), contents.image().unwrap().bytes()).unwrap();
        sum(&place.done("cuts image"))
    };
    assert_eq!((with_mark(1), with_mark(0)), (Some([1, 1, 1, 0]), None));
}

/// The first word that the table says of each cut.
fn claims(table: &str) -> Vec<&str> {
    let rows = table.lines().skip(3).take_while(|line| !line.is_empty());
    rows.map(|row| row.rsplit("  ").next().unwrap().split(' ').next().unwrap()).collect()
}

/// What the table says of each cut is what `recover` leaves on disk.
#[test]
fn the_table_holds_on_disk() {
    let scripts = [
        "put db/a new",
        "put db/a new\nput db/b old\nput n/k new",
        "copy db z\nclear db\ncreate empty",
        "put db/a new\ndrop db",
        "delete db/a\ncopy db e\nput e/k new",
    ];
    for script in scripts {
        let place = || {
            let place = Place::with_a();
            place.done("put store e/k old");
            fs::write(place.0.0.join("script"), script).unwrap();
            place
        };
        let updated = place();
        let (table, earlier) = (updated.done("cuts store apply script"), updated.done("list store"));
        updated.done("apply store script");
        let later = updated.done("list store");
        for (n, claim) in claims(&table).into_iter().enumerate() {
            let place = place();
            let (status, text) = place.said(&format!("apply store script --stop-after {n}"));
            assert_eq!((status, text), (3, format!("Stopped after step {n}; cda-store recover ends the update.\n")));
            place.done("recover store");
            let left = place.done("list store");
            let got = if left == earlier {
                "earlier"
            } else if left == later {
                "later"
            } else {
                "neither"
            };
            let claim = if ["earlier", "later"].contains(&claim) { claim } else { "neither" };
            assert_eq!(got, claim, "{script:?} cut behind {n}: {left}");
        }
    }
    Place::with_a().fails(64, "put store db/a new --stop-after 11", "the commit has no step 11");
}

#[test]
fn an_interrupted_update_is_told_until_it_is_recovered() {
    let place = Place::with_a();
    place.said("put store db/a new --stop-after 4");
    assert_eq!(
        place.done("list store"),
        "db/\ndb/a.bak 3\nAn update was interrupted here; cda-store recover ends it.\nThe first backup is db/a.bak.\n"
    );
    let recovered = "   1  rename db/a.bak to db/a\n   2  remove the log\n   3  remove staged 2.tmp\nRecovered in 3 steps.\n";
    assert_eq!(place.done("recover store"), recovered);
    assert_eq!(place.done("list store"), "db/\ndb/a 3\n");
}

#[test]
fn a_running_update_is_not_called_interrupted() {
    let place = Place::with_a();
    let root = place.0.0.join("store");
    let store = FileStore::open(&root).unwrap();
    let mut transaction = store.begin().unwrap();
    transaction.write("db", "a", &b"newer"[..]).unwrap();
    for line in ["list store", "cuts store", "cuts store put db/a new"] {
        place.fails(2, line, "store: an update is running");
    }
    let update = thread::spawn(move || {
        let store = FileStore::open(root).unwrap();
        thread::sleep(Duration::from_millis(200));
        drop(store);
    });
    transaction.commit().unwrap();
    drop(store);
    assert_eq!(place.done("list store"), "db/\ndb/a 5\n");
    update.join().unwrap();
}

#[test]
fn an_update_recovers_first() {
    let place = Place::with_a();
    place.said("put store db/a new --stop-after 8");
    assert_eq!(place.done("put store db/b old"), "Recovered an interrupted update first, in 1 step.\nCommitted in 8 steps.\n");
    assert_eq!(place.done("list store"), "db/\ndb/a 5\ndb/b 3\n");
}

const HELD: &str = "An update is held here; cda-store keep accepts it, cda-store revert takes it back.\n";

#[test]
fn an_update_is_held_then_kept_or_reverted() {
    let place = Place::with_a();
    place.fails(1, "keep store", "refusal 18 (NothingHeld)");
    place.fails(1, "revert store", "refusal 18 (NothingHeld)");
    place.fails(1, "cuts store revert", "refusal 18 (NothingHeld)");
    let held = "Held in 9 steps; cda-store keep accepts it, cda-store revert takes it back.\n";
    assert_eq!(place.done("hold store put db/a new"), held);
    assert_eq!(place.done("list store"), format!("db/\ndb/a 5\ndb/a.bak 3\n{HELD}The first backup is db/a.bak.\n"));
    assert_eq!(place.done("recover store"), format!("Nothing to recover.\n{HELD}"));
    place.fails(1, "put store db/b new", "refusal 17 (HeldUpdate)");
    place.fails(1, "cuts store put db/b new", "refusal 17 (HeldUpdate)");
    place.fails(64, "keep store --stop-after 4", "the keep has no step 4");
    let reverted = "   1  remove db/a\n   2  rename db/a.bak to db/a\n   3  remove the log\n";
    assert_eq!(place.done("revert store"), format!("{reverted}Reverted in 3 steps.\n"));
    assert_eq!(place.done("list store"), "db/\ndb/a 3\n");
    place.done("hold store put db/a new");
    assert_eq!(place.done("keep store"), "   1  remove the log\n   2  sync the journal\n   3  remove db/a.bak\nKept in 3 steps.\n");
    assert_eq!(place.done("list store"), "db/\ndb/a 5\n");
}

#[test]
fn a_revert_that_was_interrupted_is_ended() {
    for (line, first) in
        [("recover store", "Ended the revert, in 2 steps.\n"), ("put store db/b new", "Ended an interrupted revert first, in 2 steps.\n")]
    {
        let place = Place::with_a();
        place.done("hold store put db/a new");
        assert_eq!(place.said("revert store --stop-after 1"), (3, "Stopped after step 1; cda-store recover ends the revert.\n".into()));
        let told = "The revert of a held update was interrupted here; cda-store recover ends it.\n";
        assert_eq!(place.done("list store"), format!("db/\ndb/a.bak 3\n{told}The first backup is db/a.bak.\n"));
        assert!(place.done(line).contains(first), "{line}");
        assert!(place.done("list store").starts_with("db/\ndb/a 3\n"));
    }
    // A keep ends it too, and finds nothing to keep then.
    let place = Place::with_a();
    place.done("hold store put db/a new");
    place.said("revert store --stop-after 1");
    assert_eq!(place.said("keep store").0, 1);
    assert_eq!(place.done("list store"), "db/\ndb/a 3\n");
}

/// What the tables of hold, keep and revert say of each cut is what `recover` leaves on disk.
#[test]
fn the_tables_of_a_held_update_hold_on_disk() {
    let script = "put db/a new\nput db/b old\ncopy e z\ndelete e/k";
    let place = || {
        let place = Place::with_a();
        place.done("put store e/k old");
        fs::write(place.0.0.join("script"), script).unwrap();
        place
    };
    let held = || {
        let place = place();
        place.done("hold store apply script");
        place
    };
    let (kept, reverted) = (held(), held());
    kept.done("keep store");
    reverted.done("revert store");
    let ends = [("earlier", reverted.done("list store")), ("held", held().done("list store")), ("later", kept.done("list store"))];
    assert_eq!(ends[0].1, place().done("list store"));
    for (plan, line) in [("hold apply script", "hold store apply script"), ("keep", "keep store"), ("revert", "revert store")] {
        let start: &dyn Fn() -> Place = if plan.starts_with("hold") { &place } else { &held };
        let table = start().done(&format!("cuts store {plan}"));
        for (n, claim) in claims(&table).into_iter().enumerate() {
            let place = start();
            assert_eq!(place.said(&format!("{line} --stop-after {n}")).0, 3);
            place.done("recover store");
            let left = place.done("list store");
            assert_eq!(ends.iter().find(|(_, end)| *end == left).map(|(word, _)| *word), Some(claim), "{line} cut behind {n}: {left}");
        }
    }
}

/// What recovery says of the log that an update left before anything was done, by what stands behind the log's entry.
#[test]
fn a_discarded_log_is_told_by_its_cause() {
    let entry = |payload: &[u8], checksum: u32| [&checksum.to_le_bytes(), &[payload.len() as u8, 0, 0, 0], payload].concat();
    let header = "It breaks at byte 41: cause 1, an entry's header is too short";
    let payload = "It breaks at byte 41: cause 2, an entry's payload is missing";
    let checksum = "It breaks at byte 41: cause 3, an entry's checksum is wrong";
    for (behind, told) in [(b"?".to_vec(), header), (entry(b"", 0), payload), (entry(b"?", crc32(b"!")), checksum)] {
        let place = Place::with_a();
        place.said("put store db/a new --stop-after 1");
        let log = place.0.0.join("store/journal/transaction.wal");
        fs::write(&log, [fs::read(&log).unwrap(), behind].concat()).unwrap();
        let printed = place.done("log store");
        assert_eq!(printed, place.done("log store/journal/transaction.wal"));
        let [status, operation, end] = printed.lines().collect::<Vec<_>>()[..] else { panic!("{printed}") };
        assert!(status.starts_with("Committing, ") && status.ends_with(" bytes"), "{status}");
        assert_eq!(
            (operation, end),
            ("   1  write staged 2.tmp to db/a; the key was there", &*format!("{told}. See cda-store log --help."))
        );
        let cause = told.strip_prefix("It breaks at byte 41: ").unwrap();
        let discarded = format!("The update's log was broken, and discarded: {cause}. See cda-store log --help.\n");
        assert_eq!(
            place.done("recover store"),
            format!("   1  remove the log\n   2  remove staged 2.tmp\nRecovered in 2 steps.\n{discarded}")
        );
        assert_eq!(place.done("list store"), "db/\ndb/a 3\n");
    }
}

#[test]
fn a_log_is_printed() {
    let place = Place::with_a();
    assert_eq!(place.done("log store"), "No log stands: no update is open or interrupted.\n");
    place.said("put store db/a new --stop-after 0");
    let whole = "Recording, 41 bytes\n   1  write staged 2.tmp to db/a; the key was there\nIt ends at byte 41 and is whole.\n";
    assert_eq!(place.done("log store"), whole);
    let write = |log: &[u8]| fs::write(place.0.0.join("store/journal/transaction.wal"), log).unwrap();
    write(&[RECORDING, &crc32(b"?").to_le_bytes(), &[1, 0, 0, 0], b"?"].concat());
    assert!(place.done("log store").starts_with("Recording, 17 bytes\nIt is read up to byte 8: refusal 11 "));
    write(b"?");
    place.fails(1, "log store", "refusal 21 (NoWholeLog)");
    write(&[0; 6_953]);
    place.fails(2, "log store/journal/transaction.wal", "transaction.wal: a log has at most 6952 bytes");
    place.fails(2, "log store", "transaction.wal: a log has at most 6952 bytes");
    place.fails(2, "log nothing", "nothing");
    place.fails(64, "log", "log takes a directory or a log");
    place.fails(64, "log store store", "log takes a directory or a log alone");
    let help = place.done("log --help");
    assert!(help.contains("as on a full flash; 3 that bytes changed which were written, as on a worn one."), "{help}");
}

/// Two boxes' logs of one history, which differ in bytes 2 and 3, are written alike.
#[test]
fn a_log_is_written_in_one_way() {
    let place = Place::with_a();
    place.fails(2, "log store --canonical", "store: no log stands");
    place.said("put store db/a new --stop-after 0");
    let path = place.0.0.join("store/journal/transaction.wal");
    let mut log = fs::read(&path).unwrap();
    let canonical = || {
        let mut command = Command::new(env!("CARGO_BIN_EXE_cda-store"));
        let output = command.args(["log", "--canonical"]).arg(&path).output().unwrap();
        assert!(output.status.success(), "{output:?}");
        output.stdout
    };
    assert_eq!(canonical(), log);
    let other = [&log[..2], &[0xFF, 0x0A], &log[4..]].concat();
    fs::write(&path, &other).unwrap();
    assert_eq!((canonical(), fs::read(&path).unwrap()), (log.clone(), other));
    let written = |log: &[u8], why: &str| {
        fs::write(&path, log).unwrap();
        place.fails(1, "log --canonical store", why);
    };
    written(&log[..40], "refusal 21 (NoWholeLog)");
    written(&[RECORDING, &crc32(b"?").to_le_bytes(), &[1, 0, 0, 0], b"?"].concat(), "refusal 11 (UndecodablePayload)");
    log[0] = 0;
    written(&log, "refusal 21 (NoWholeLog)");
    place.fails(64, "list --canonical store", "list has no --canonical");
    place.fails(64, "log --restore store", "log has no --restore");
}

/// The program that step traces are run through, where it was built: `rt run` in its crate's folder makes it.
fn step_trace(trace: &[u8]) -> Option<String> {
    let program = PathBuf::from(env!("CARGO_MANIFEST_DIR")).join("../crates/step_trace/out/step_trace");
    let mut run = Command::new(program).stdin(Stdio::piped()).stdout(Stdio::piped()).spawn().ok()?;
    run.stdin.take().unwrap().write_all(trace).unwrap();
    Some(String::from_utf8(run.wait_with_output().unwrap().stdout).unwrap())
}

/// What was carried out of an update that is killed after each of its steps is the beginning of its commit's plan.
#[test]
fn a_trace_is_kept_of_what_was_carried_out() {
    for n in 0..=9 {
        let place = Place::with_a();
        let (status, text) = place.said(&format!("put store db/a new --trace trace --stop-after {n}"));
        assert_eq!(status, 3, "{text}");
        let trace = fs::read(place.0.0.join("trace")).unwrap();
        let program = step_trace(&trace);
        assert!(program.is_none_or(|line| line == format!("steps {n}\n")), "after {n}");
        if n > 0 {
            let program = step_trace(&trace[..trace.len() - 1]);
            assert!(program.is_none_or(|line| line == format!("differs at {n}\n")), "after {n}, cut short");
        }
    }
    let place = Place::with_a();
    assert_eq!(place.done("put store db/a new --trace trace"), "Committed in 10 steps.\n");
    let trace = fs::read(place.0.0.join("trace")).unwrap();
    assert!(trace.ends_with(b"\x2d\0\0\x2b\0\0\x2e\0\0\x28\x08\0db\0a.bak"), "{trace:x?}");
    assert!(step_trace(&trace).is_none_or(|line| line == "steps 10\n"));
    place.fails(64, "hold store --trace trace put db/a new", "hold has no --trace");
    place.fails(2, "put store db/a new --trace nothing/trace", "nothing/trace");
    assert!(place.done("put --help").contains("step_trace < FILE prints steps N, or differs at N"));
}

/// An update is interrupted, and its log is damaged.
fn with_damaged_log(log: &[u8]) -> Place {
    let place = Place::with_a();
    place.said("put store db/a new db/b new --stop-after 5");
    fs::write(place.0.0.join("store/journal/transaction.wal"), log).unwrap();
    place
}

#[test]
fn a_damaged_log_is_named_and_two_ways_are_told() {
    for (log, why) in [(&b"?"[..], "store/journal/transaction.wal: the log is damaged"), (&[COMMITTING, b"?"].concat(), "refusal 13")] {
        let place = with_damaged_log(log);
        for line in ["recover store", "put store db/c new", "cuts store put db/c new"] {
            place.fails(1, line, why);
            place.fails(1, line, "cda-store recover --restore");
        }
        assert!(place.done("list store").ends_with("cda-store recover --help.\nThe first backup is db/a.bak.\n"));

        let told = place.done("recover --restore store");
        assert!(told.starts_with("   1  remove db/a\n   2  rename db/a.bak to db/a\n   3  remove the log\n"), "{told}");
        assert!(told.ends_with("Put the backups back, in 4 steps.\n"), "{told}");
        assert_eq!(place.done("list store"), "db/\ndb/a 3\n");

        let place = with_damaged_log(log);
        let told = place.done("recover store --accept");
        assert!(told.starts_with("   1  remove the log\n   2  remove staged 3.tmp\n   3  remove db/a.bak\n"), "{told}");
        assert!(told.ends_with("Kept what stands, in 3 steps.\n"), "{told}");
        assert_eq!(place.done("list store"), "db/\ndb/a 5\n");
    }
}

#[test]
fn restore_and_accept_are_for_a_damaged_log() {
    let place = Place::with_a();
    place.fails(1, "recover --restore store", "store: recovery is not refused here");
    place.said("put store db/a new --stop-after 6");
    place.fails(1, "recover --accept store", "store: recovery is not refused here");
    place.fails(64, "recover --accept --restore store", "one of --restore and --accept");
    place.fails(64, "list --accept store", "list has no --accept");
}

#[test]
fn reasons_are_told() {
    let place = Place::with_a();
    place.done("put store e/k old");
    let told = |script: &str, words: &[&str]| {
        fs::write(place.0.0.join("script"), script).unwrap();
        let table = place.done("cuts store apply script");
        words.iter().for_each(|words| assert!(table.contains(words), "{words}: {table}"));
    };
    told("put n/k new", &["kept n/ (made by this update)\n", "10 cuts: 4 earlier, 4 kept, 2 later."]);
    told("put db/a old\nput db/a new", &["changed db/a (written by this update)\n"]);
    told("put db/a new\ndrop db", &["changed db/a (written by this update); kept db/a.bak (a name in .bak)\n"]);
    told("copy db z\ncopy e z", &["kept z/, z/a (made by this update)\n"]);
    fs::write(place.0.0.join("store/collections/db/K"), "").unwrap();
    told("put db/k new\ndelete db/k\nput db/a new", &["lost db/k (no mark and no backup)\n"]);
    place.done("put store db/t.tmp old");
    told("clear db", &["lost db/t.tmp (a name in .tmp)\n"]);
}

/// What the table says of the cut rule.
fn rule(table: &str) -> Vec<&str> {
    table.lines().filter(|line| line.contains("the rule: ")).collect()
}

#[test]
fn whether_the_rule_speaks_of_an_update_is_told() {
    let place = Place::with_a();
    place.done("put store e/k old");
    let told = |script: &str| {
        fs::write(place.0.0.join("script"), script).unwrap();
        place.done("cuts store apply script")
    };
    let within = ["put db/a new\nput db/b new\ndelete e/k", "copy db z\ncopy e db\ndrop e", "create n\nclear db", "clear missing"];
    for script in within {
        let table = told(script);
        assert_eq!(rule(&table).len(), 1, "{table}");
        assert!(rule(&table)[0].starts_with("within the rule: ") && rule(&table)[0].ends_with("or exactly the files that it makes."));
        assert!(claims(&table).iter().all(|claim| ["earlier", "later"].contains(claim)), "{table}");
    }
    let held = place.done("cuts store hold put db/a new");
    assert!(rule(&held)[0].starts_with("within the rule: ") && rule(&held)[0].ends_with("or exactly the held update."), "{held}");
    let outside = |script: &str, why: &[&str]| {
        let table = told(script);
        assert_eq!(rule(&table), why.iter().map(|why| format!("outside the rule: {why}")).collect::<Vec<_>>(), "{table}");
    };
    outside("put n/k new", &["operation 1, put \"n/k\": the collection \"n\" is not there."]);
    outside("put db/a old\nput db/A new", &["operation 2, put \"db/a\": operation 1 touches the key \"db/a\" too."]);
    outside("put db/a old\ndelete db/a", &["operation 2, delete \"db/a\": operation 1 touches the key \"db/a\" too."]);
    outside("put db/a old\ndrop db", &["operation 2, drop \"db\": operation 1 touches the collection \"db\" too."]);
    outside("clear db\nput db/a new", &["operation 2, put \"db/a\": operation 1 touches the collection \"db\" too."]);
    outside("copy db z\ncopy e z", &["operation 2, copy \"e\" to \"z\": operation 1 touches the collection \"z\" too."]);
    let three = "operation 3, clear \"db\":";
    let twice = [1, 2].map(|i| format!("{three} operation {i} touches the collection \"db\" too."));
    outside("put db/a new\nput db/b new\nclear db", &twice.each_ref().map(String::as_str));
    outside("put db/b.bak new", &["operation 1, put \"db/b.bak\": the name \"b.bak\" ends in .bak or .tmp."]);
    outside("put db/.tmp new", &["operation 1, put \"db/.tmp\": the name \".tmp\" ends in .bak or .tmp."]);
    outside("copy db z.bak", &["operation 1, copy \"db\" to \"z.bak\": the name \"z.bak\" ends in .bak or .tmp."]);
    outside("create n.tmp", &["operation 1, create \"n.tmp\": the name \"n.tmp\" ends in .bak or .tmp."]);
    fs::write(place.0.0.join("store/collections/db/K"), "").unwrap();
    let renamed = ["operation 1, put \"db/k\": the log says that the key is new, and it is there."];
    outside("put db/k new\ndelete db/k", &[renamed[0], "operation 2, delete \"db/k\": operation 1 touches the key \"db/k\" too."]);
    place.done("create store s.tmp");
    place.done("put store db/t.tmp old");
    let names = "the store has \"db/t.tmp\", \"s.tmp/\", and no name in it may end in .bak or .tmp.";
    outside("clear db", &[names]);
}

/// Marks and flags of a log that are not true of its store.
#[test]
fn what_a_log_says_wrongly_is_told() {
    let place = Place::new();
    let outside = |image: &Contents, why: &str| {
        fs::write(place.0.0.join("image"), image.image().unwrap().bytes()).unwrap();
        let table = place.done("cuts image");
        assert_eq!(rule(&table), [format!("outside the rule: {why}")], "{table}");
    };
    let begun = ten_steps().rollback().and_then(|image| image.begin()).unwrap();
    let written = ten_steps().contents();
    let gone = [("db".to_string(), Files::new())].into();
    let missing = Contents { directories: gone, ..written.clone() };
    outside(&missing, "operation 1, put \"db/a\": the log says that the key was there, and it is not.");
    let old = Contents { staging: [("s".to_string(), 9)].into(), log: Some([RECORDING, OLD_WRITE].concat()), ..written };
    outside(&old, "operation 1, put \"db/a\": the log is an older version's and does not say whether the key was there.");
    let mut created = begun.create_collection("n").unwrap().contents();
    created.directories.insert("n".to_string(), Files::new());
    outside(&created, "operation 1, create \"n\": the collection \"n\" is there already.");
    let mut copied = begun.copy_collection("db", "n").unwrap().contents();
    copied.directories.insert("n".to_string(), Files::new());
    outside(&copied, "operation 1, copy \"db\" to \"n\": the log says that \"n\" is new, and it is there.");
    let mut copied = Contents { directories: copied.directories, log: None, ..Contents::default() };
    copied = copied.image().and_then(|image| image.begin()).and_then(|image| image.copy_collection("db", "n")).unwrap().contents();
    copied.directories.remove("n");
    outside(&copied, "operation 1, copy \"db\" to \"n\": the log says that \"n\" was there, and it is not.");
}

#[test]
fn a_refused_update_does_nothing() {
    let (place, long) = (Place::with_a(), "k".repeat(61));
    place.done(&format!("put store db/{long} old"));
    for update in [format!("put db/{long} new"), "apply script".into()] {
        fs::write(place.0.0.join("script"), "delete db/a\ndrop db\ncopy db z").unwrap();
        let table = place.done(&format!("cuts store {update} --svg cuts.svg"));
        assert!(table.starts_with("This update is refused, and nothing is done; refusal 14 (StepFailed): "), "{table}");
        assert_eq!(table.lines().count(), 1);
        let picture = fs::read_to_string(place.0.0.join("cuts.svg")).unwrap();
        assert_eq!(open_elements(&picture), Vec::<String>::new());
        assert!(picture.contains("This update is refused") && !picture.contains("mark the log"), "{picture}");
        place.fails(1, &update.replacen(' ', " store ", 1), "refusal 14");
        assert_eq!(place.done("recover store"), "Nothing to recover.\n");
    }
}

#[test]
fn the_picture_is_well_formed() {
    let place = Place::with_a();
    place.done("put store db/<&\"'>.tmp old");
    assert!(place.done("cuts store put db/a new --svg cuts.svg").contains("lost db/<&\"'>.tmp (a name in .tmp)"));
    let picture = fs::read_to_string(place.0.0.join("cuts.svg")).unwrap();
    assert_eq!(open_elements(&picture), Vec::<String>::new());
    for words in ["&lt;&amp;&quot;'&gt;", ">earlier<", ">later<", ">lost<"] {
        assert!(picture.contains(words), "{words}");
    }
    place.fails(2, "cuts store put db/a new --svg nowhere/cuts.svg", "nowhere/cuts.svg");
}

/// The elements that stay open; a tag or a text that XML doesn't have is a panic.
fn open_elements(xml: &str) -> Vec<String> {
    let mut open = Vec::new();
    for piece in xml.split('<').skip(1) {
        let (tag, text) = piece.split_once('>').expect("a tag has an end");
        assert!(!text.contains('>') && text.split('&').skip(1).all(|entity| entity.contains(';')), "{text}");
        let name = tag.trim_matches('/').split(' ').next().unwrap().to_string();
        assert!(tag.matches('"').count() % 2 == 0 && !name.is_empty(), "{tag}");
        match (tag.starts_with('/'), tag.ends_with('/')) {
            (true, _) => assert_eq!(open.pop(), Some(name)),
            (false, false) => open.push(name),
            (false, true) => {}
        }
    }
    open
}

#[test]
fn an_inventory_is_printed() {
    let place = Place::with_a();
    assert_eq!(place.done("inventory store"), "{\"db\":{\"a\":1}}\n");
    place.said("put store db/a new --stop-after 5");
    assert_eq!(place.done("inventory store"), "{\"db\":{\"a\":1,\"a.bak\":2}}\n", "backups too");
    fs::write(place.0.0.join("image"), ten_steps().bytes()).unwrap();
    assert_eq!(place.done("inventory image"), "{\"db\":{\"a\":7}}\n");
    fs::write(place.0.0.join("image"), b"\x10").unwrap();
    place.fails(1, "inventory image", "refusal 1");
    place.fails(2, "inventory nowhere", "nowhere");
    place.fails(64, "inventory", "inventory takes a directory");
    place.fails(64, "inventory store more", "inventory takes a directory or an image alone");
}

/// What python3 reads of an inventory, a line for each directory and each file; none where there is no python3.
fn read_by_python(place: &Place, line: &str) -> Option<String> {
    const READ: &str = "import json, sys
for directory, files in json.load(sys.stdin, object_pairs_hook=list):
    print(directory + '/')
    for name, number in files:
        print(directory + '/' + name, number)";
    let text = place.done(line);
    let mut python = match Command::new("python3").args(["-c", READ]).stdin(Stdio::piped()).stdout(Stdio::piped()).spawn() {
        Err(error) if error.kind() == ErrorKind::NotFound => {
            eprintln!("skipped, python3 is not there: what its reader of JSON makes of an inventory");
            return None;
        }
        started => started.unwrap(),
    };
    python.stdin.take().unwrap().write_all(text.as_bytes()).unwrap();
    let output = python.wait_with_output().unwrap();
    assert!(output.status.success(), "python3 reads {text}");
    Some(String::from_utf8(output.stdout).unwrap())
}

#[test]
fn python_reads_an_inventory_as_the_store_that_it_is_of() {
    let place = Place::new();
    let bytes = || (0x21..=0x7Eu8).filter(|byte| !b"./\\".contains(byte)).map(char::from);
    let files: Files = bytes().map(String::from).zip([1, 10, 4_294_967_295].into_iter().cycle()).collect();
    let quoted: Files = ["\"", "\"\"", "\":{\"", "},", "a\"b"].map(String::from).into_iter().zip(7..).collect();
    let directories = [("db".into(), files), ("\"".into(), quoted), ("{}".into(), Files::new()), ("\",\"".into(), Files::new())];
    let contents = Contents { directories: directories.into(), ..Contents::default() };
    fs::write(place.0.0.join("image"), contents.image().unwrap().bytes()).unwrap();
    let mut lines = String::new();
    for (directory, files) in &contents.directories {
        lines += &format!("{directory}/\n");
        lines.extend(files.iter().map(|(file, number)| format!("{directory}/{file} {number}\n")));
    }
    if let Some(read) = read_by_python(&place, "inventory image") {
        assert_eq!(read, lines);
    }
    place.done("put store db/a\"b old \"/\" new");
    if let Some(read) = read_by_python(&place, "inventory store") {
        assert_eq!(read, "\"/\n\"/\" 1\ndb/\ndb/a\"b 2\n");
    }
}
