//! The lists that the programs corners and replay ask of the port, and what the programs must print. Answers are the original's, but for
//! the kinds and marks of Writes; where it has no opinion, or document 02, item 4 departs from it, the plain reading's. The port is not
//! asked. crates/questions/src/lib.rt has the layout of a list.
use crate::choice::{Choice, Kind, LOGS, entry};
use crate::corners::{self, Line};
use crate::panel::{By, Panel, Question};
use crate::{boundary, damaged, random, small, text, wrong};
use plain::image::{put_field, take_field};
use std::collections::BTreeMap;
use std::path::Path;
use store::{Answer, Call, Lent};

const SEED: u64 = 1;
const CASES: u64 = 10_000;
const EVERY: u64 = 16;

const TEXT: u8 = 0x40;
const ASKED: u8 = 0x41;
const ASKED_BY_DOCUMENTS: u8 = 0x42;

const ENTRIES: [&str; 23] = [
    "begin",
    "write",
    "delete",
    "delete_all",
    "create_collection",
    "delete_collection",
    "copy_collection",
    "rollback",
    "commit",
    "commit_step",
    "has_pending_work",
    "recover",
    "recover_step",
    "list_keys",
    "find_backup",
    "log_cause",
    "inventory",
    "hold",
    "hold_step",
    "keep",
    "keep_step",
    "revert",
    "revert_step",
];

/// The numbers that an entry answers.
fn numbers() -> impl Iterator<Item = u32> {
    (0..=18).chain([21])
}

/// As `choice::Kind` numbers them, from 1.
const OPERATIONS: [&str; 8] =
    ["Write of kind 1", "Delete", "DeleteAll", "CreateCollection", "DeleteCollection", "CopyCollection", "marked 0", "marked 1"];

/// Every step of document 01: 0x2A is none.
const STEPS: [u8; 14] = [0x20, 0x21, 0x22, 0x23, 0x24, 0x25, 0x26, 0x27, 0x28, 0x29, 0x2B, 0x2C, 0x2D, 0x2E];

pub fn run(panel: &mut Panel, table: &str, root: &str) {
    panel.port = None;
    let write = |file: &str, bytes: &[u8]| {
        let path = Path::new(root).join(file);
        std::fs::create_dir_all(path.parent().unwrap()).expect("a folder");
        std::fs::write(path, bytes).expect("a file");
    };
    let (list, printed) = corners_list(panel, table);
    println!("corners: {} bytes of questions, {} lines", list.len(), printed.lines().count());
    write("crates/corners/data/questions", &list);
    write("crates/corners/stdout", printed.as_bytes());
    let chosen = choose(panel);
    let questions: Vec<Question> = chosen.iter().map(|(_, question)| question.clone()).collect();
    wrong::found_out(panel, &questions, "crates/replay/data/answers");
    panel.port = None;
    let replay = Replay::new(panel, &chosen);
    println!("replay: {} questions, {} bytes\n{}", chosen.len(), replay.list.len(), replay.tables);
    write("crates/replay/data/answers", &replay.list);
    write("crates/replay/data/README.md", replay.readme().as_bytes());
    write("crates/replay/stdout", replay.printed.as_bytes());
}

/// The answer that decides, and whose it is. The judges must agree.
fn decided(panel: &Panel, question: &Question) -> (Answer, By) {
    let differ = || panic!("the judges differ: {}", text::command(&question.call, &question.image, question.lent));
    panel.decide(question).unwrap_or_else(differ)
}

/// The tag under which a question is listed.
fn tag(by: By) -> u8 {
    match by {
        By::Original | By::ButForMarks => ASKED,
        By::Item4 | By::Documents => ASKED_BY_DOCUMENTS,
    }
}

/// How a line of corners says whose its answer is.
fn said_by(by: By) -> &'static str {
    match by {
        By::Original => "",
        By::ButForMarks => "but for kind and mark | ",
        By::Item4 => "other than the original, by document 02 | ",
        By::Documents => "by the documents alone | ",
    }
}

/// A question as the fields of a list.
fn fields(question: &Question) -> Vec<u8> {
    let mut out = Vec::new();
    let (entry, names) = entry(&question.call);
    put_field(&mut out, 0x01, &[&[entry]]);
    let tags = if matches!(question.call, Call::CopyCollection { .. }) { [0x02, 0x05, 0] } else { [0x02, 0x03, 0x04] };
    tags.iter().zip(names).for_each(|(tag, name)| put_field(&mut out, *tag, &[name]));
    match question.call {
        Call::Write { number, .. } => put_field(&mut out, 0x06, &[&number.to_le_bytes()]),
        Call::CommitStep(n) | Call::RecoverStep(n) | Call::HoldStep(n) | Call::KeepStep(n) | Call::RevertStep(n) => {
            put_field(&mut out, 0x06, &[&n.to_le_bytes()])
        }
        _ => {}
    }
    if question.lent != Lent::AMPLE {
        let length = |n: usize| u32::try_from(n).expect("a length").to_le_bytes();
        put_field(&mut out, 0x07, &[&length(question.lent.out), &length(question.lent.step)]);
    }
    put_field(&mut out, 0x08, &[&question.image]);
    out
}

fn put_answer(out: &mut Vec<u8>, answer: &Answer) {
    let byte = |n: u32| [u8::try_from(n).expect("a small number")];
    put_field(out, 0x09, &[&byte(answer.number)]);
    answer.out.iter().for_each(|bytes| put_field(out, 0x0A, &[bytes]));
    answer.step.iter().for_each(|bytes| put_field(out, 0x0B, &[bytes]));
    answer.pending.iter().for_each(|pending| put_field(out, 0x0C, &[&byte(*pending)]));
    answer.cause.iter().for_each(|cause| put_field(out, 0x0D, &[&byte(*cause)]));
}

/// The questions of the table, and the lines that the program must print.
fn corners_list(panel: &Panel, table: &str) -> (Vec<u8>, String) {
    let (mut list, mut printed) = (Vec::new(), String::new());
    for line in corners::lines(table) {
        let text = match &line {
            Line::Part(part) => format!("{part}\n"),
            Line::Sentence(sentence) => format!("  {sentence}\n"),
            Line::Asked { label, question, told } => {
                let (answer, by) = decided(panel, question);
                assert_eq!(*told, text::answer(&question.call, &answer), "{label}");
                let label = format!("    {label} | {}", said_by(by));
                put_field(&mut list, TEXT, &[label.as_bytes()]);
                put_field(&mut list, tag(by), &[&fields(question)]);
                printed += &format!("{label}{}\n", shown(&question.call, &answer));
                continue;
            }
        };
        put_field(&mut list, TEXT, &[text.as_bytes()]);
        printed += &text;
    }
    // IEEE 802.3 decides the checksum, not the original.
    (list, printed + "CRC-32 of 123456789: cbf43926, bit by bit: cbf43926\n")
}

/// An answer as the program prints it.
fn shown(call: &Call, answer: &Answer) -> String {
    let mut words = vec![answer.number.to_string()];
    words.extend(answer.step.as_ref().map(|step| format!("[{}]", text::field(step))));
    words.extend(answer.pending.map(|pending| format!("pending {pending}")));
    words.extend(answer.cause.map(|cause| format!("cause {cause}")));
    words.extend(answer.out.as_ref().map(|out| match call {
        Call::Inventory => String::from_utf8_lossy(out).into_owned(),
        _ => format!("'{}'", shown_fields(out)),
    }));
    words.join("  ")
}

fn shown_fields(mut bytes: &[u8]) -> String {
    let (mut words, mut dir) = (Vec::new(), String::new());
    while let Some((tag, value)) = take_field(&mut bytes) {
        let numbered = || {
            let (number, name) = value.split_first_chunk().expect("a number");
            format!("{}={}", text::name(name), u32::from_le_bytes(*number))
        };
        words.push(match tag {
            0x03 => text::name(value),
            0x10 => {
                dir = format!("{}/", text::name(value));
                dir.clone()
            }
            0x11 => dir.clone() + &numbered(),
            0x12 => format!("~{}", numbered()),
            0x13 => format!("log:{}", text::hex(value)),
            0x14 => "open".into(),
            _ => panic!("no field of an output: {tag}"),
        });
    }
    words.join(" ")
}

/// The questions of every kind of run, by the plain reading, and of these a few thousand.
fn choose(panel: &mut Panel) -> Vec<(Kind, Question)> {
    let original = panel.original.take();
    panel.choice = Some(Choice::default());
    random::run(panel, SEED, 0, CASES);
    small::run(panel, &small::NARROW, EVERY, 0);
    boundary::run(panel);
    damaged::run(panel, 1);
    panel.original = original;
    let chosen = panel.choice.take().unwrap().chosen();
    let missing: Vec<u32> = numbers().filter(|n| chosen.iter().all(|(kind, _)| kind.number != *n)).collect();
    assert!(missing.is_empty(), "no question is answered {missing:?}");
    let missing: Vec<&u8> = STEPS.iter().filter(|tag| chosen.iter().all(|(kind, _)| kind.asked_for() != Some(**tag))).collect();
    assert!(missing.is_empty(), "no question is answered with the steps {missing:02x?}");
    chosen
}

struct Replay {
    list: Vec<u8>,
    /// What the program must print.
    printed: String,
    /// What the list holds.
    tables: String,
}

impl Replay {
    fn new(panel: &Panel, chosen: &[(Kind, Question)]) -> Replay {
        let (mut list, mut whose) = (Vec::new(), [0; 4]);
        for (_, question) in chosen {
            let (answer, by) = decided(panel, question);
            let mut value = fields(question);
            put_answer(&mut value, &answer);
            put_field(&mut list, tag(by), &[&value]);
            whose[by as usize] += 1;
        }
        let mut entries: BTreeMap<u8, BTreeMap<u32, usize>> = BTreeMap::new();
        chosen.iter().for_each(|(kind, _)| *entries.entry(kind.entry).or_default().entry(kind.number).or_default() += 1);
        let mut printed = String::new();
        for (entry, numbers) in &entries {
            let cells: Vec<String> = numbers.iter().map(|(number, count)| format!("{number}:{count}")).collect();
            printed += &format!("{} {}\n", ENTRIES[usize::from(*entry) - 1], cells.join(" "));
        }
        let tables = tables(chosen, whose, &printed);
        let by_documents = whose[By::Item4 as usize] + whose[By::Documents as usize];
        printed += &format!("{0} of {0} answers are equal, {by_documents} of them by the documents alone\n", chosen.len());
        Replay { list, printed, tables }
    }

    fn readme(&self) -> String {
        format!(
            "# How this list was made

`answers` holds questions to the exported entries, each with its answer; crates/questions/src/lib.rt has its layout. `oracle/lists` makes it
anew, with this page and ../stdout, and `oracle/lists --check` compares. The answers are the original's, but for the kinds and marks of Writes;
where it has no opinion, or document 02, item 4 departs from it, they are the documents' alone. The port is not asked.

The questions are those of the runs `random {SEED} {CASES}`, `small narrow {EVERY}`, `boundary` and `damaged` of oracle/driver. They are sorted into
kinds: entry, number, kind of log, kinds of operations in it, tags of the steps, what the names, the image and the lent lengths are like, and
whether document 02, item 4 gives another answer than the original. The shortest of each kind are kept. Of these are taken, first, all that
bring an entry's first answer of a number with some log, operation, name or sign, or by item 4, or its first step of a tag; then, in turn, some of each
entry, number, log, and step or operations (oracle/driver/src/choice.rs). Every number and every step must be there, and each of the useless
stores of oracle/driver/src/wrong.rs is found out.

{}",
            self.tables
        )
    }
}

/// How many questions there are by entry and number, by kind of log, by operation in it, and by the step that is asked for.
fn tables(chosen: &[(Kind, Question)], [_, but_for_marks, item_4, documents]: [usize; 4], entries: &str) -> String {
    let count = |test: &dyn Fn(&Kind) -> bool| chosen.iter().filter(|(kind, _)| test(kind)).count();
    let numbers: Vec<String> = numbers().map(|n| format!("{n}:{}", count(&|kind| kind.number == n))).collect();
    let logs: Vec<String> = LOGS.iter().enumerate().map(|(at, log)| format!("{log}: {}", count(&|kind| kind.log == at))).collect();
    let steps: Vec<String> = STEPS.iter().map(|tag| format!("{tag:02x}:{}", count(&|kind| kind.asked_for() == Some(*tag)))).collect();
    let operations: Vec<String> =
        OPERATIONS.iter().zip(1..).map(|(what, at)| format!("{what}: {}", count(&|kind| kind.operations.contains(&at)))).collect();
    format!(
        "{} questions: {documents} on which the original has no opinion, {item_4} in which document 02, item 4 departs from it, {but_for_marks} \
         that it answers but for kind and mark. By entry, number and count:\n\n    {}\n\nBy number: {}.\n\nBy log: {}.\n\nBy operation \
         in a log that is carried out or back: {}.\n\nBy step asked for: {}.\n",
        chosen.len(),
        entries.trim_end().replace('\n', "\n    "),
        numbers.join(", "),
        logs.join("; "),
        operations.join(", "),
        steps.join(", ")
    )
}
