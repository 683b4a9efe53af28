//! Chooses, of a great many questions, a few thousand that differ in kind, the shortest of each.
use crate::panel::Question;
use original::old;
use plain::{
    Image, Name, Operation, Plain,
    image::unmarked,
    log::{Ending, operations, status},
    name::{NAME_LIMIT, is_backup, is_valid},
};
use std::collections::{BTreeMap, BTreeSet};
use store::{Answer, Call, HIT_ROOM, IMAGE_ROOM, KEYS_ROOM, Plan, STEP_ROOM, Store, ask};

/// No more questions are chosen, nor more bytes of images, nor longer ones without need; no more of a kind are kept to choose from.
const QUESTIONS: usize = 4_000;
const BYTES: usize = 640_000;
const SHORT: usize = 300;
const OF_A_KIND: usize = 3;

/// The longest outputs that the programs lend: ROOM and STEP_ROOM of crates/questions/src/lib.rt.
const LONGEST: usize = 19_430;
const LONGEST_STEP: usize = 300;

pub const LOGS: [&str; 22] = [
    "image refused",
    "absent",
    "under 8 bytes",
    "other header",
    "Recording",
    "Recording, entry header short",
    "Recording, payload missing",
    "Recording, checksum wrong",
    "Recording, undecodable",
    "Recording, over 32",
    "Committing",
    "Committing, entry header short",
    "Committing, payload missing",
    "Committing, checksum wrong",
    "Committing, undecodable",
    "Committing, over 32",
    "Held",
    "Held, entry header short",
    "Held, payload missing",
    "Held, checksum wrong",
    "Held, undecodable",
    "Held, over 32",
];

/// The number of a keep or revert that finds nothing held.
const NOTHING_HELD: u32 = 18;

/// Where the signs say what the answer hands back: nothing, the image as it was, another.
const HANDED_BACK: usize = 4;

/// What is looked at in a question and its answer.
#[derive(Clone, PartialEq, Eq, PartialOrd, Ord)]
pub struct Kind {
    /// As in crates/questions/src/lib.rt, from 1.
    pub entry: u8,
    pub number: u32,
    /// An index of LOGS.
    pub log: usize,
    /// The kinds of operations in the log, of an entry that carries them out or back; 8 is a marked Write to a key that stood.
    pub operations: BTreeSet<u8>,
    /// The tags of all steps, or of the one that was asked for.
    pub steps: BTreeSet<u8>,
    /// What the names are like.
    names: Vec<u8>,
    /// What else is in the image, whether the answer changes it, how much is lent.
    signs: [u8; 8],
    /// Whether document 02, item 4 answers otherwise than where the Writes are of kind 1.
    by_item_4: bool,
}

#[derive(Default)]
pub struct Choice {
    kinds: BTreeMap<Kind, BTreeSet<(usize, Question)>>,
}

impl Choice {
    pub fn offer(&mut self, question: Question, answer: &Answer) {
        if question.lent.out > LONGEST || question.lent.step > LONGEST_STEP {
            return;
        }
        let size = question.image.len() + answer.out.as_ref().map_or(0, Vec::len);
        let best = self.kinds.entry(kind(&question, answer)).or_default();
        best.insert((size, question));
        if best.len() > OF_A_KIND {
            best.pop_last();
        }
    }

    /// First what brings a new fact, then each turn, those by item 4 first and the shortest questions first.
    pub fn chosen(self) -> Vec<(Kind, Question)> {
        let mut facts = BTreeSet::new();
        let (mut first, mut rest) = (Vec::new(), Vec::new());
        for (_, size, kind, question) in self.ranked() {
            let known = facts.len();
            facts.extend(kind.facts());
            (if facts.len() > known { &mut first } else { &mut rest }).push((size, kind, question));
        }
        rest.retain(|(size, ..)| *size <= SHORT);
        let mut turns: BTreeMap<_, usize> = BTreeMap::new();
        rest.sort_by_cached_key(|(_, kind, _)| {
            let turn = turns.entry(kind.turn()).or_default();
            *turn += 1;
            (*turn / kind.share(), !kind.by_item_4)
        });
        let mut bytes = 0;
        let within = |(size, ..): &(usize, Kind, Question)| {
            let fits = bytes + size <= BYTES;
            bytes += if fits { *size } else { 0 };
            fits
        };
        let mut chosen: Vec<_> = first.into_iter().chain(rest).filter(within).take(QUESTIONS).collect();
        chosen.sort_by(|a, b| (&a.1, a.0, &a.2).cmp(&(&b.1, b.0, &b.2)));
        chosen.into_iter().map(|(_, kind, question)| (kind, question)).collect()
    }

    /// The questions that were kept, one of each kind before the second of any, the shortest first.
    fn ranked(self) -> Vec<(usize, usize, Kind, Question)> {
        let ranked = |(kind, best): (Kind, BTreeSet<(usize, Question)>)| {
            best.into_iter().enumerate().map(move |(rank, (size, question))| (rank, size, kind.clone(), question))
        };
        let mut all: Vec<_> = self.kinds.into_iter().flat_map(ranked).collect();
        all.sort();
        all
    }
}

impl Kind {
    /// The tag of the step that was asked for.
    pub fn asked_for(&self) -> Option<u8> {
        self.steps.first().copied().filter(|_| [10, 13, 19, 21, 23].contains(&self.entry))
    }

    /// The entry, number and log, whether item 4 shows, and the step that was asked for or the operations that are carried out.
    fn turn(&self) -> (u8, u32, usize, bool, BTreeSet<u8>) {
        let done = if self.asked_for().is_some() { &self.steps } else { &self.operations };
        (self.entry, self.number, self.log, self.by_item_4, done.clone())
    }

    /// How many go into a turn: few of the many refusals and of the many sets of operations.
    fn share(&self) -> usize {
        if self.number == NOTHING_HELD {
            return 1;
        }
        let hands_back = self.signs[HANDED_BACK] != 0;
        if hands_back && self.operations.len() < 2 || self.asked_for().is_some() { 12 } else { 3 }
    }

    /// What the list must hold of each kind that came up, in at least one question: an entry with a number and a log, an operation,
    /// a step, a kind of name, a number that item 4 gives.
    fn facts(&self) -> Vec<(u8, u32, u8, usize)> {
        let mut facts = vec![(self.entry, self.number, 0, self.log)];
        facts.extend(self.operations.iter().map(|kind| (self.entry, self.number, 1, usize::from(*kind))));
        facts.extend(self.steps.iter().map(|tag| (self.entry, 0, 2, usize::from(*tag))));
        facts.extend(self.names.iter().enumerate().map(|(at, like)| (self.entry, self.number, 3, at * 16 + usize::from(*like))));
        facts.push((self.entry, self.number, 5, usize::from(self.by_item_4)));
        facts.extend(self.signs.iter().enumerate().map(|(at, sign)| (self.entry, self.number, 4, at * 16 + usize::from(*sign))));
        facts
    }
}

/// The number of an entry and the names that it is given.
pub fn entry(call: &Call) -> (u8, Vec<&Name>) {
    match call {
        Call::Begin => (1, vec![]),
        Call::Write { collection, key, staged, .. } => (2, vec![collection, key, staged]),
        Call::Delete { collection, key } => (3, vec![collection, key]),
        Call::DeleteAll { collection } => (4, vec![collection]),
        Call::CreateCollection { name } => (5, vec![name]),
        Call::DeleteCollection { name } => (6, vec![name]),
        Call::CopyCollection { source, dest } => (7, vec![source, dest]),
        Call::Rollback => (8, vec![]),
        Call::Commit => (9, vec![]),
        Call::CommitStep(_) => (10, vec![]),
        Call::HasPendingWork => (11, vec![]),
        Call::Recover => (12, vec![]),
        Call::RecoverStep(_) => (13, vec![]),
        Call::ListKeys { collection } => (14, vec![collection]),
        Call::FindBackup => (15, vec![]),
        Call::LogCause => (16, vec![]),
        Call::Inventory => (17, vec![]),
        Call::Hold => (18, vec![]),
        Call::HoldStep(_) => (19, vec![]),
        Call::Keep => (20, vec![]),
        Call::KeepStep(_) => (21, vec![]),
        Call::Revert => (22, vec![]),
        Call::RevertStep(_) => (23, vec![]),
    }
}

fn kind(question: &Question, answer: &Answer) -> Kind {
    let (entry, names) = entry(&question.call);
    let image = Image::decode(&question.image);
    let alone = Some(question.image.as_slice()).filter(|_| question.call.takes_log());
    let log = alone.or(image.as_ref().and_then(|image| image.log.as_deref()));
    // Keep reads no entry, nor does a refusal for a log that isn't Held.
    let carried = [8, 9, 10, 12, 13, 18, 19, 22, 23].contains(&entry) && answer.number != NOTHING_HELD;
    Kind {
        entry,
        number: answer.number,
        log: if log.is_none() && image.is_none() { 0 } else { log_kind(log) },
        operations: log.filter(|_| carried).map(operation_kinds).unwrap_or_default(),
        steps: steps(question, answer),
        names: names.into_iter().map(|name| name_kind(name)).collect(),
        by_item_4: image.is_some() && is_by_item_4(question, answer),
        signs: signs(question, answer, &image.unwrap_or_default()),
    }
}

fn is_by_item_4(question: &Question, answer: &Answer) -> bool {
    let before = unmarked(&question.image);
    before != question.image && old(answer) != old(&ask(&Plain, &question.call, &before, question.lent))
}

fn log_kind(log: Option<&[u8]>) -> usize {
    let Some(log) = log else { return 1 };
    let Some(status) = status(log) else { return if log.len() < 8 { 2 } else { 3 } };
    let ending = match operations(log).1 {
        Ending::Whole => 0,
        Ending::Truncated(cause) => cause as usize,
        Ending::Undecodable => 4,
        Ending::TooMany => 5,
    };
    4 + 6 * status as usize + ending
}

fn operation_kinds(log: &[u8]) -> BTreeSet<u8> {
    let kind = |operation: &Operation| operation.kind() + u8::from(operation.mark() == Some(true));
    if status(log).is_some() { operations(log).0.iter().map(kind).collect() } else { BTreeSet::new() }
}

/// The tags of the steps, by the plain reading.
fn steps(question: &Question, answer: &Answer) -> BTreeSet<u8> {
    let Some(plan) = Plan::of(&question.call) else {
        return answer.step.iter().filter_map(|field| field.first()).copied().collect();
    };
    let answers = Plain.plan(plan, &question.image).1;
    answers.iter().filter_map(|answer| answer.step.as_ref()?.first()).copied().collect()
}

fn name_kind(name: &[u8]) -> u8 {
    match name {
        [] => 0,
        b"." | b".." => 1,
        b"..bak" | b"...bak" => 2,
        _ if name.contains(&b'/') || name.contains(&b'\\') => 3,
        _ if !name.iter().all(|byte| (0x21..=0x7E).contains(byte)) => 4,
        _ if name.len() > NAME_LIMIT => 5,
        _ if name.len() == NAME_LIMIT => 6,
        _ if !is_valid(name) => 7,
        _ if is_backup(name) => 8,
        _ if name.iter().any(u8::is_ascii_uppercase) => 9,
        _ => 10,
    }
}

fn signs(question: &Question, answer: &Answer, image: &Image) -> [u8; 8] {
    let lent = |length: usize, room: usize| match length.cmp(&room) {
        std::cmp::Ordering::Less => 0,
        std::cmp::Ordering::Equal => 1,
        std::cmp::Ordering::Greater => 2,
    };
    let room = match question.call {
        Call::ListKeys { .. } => KEYS_ROOM,
        Call::FindBackup => HIT_ROOM,
        // Its own text, where that has room.
        Call::Inventory => answer.out.as_ref().map_or(usize::MAX, Vec::len),
        _ => IMAGE_ROOM,
    };
    [
        u8::from(image.open),
        u8::from(!image.staging.is_empty()),
        u8::from(image.dirs.keys().any(|dir| is_backup(dir))),
        u8::from(image.dirs.values().flat_map(|files| files.keys()).any(|file| is_backup(file))),
        answer.out.as_ref().map_or(0, |out| if *out == question.image { 1 } else { 2 }),
        lent(question.lent.out, room),
        lent(question.lent.step, STEP_ROOM),
        u8::from(question.call == Call::Inventory && question.image.contains(&b'"')),
    ]
}
