//! A call as a value, and its answer with every byte that may not have been touched.
use crate::{IMAGE_ROOM, Name, Out, STEP_ROOM, Store};
use std::cell::Cell;

/// A call. What is lent to `LogCause` in the place of an image is a log.
#[derive(Clone, PartialEq, Eq, PartialOrd, Ord, Debug)]
pub enum Call {
    Begin,
    Write { collection: Name, key: Name, staged: Name, number: u32 },
    Delete { collection: Name, key: Name },
    DeleteAll { collection: Name },
    CreateCollection { name: Name },
    DeleteCollection { name: Name },
    CopyCollection { source: Name, dest: Name },
    Commit,
    CommitStep(u64),
    Rollback,
    HasPendingWork,
    Recover,
    RecoverStep(u64),
    ListKeys { collection: Name },
    FindBackup,
    LogCause,
    Inventory,
    Hold,
    HoldStep(u64),
    Keep,
    KeepStep(u64),
    Revert,
    RevertStep(u64),
}

impl Call {
    /// Whether what is lent is a log alone.
    pub fn takes_log(&self) -> bool {
        matches!(self, Call::LogCause)
    }

    /// Whether an image is handed back with which a caller goes on.
    pub fn hands_image_on(&self) -> bool {
        !matches!(self, Call::ListKeys { .. } | Call::FindBackup | Call::Inventory)
    }
}

/// The entries that carry out file steps.
#[derive(Clone, Copy, PartialEq, Eq, Debug)]
pub enum Plan {
    Commit,
    Recover,
    Hold,
    Keep,
    Revert,
}

impl Plan {
    pub const ALL: [Plan; 5] = [Plan::Commit, Plan::Recover, Plan::Hold, Plan::Keep, Plan::Revert];

    /// The plan that a call asks for whole.
    pub fn of(call: &Call) -> Option<Plan> {
        Plan::ALL.into_iter().find(|plan| plan.whole() == *call)
    }

    pub fn whole(self) -> Call {
        match self {
            Plan::Commit => Call::Commit,
            Plan::Recover => Call::Recover,
            Plan::Hold => Call::Hold,
            Plan::Keep => Call::Keep,
            Plan::Revert => Call::Revert,
        }
    }
    pub fn step(self, n: u64) -> Call {
        match self {
            Plan::Commit => Call::CommitStep(n),
            Plan::Recover => Call::RecoverStep(n),
            Plan::Hold => Call::HoldStep(n),
            Plan::Keep => Call::KeepStep(n),
            Plan::Revert => Call::RevertStep(n),
        }
    }
}

/// The lengths of the lent outputs.
#[derive(Clone, Copy, PartialEq, Eq, PartialOrd, Ord, Debug)]
pub struct Lent {
    pub out: usize,
    pub step: usize,
}

impl Lent {
    pub const AMPLE: Lent = Lent { out: IMAGE_ROOM + 5, step: STEP_ROOM + 3 };
}

/// The number and what was written to each lent output, if anything. `stray` says what else was touched.
#[derive(Clone, PartialEq, Eq, Debug, Default)]
pub struct Answer {
    pub number: u32,
    pub out: Option<Vec<u8>>,
    pub step: Option<Vec<u8>>,
    pub pending: Option<u32>,
    pub cause: Option<u32>,
    pub stray: Option<String>,
}

impl Answer {
    pub fn refusal(number: u32) -> Answer {
        Answer { number, ..Answer::default() }
    }
}

const UNTOUCHED: usize = 0x5A5A_5A5A;

thread_local! { static TURN: Cell<u8> = const { Cell::new(0) }; }

/// What a lent output of this length holds before a call. It differs from call to call, so that no fixed byte passes for it.
fn before(length: usize, turn: u8) -> Vec<u8> {
    (0..length).map(|i| (i as u8).wrapping_mul(167).wrapping_add(turn)).collect()
}

pub fn ask<S: Store + ?Sized>(store: &S, call: &Call, image: &[u8], lent: Lent) -> Answer {
    let turn = TURN.with(|t| t.replace(t.get().wrapping_add(91)));
    let (clean, clean_step) = (before(lent.out, turn), before(lent.step, turn));
    let (mut bytes, mut step_bytes) = (clean.clone(), clean_step.clone());
    let mut out = Out { bytes: &mut bytes, written: UNTOUCHED };
    let mut step = Out { bytes: &mut step_bytes, written: UNTOUCHED };
    let (mut pending, mut cause) = (UNTOUCHED as u32, UNTOUCHED as u32);
    let number = pass(store, call, image, &mut out, &mut step, &mut pending, &mut cause);
    let mut answer = Answer::refusal(number);
    let mut stray = Vec::new();
    answer.out = written(&out, &clean, "out", &mut stray);
    answer.step = written(&step, &clean_step, "step", &mut stray);
    answer.pending = (pending != UNTOUCHED as u32).then_some(pending);
    answer.cause = (cause != UNTOUCHED as u32).then_some(cause);
    answer.stray = (!stray.is_empty()).then(|| stray.join(", "));
    answer
}

/// Calls the entry that the call names.
pub fn pass<S: Store + ?Sized>(
    store: &S,
    call: &Call,
    image: &[u8],
    out: &mut Out,
    step: &mut Out,
    pending: &mut u32,
    cause: &mut u32,
) -> u32 {
    match call {
        Call::Begin => store.begin(image, out),
        Call::Write { collection, key, staged, number } => store.write(image, collection, key, staged, *number, out),
        Call::Delete { collection, key } => store.delete(image, collection, key, out),
        Call::DeleteAll { collection } => store.delete_all(image, collection, out),
        Call::CreateCollection { name } => store.create_collection(image, name, out),
        Call::DeleteCollection { name } => store.delete_collection(image, name, out),
        Call::CopyCollection { source, dest } => store.copy_collection(image, source, dest, out),
        Call::Commit => store.commit(image, out),
        Call::CommitStep(n) => store.commit_step(image, *n, out, step),
        Call::Rollback => store.rollback(image, out),
        Call::HasPendingWork => store.has_pending_work(image, pending),
        Call::Recover => store.recover(image, out, cause),
        Call::RecoverStep(n) => store.recover_step(image, *n, out, step),
        Call::ListKeys { collection } => store.list_keys(image, collection, out),
        Call::FindBackup => store.find_backup(image, out),
        Call::LogCause => store.log_cause(image, cause),
        Call::Inventory => store.inventory(image, out),
        Call::Hold => store.hold(image, out),
        Call::HoldStep(n) => store.hold_step(image, *n, out, step),
        Call::Keep => store.keep(image, out),
        Call::KeepStep(n) => store.keep_step(image, *n, out, step),
        Call::Revert => store.revert(image, out, cause),
        Call::RevertStep(n) => store.revert_step(image, *n, out, step),
    }
}

/// What was written to a lent output, after a look at the bytes behind it.
fn written(out: &Out, clean: &[u8], what: &str, stray: &mut Vec<String>) -> Option<Vec<u8>> {
    let end = if out.written == UNTOUCHED { 0 } else { out.written };
    if end > clean.len() {
        stray.push(format!("{what}: {end} bytes said of {}", clean.len()));
        return None;
    }
    if out.bytes[end..] != clean[end..] {
        let at = end + out.bytes[end..].iter().zip(&clean[end..]).position(|(a, b)| a != b).unwrap();
        stray.push(format!("{what}: byte {at} touched, {end} written"));
    }
    (out.written != UNTOUCHED).then(|| out.bytes[..end].to_vec())
}
