//! How times are taken: medians, in nanoseconds, in one thread.
use crate::cases::{Case, steps};
use original::{Original, old};
use plain::Plain;
use std::time::{Duration, Instant};
use store::{Call, IMAGE_ROOM, Lent, Out, Plan, STEP_ROOM, Store, ask, pass};

const TURNS: usize = 301;
/// A turn in memory lasts as long as this, in as many calls as it takes.
const TURN: Duration = Duration::from_micros(50);

pub struct Times {
    pub port: f64,
    pub plain: f64,
    /// The original has no call for a single step.
    pub original: Option<f64>,
}

fn median(mut times: Vec<f64>) -> f64 {
    times.sort_by(f64::total_cmp);
    times[times.len() / 2]
}

/// The time that a store takes over the calls.
fn stopwatch<'a>(store: &dyn Store, image: &[u8], calls: impl Iterator<Item = &'a Call>) -> f64 {
    let (mut bytes, mut step_bytes, mut pending, mut cause) = ([0; IMAGE_ROOM], [0; STEP_ROOM], 0, 0);
    let mut out = Out { bytes: &mut bytes, written: 0 };
    let mut step = Out { bytes: &mut step_bytes, written: 0 };
    let start = Instant::now();
    for call in calls {
        let number = pass(store, call, image, &mut out, &mut step, &mut pending, &mut cause);
        assert_eq!(number, 0, "{call:?}");
    }
    start.elapsed().as_nanos() as f64
}

/// The time of so many calls, for one.
fn turn(store: &dyn Store, case: &Case, calls: usize) -> f64 {
    stopwatch(store, &case.image, std::iter::repeat_n(&case.call, calls)) / calls as f64
}

/// The port's and the plain reading's turns alternate, so that a busy moment falls on both.
fn in_memory(port: &dyn Store, case: &Case, turns: usize) -> (f64, f64) {
    let calls = |store| (TURN.as_nanos() as f64 / turn(store, case, 3)).max(1.0) as usize;
    let (of_port, of_plain) = (calls(port), calls(&Plain));
    let both = (0..turns).map(|_| (turn(port, case, of_port), turn(&Plain, case, of_plain)));
    let (port, plain) = both.unzip();
    (median(port), median(plain))
}

/// Whether the original has this call.
fn of_original(call: &Call) -> bool {
    !matches!(call, Call::CommitStep(_) | Call::RecoverStep(_))
}

/// Times a call, to which all judges give the same answer, the original but for the kinds and marks of Writes.
pub fn time(port: &dyn Store, original: &Original, case: &Case) -> Times {
    let answer = |store: &dyn Store| ask(store, &case.call, &case.image, Lent::AMPLE);
    assert_eq!(answer(port), answer(&Plain), "{}", case.what);
    let (on_port, on_plain) = in_memory(port, case, TURNS);
    let on_disk = of_original(&case.call).then(|| {
        assert_eq!(answer(original), old(&answer(&Plain)), "{}", case.what);
        median((0..TURNS).map(|_| original.time(&case.call, &case.image).as_nanos() as f64).collect())
    });
    Times { port: on_port, plain: on_plain, original: on_disk }
}

/// A whole commit through the step entry, asked for n = 1, 2, .. to the plan's end.
pub struct Growth {
    pub length: usize,
    pub port: f64,
    pub plain: f64,
}

/// The time of one judge.
pub type Judge = fn(&Growth) -> f64;

pub fn stepping(port: &dyn Store, image: &[u8]) -> Growth {
    let length = steps(Plan::Commit, image).len() - 1;
    let calls: Vec<Call> = (1..=length).map(|n| Call::CommitStep(n as u64)).collect();
    let whole = |store: &dyn Store| stopwatch(store, image, calls.iter());
    let turns = (10_000 / length).clamp(5, TURNS);
    let (on_port, on_plain) = (0..turns).map(|_| (whole(port), whole(&Plain))).unzip();
    Growth { length, port: median(on_port), plain: median(on_plain) }
}
