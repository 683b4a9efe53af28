//! Random runs: commits, held or not, and recoveries with every step, cuts recovered, updates kept and reverted, single calls, and transactions from
//! begin to end.
use crate::generate::{self, Rng};
use crate::panel::Panel;
use plain::Image;
use store::{Call, Lent, Plan};

pub fn run(panel: &mut Panel, seed: u64, from: u64, cases: u64) {
    for case in from..from + cases {
        let rng = &mut Rng::new(seed, case);
        match rng.below(9) {
            0..=1 => cut_commit(panel, rng),
            2..=3 => {
                let image = generate::leftover(rng);
                every_end(panel, &image.encode());
                broken_log(panel, &generate::broken(rng, image));
            }
            4..=5 => single_calls(panel, rng),
            6 => held(panel, rng),
            _ => transaction(panel, rng),
        }
        panel.progress("random", case - from, cases);
    }
    panel.summary(&format!("random, seed {seed}, cases {from} to {}", from + cases - 1));
}

/// A commit, then recovery from a few of its cuts.
fn cut_commit(panel: &mut Panel, rng: &mut Rng) {
    let images = panel.plan(Plan::Commit, &generate::transaction(rng).encode());
    for _ in 0..3.min(images.len()) {
        let cut = images[rng.below(images.len())].clone();
        let images = panel.plan(Plan::Recover, &cut);
        if rng.one_in(3) && !images.is_empty() {
            panel.plan(Plan::Recover, &images[rng.below(images.len())]);
        }
    }
}

/// A held commit, then recovery, keep and revert from one of its cuts and from its end, each cut too.
fn held(panel: &mut Panel, rng: &mut Rng) {
    let images = panel.plan(Plan::Hold, &generate::transaction(rng).encode());
    let Some(end) = images.last() else { return };
    let cut = &images[rng.below(images.len())];
    panel.plan(Plan::Recover, cut);
    panel.ask(&Call::Begin, end, Lent::AMPLE);
    for image in [cut, end] {
        let left = every_end(panel, image);
        if !left.is_empty() {
            every_end(panel, &left[rng.below(left.len())]);
        }
    }
}

/// Recovery, keep and revert of an image: what their cuts leave.
fn every_end(panel: &mut Panel, image: &[u8]) -> Vec<Vec<u8>> {
    [Plan::Recover, Plan::Keep, Plan::Revert].into_iter().flat_map(|plan| panel.plan(plan, image)).collect()
}

/// A log that may be truncated: how it broke, by itself and by its recovery.
fn broken_log(panel: &mut Panel, image: &Image) {
    every_end(panel, &image.encode());
    panel.ask(&Call::LogCause, image.log.as_deref().unwrap_or_default(), Lent::AMPLE);
}

fn single_calls(panel: &mut Panel, rng: &mut Rng) {
    let image = generate::recording(rng);
    let bytes = image.encode();
    for _ in 0..3 {
        let call = generate::call(rng, &image);
        panel.ask(&call, &bytes, Lent::AMPLE);
    }
}

/// Begin, some recordings, then commit, rollback or a cut, each on the image that the call before handed back.
fn transaction(panel: &mut Panel, rng: &mut Rng) {
    let mut bytes = Image { log: None, open: false, ..generate::transaction(rng) }.encode();
    for turn in 0..rng.below(7) + 1 {
        let image = Image::decode(&bytes).unwrap_or_default();
        let call = if turn == 0 { Call::Begin } else { generate::call(rng, &image) };
        let answer = panel.ask(&call, &bytes, Lent::AMPLE);
        if let (Some(next), true) = (answer.out, call.hands_image_on()) {
            bytes = next;
        }
    }
    if rng.one_in(5) {
        panel.ask(&Call::Rollback, &bytes, Lent::AMPLE);
        return;
    }
    let images = panel.plan(Plan::Commit, &bytes);
    if !images.is_empty() {
        panel.plan(Plan::Recover, &images[rng.below(images.len())]);
    }
}
