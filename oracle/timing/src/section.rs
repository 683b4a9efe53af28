//! The section of docs/PERFORMANCE.md.
use crate::Table;
use crate::clock::{Growth, Judge, Times};
use std::fmt::Write;

const START: &str = "## Against the original and a plain reading

    bench/compare

It times each entry three times over on the same images: the port; the original's own code on a tmpfs; and the plain reading of documents 01 and 02 in \
memory, on ordered maps (`oracle/plain`), built with optimisation and without debug assertions. The original has no marked Write and is given Writes of \
kind 1 in their place. It is not watched, and what the driver reads and writes around it is not timed; its files have four bytes each, its listings are \
sorted, and no async runtime is behind it (`oracle/README.md`). Medians of 301 turns in one thread; a turn in memory has as many calls as fill 50 µs. An \
operation is recorded as the last one of its transaction. Recovery starts where all is done but the log stands. The original has no call for a single \
step. The command prints this section and draws the picture.

![Times of the entries](compare.svg)
";

/// A time in nanoseconds, in the unit that suits it.
pub fn unit(ns: f64) -> (f64, &'static str) {
    match ns {
        ns if ns < 1e6 => (ns / 1e3, "µs"),
        ns if ns < 1e9 => (ns / 1e6, "ms"),
        ns => (ns / 1e9, "s"),
    }
}

/// Three figures of a time in nanoseconds.
pub fn time(ns: f64) -> String {
    let (value, unit) = unit(ns);
    format!("{} {unit}", figures(value))
}

pub fn figures(value: f64) -> String {
    match value {
        v if v < 0.995 => format!("{v:.3}"),
        v if v < 9.95 => format!("{v:.2}"),
        v if v < 99.5 => format!("{v:.1}"),
        v => format!("{v:.0}"),
    }
}

pub fn markdown(tables: &[Table], growth: &[Growth]) -> String {
    let mut out = START.to_string();
    for table in tables {
        let _ = write!(out, "\n{}: {}.\n\n", table.size.title, table.size.words);
        out += "| entry | port | plain | original | plain / port | original / port |\n|---|---|---|---|---|---|\n";
        table.rows.iter().for_each(|(what, times)| out += &row(what, times));
    }
    out + &goal(tables) + &stepping(growth)
}

fn row(what: &str, t: &Times) -> String {
    let (on_disk, ratio) = t.original.map_or(("–".into(), "–".into()), |o| (time(o), against(o / t.port, 10.0)));
    format!("| {what} | {} | {} | {on_disk} | {} | {ratio} |\n", time(t.port), time(t.plain), against(t.plain / t.port, 1.0))
}

/// A ratio, bold where it is short of the goal.
fn against(ratio: f64, goal: f64) -> String {
    if ratio < goal { format!("**{}**", figures(ratio)) } else { figures(ratio) }
}

/// What the goal is, and how many rows reach it.
fn goal(tables: &[Table]) -> String {
    let rows = || tables.iter().flat_map(|table| table.rows.iter().map(|(_, t)| t));
    let beside_original = || rows().filter_map(|t| Some(t.original? / t.port));
    format!(
        "\nThe goal is a tenth of the original's time at most, and no more than the plain reading's; ratios short of it are bold. A tenth of the \
         original's: {} of {} rows. No slower than the plain reading: {} of {}.\n",
        beside_original().filter(|ratio| *ratio >= 10.0).count(),
        beside_original().count(),
        rows().filter(|t| t.plain >= t.port).count(),
        rows().count()
    )
}

fn stepping(growth: &[Growth]) -> String {
    let mut out = "\nA whole commit through `commit_step`, asked for n = 1, 2, .. to the plan's end: document 01's ten steps, 30 Writes to keys that \
                   stand (100), and the longest plan that we found for 32 operations (30 delete-alls of 64 files, two copies). Each call runs the plan \
                   from its start, so the whole grows with the square of the length, and with the store. The exponent is that of the growth from the line above.\n\n\
                   | steps | port | each call | exponent | plain | each call | exponent |\n|---|---|---|---|---|---|---|\n"
        .to_string();
    for (i, g) in growth.iter().enumerate() {
        let before = i.checked_sub(1).map(|i| &growth[i]);
        let exponent =
            |of: Judge| before.map_or("–".into(), |b| figures((of(g) / of(b)).ln() / (g.length as f64 / b.length as f64).ln()));
        let columns = |of: Judge| format!("{} | {} | {}", time(of(g)), time(of(g) / g.length as f64), exponent(of));
        let _ = writeln!(out, "| {} | {} | {} |", g.length, columns(|g| g.port), columns(|g| g.plain));
    }
    out
}
