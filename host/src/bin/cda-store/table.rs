//! The cuts as text.
use crate::{
    count::Count,
    cuts::{Change, Cut, Cuts, Outcome, Remark},
    fold::folded,
    rule,
    why::Why,
};
use cda_store::{Plan, Refusal};
use std::collections::{BTreeMap, BTreeSet};
use std::fmt::Write;

/// The most characters of the columns of steps and of files: a longest name with / behind it fits a line.
const STEP_WIDTH: usize = 65;
const FILES_WIDTH: usize = 72;

/// The lines of a cut's number, of its step and of its files.
type Row = [Vec<String>; 3];

pub fn text(cuts: &Cuts) -> String {
    if let Some(refusal) = cuts.refusal {
        return refused(refusal) + "\n";
    }
    let head = ["n", "step", "files"].map(|title| vec![title.to_string()]);
    let rows: Vec<Row> = [head].into_iter().chain(cuts.cuts.iter().enumerate().map(|(n, cut)| row(n, cut))).collect();
    let width = |column: usize| rows.iter().flat_map(|row| &row[column]).map(String::len).max().unwrap_or(0);
    let table: String = rows.iter().map(|row| aligned(row, width(0), width(1))).collect();
    let top = format!("{}, the store has:\n\n", top(cuts.plan, cuts.cuts.len() - 1));
    let notes: Vec<String> = notes(cuts).into_iter().chain(rule(cuts)).collect();
    top + &table + "\n" + &summary(cuts) + "\n" + &notes.join("\n") + "\n"
}

fn top(plan: Plan, steps: usize) -> String {
    match plan {
        Plan::Hold => format!("The held commit has {steps} steps. Cut behind step n and recovered"),
        Plan::Keep => format!("The keep has {steps} steps. Cut behind step n and recovered"),
        Plan::Revert => format!("The revert has {steps} steps. Cut behind step n and opened again, which ends it"),
        _ => format!("The commit has {steps} steps. Cut behind step n and recovered"),
    }
}

fn row(n: usize, cut: &Cut) -> Row {
    let step = cut.step.as_ref().map_or("-".to_string(), |step| step.to_string());
    [vec![n.to_string()], folded(&step, STEP_WIDTH), folded(&words(&cut.outcome, usize::MAX), FILES_WIDTH)]
}

/// A row with its first two columns so wide.
fn aligned(row: &Row, first: usize, second: usize) -> String {
    let mut out = String::new();
    for line in 0..row.iter().map(Vec::len).max().unwrap_or(0) {
        let [n, step, files] = row.each_ref().map(|lines| lines.get(line).map_or("", String::as_str));
        let _ = writeln!(out, "{}", format!("{n:>first$}  {step:second$}  {files}").trim_end());
    }
    out
}

/// An outcome in words, with at most so many names for each kind of remark.
pub fn words(outcome: &Outcome, most: usize) -> String {
    match outcome {
        Outcome::Other(remarks) => grouped(remarks, most),
        Outcome::Refused(refusal) => format!("recovery refused: {refusal}"),
        _ => outcome.word().to_string(),
    }
}

fn grouped(remarks: &[Remark], most: usize) -> String {
    let mut groups: BTreeMap<(Change, Why), Vec<&str>> = BTreeMap::new();
    remarks.iter().for_each(|remark| groups.entry((remark.change, remark.why)).or_default().push(&remark.path));
    let group = |((change, why), paths): ((Change, Why), Vec<&str>)| {
        let more = paths.len().saturating_sub(most);
        let more = if more == 0 { String::new() } else { format!(" and {more} more") };
        let named: Vec<&str> = paths.into_iter().take(most).collect();
        format!("{} {}{more} ({})", change.word(), named.join(", "), why.words())
    };
    groups.into_iter().map(group).collect::<Vec<_>>().join("; ")
}

fn refused(refusal: Refusal) -> String {
    format!("This update is refused, and nothing is done; {refusal}")
}

/// How many cuts leave what, or why there is none.
pub fn summary(cuts: &Cuts) -> String {
    if cuts.refusal.is_some() {
        return "This update is refused, and nothing is done.".to_string();
    }
    let mut counts: Vec<(&str, usize)> = Vec::new();
    for cut in &cuts.cuts {
        match counts.iter_mut().find(|(word, _)| *word == cut.outcome.word()) {
            Some((_, count)) => *count += 1,
            None => counts.push((cut.outcome.word(), 1)),
        }
    }
    let counts: Vec<String> = counts.into_iter().map(|(word, count)| format!("{count} {word}")).collect();
    format!("{} cuts: {}.", cuts.cuts.len(), counts.join(", "))
}

/// The number of steps, where a rule says it, and a note for each word that needs one.
pub fn notes(cuts: &Cuts) -> Vec<String> {
    let count = cuts.count.map(|count| format!("{} steps = {count}: {}.", cuts.cuts.len() - 1, Count::LEGEND));
    let ends = match cuts.plan {
        Plan::Hold => {
            "earlier: exactly the files from before. held: exactly the files that the update makes, beside backups of those from before."
        }
        Plan::Keep => "held: as before the keep. later: exactly the files that an ordinary commit makes.",
        Plan::Revert => "earlier: exactly the files that a revert without a cut leaves.",
        _ => "earlier: exactly the files from before. later: exactly the files that the commit makes.",
    };
    let always = format!("{ends} A cut ends the process between two steps; what was written stays.");
    let reasons = reasons(cuts).into_iter().map(|why| format!("{}: {}", why.words(), why.sentence()));
    let refused = cuts.refusal.map(refused);
    count.into_iter().chain([always]).chain(reasons).chain(refused).collect()
}

/// Whether the cut rule speaks of the update. These lines have names in them.
pub fn rule(cuts: &Cuts) -> Vec<String> {
    cuts.broken.iter().flat_map(|broken| rule::lines(cuts.plan, broken)).collect()
}

/// The reasons that the cuts show.
fn reasons(cuts: &Cuts) -> BTreeSet<Why> {
    let remarks = cuts.cuts.iter().filter_map(|cut| match &cut.outcome {
        Outcome::Other(remarks) => Some(remarks),
        _ => None,
    });
    remarks.flatten().map(|remark| remark.why).collect()
}
