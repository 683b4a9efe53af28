//! The cut rule, in the documents' words and not by comparison: demand 3 of document 01, and items 4, 5 and 6 of document 02.
//!
//! A commit of Writes alone is cut after each of its steps and recovered: what stands then is the store from before if the log stood, else
//! the store with all writes done. Where every Write is marked, each recovery is cut too, after each of its steps, and what is left is cut
//! again and again before one runs to its end: the image is the same. There a commit that fails hands back the store from before, and so
//! does recovery from each of its cuts. The same transactions are held: a revert gives the store from before, a keep the commit's image; where every
//! Write is marked, after cuts too. Every judge is held to the rule, the original for Writes of kind 1 and commits alone.
use crate::generate::{self, Rng};
use crate::panel::Panel;
use crate::{small, text};
use plain::{
    Image, Name, Operation,
    log::{is_held, operations},
    name::backup,
    step::Step,
};
use std::time::Instant;
use store::{Answer, Call, Lent, Plan, Store, ask};

/// Names under the rule, for every small case.
const NAMES: small::Names = small::Names { dirs: &["c", "d"], files: &["a", "b"] };

struct Write {
    collection: Name,
    key: Name,
    staged: Name,
    mark: Option<bool>,
}

/// A transaction under the rule's conditions.
struct Transaction {
    image: Image,
    writes: Vec<Write>,
}

#[derive(Default)]
struct Counts {
    /// Transactions of kind 1, of marked Writes, and of both.
    transactions: [u64; 3],
    /// Of these, commits that answer 14, and 15.
    failing: [u64; 2],
    recorded: u64,
    cuts: u64,
    again: u64,
    /// Updates that were held, then kept and reverted; cuts of these three.
    held: u64,
    held_cuts: u64,
}

/// An image as recovery leaves it, with "no 0x12, 0x13 or 0x14".
fn settled(tree: Image) -> Vec<u8> {
    Image { dirs: tree.dirs, ..Image::default() }.encode()
}

fn has_held_log(image: &[u8]) -> bool {
    is_held(Image::decode(image).and_then(|image| image.log).as_deref())
}

/// No name of a directory or file before, and no key, ends so.
fn has_ending(name: &[u8]) -> bool {
    name.ends_with(b".bak") || name.ends_with(b".tmp")
}

impl Transaction {
    /// The transaction of an image, if it meets the conditions: Writes alone, to distinct keys, in collections that stand, "whose every
    /// mark is true of the store at commit".
    fn of(image: Image) -> Option<Transaction> {
        let write = |operation: Operation| match operation {
            Operation::Write { collection, key, staged, mark } => Some(Write { collection, key, staged, mark }),
            _ => None,
        };
        let writes: Vec<Write> = operations(image.log.as_ref()?).0.into_iter().map(write).collect::<Option<_>>()?;
        let is_one = |(i, w): (usize, &Write)| {
            let distinct = writes[..i].iter().all(|v| (&v.collection, &v.key) != (&w.collection, &w.key));
            let true_mark = w.mark.is_none_or(|stood| stood == image.has(&w.collection, &w.key));
            distinct && true_mark && image.dirs.contains_key(&w.collection) && !has_ending(&w.key)
        };
        let plain_names = image.dirs.iter().all(|(dir, files)| !files.keys().chain([dir]).any(|name| has_ending(name)));
        (plain_names && writes.iter().enumerate().all(is_one)).then_some(Transaction { image, writes })
    }

    fn before(&self) -> Vec<u8> {
        settled(self.image.clone())
    }

    /// "All writes done": each Write "puts into its collection a file with its key as name and the number that its staging file has in
    /// the transaction's image".
    fn all_writes_done(&self) -> Vec<u8> {
        let mut tree = self.image.clone();
        for w in &self.writes {
            let number = self.image.staging[&w.staged];
            tree.dirs.get_mut(&w.collection).expect("the collection stands").insert(w.key.clone(), number);
        }
        settled(tree)
    }

    fn is_marked(&self) -> bool {
        !self.writes.is_empty() && self.writes.iter().all(|w| w.mark.is_some())
    }

    fn is_unmarked(&self) -> bool {
        self.writes.iter().all(|w| w.mark.is_none())
    }

    /// 0 is kind 1, or no Write at all, 1 is marked, 2 is both.
    fn kinds(&self) -> usize {
        if self.is_unmarked() { 0 } else { 2 - usize::from(self.is_marked()) }
    }

    /// Whether a written key of kind 1 that existed waits: "its rename to the backup name […] isn't among the first n steps".
    fn waits(&self, steps: &[&Answer]) -> bool {
        let renamed = |w: &Write| {
            let field = Step::RenameFile(w.collection.clone(), w.key.clone(), backup(&w.key)).field();
            steps.iter().any(|step| step.step.as_ref() == Some(&field))
        };
        self.writes.iter().any(|w| w.mark.is_none() && self.image.has(&w.collection, &w.key) && !renamed(w))
    }

    /// What the judge makes of begin and of the Writes, whose keys are given in capitals. "From now on every Write is recorded as kind 7".
    fn recorded(&self, judge: &dyn Store) -> Option<Vec<u8>> {
        let mut start = Image { log: None, open: false, ..self.image.clone() };
        start.staging.retain(|staged, _| self.writes.iter().all(|w| w.staged != *staged));
        let calls = self.writes.iter().map(|w| {
            let number = *self.image.staging.get(&w.staged)?;
            let key = w.key.to_ascii_uppercase();
            Some(Call::Write { collection: w.collection.clone(), key, staged: w.staged.clone(), number })
        });
        std::iter::once(Some(Call::Begin)).chain(calls).try_fold(start.encode(), |image, call| ask(judge, &call?, &image, Lent::AMPLE).out)
    }
}

/// A judge under the rule.
struct Held<'a> {
    panel: &'a Panel,
    judge: &'a dyn Store,
    transaction: &'a Transaction,
    counts: &'a mut Counts,
}

impl Held<'_> {
    fn require(&self, holds: bool, what: impl FnOnce() -> String) {
        if !holds {
            println!("\nDIFFERENCE: {} breaks the cut rule, {}", self.judge.name(), what());
            println!("    {}", text::command(&Call::Commit, &self.transaction.image.encode(), Lent::AMPLE));
            self.panel.fail()
        }
    }

    fn ask(&self, call: &Call, image: &[u8]) -> Answer {
        ask(self.judge, call, image, Lent::AMPLE)
    }

    /// The steps of a plan, from 0 on, and its whole answer.
    fn plan(&self, plan: Plan, image: &[u8]) -> (Answer, Vec<Answer>) {
        let (whole, mut steps) = self.judge.plan(plan, image);
        self.require(steps.pop().is_some_and(|past| past.number == 16), || format!("the {plan:?} has no end"));
        (whole, steps)
    }

    fn every_cut(&mut self, rng: &mut Rng) {
        let (whole, steps) = self.plan(Plan::Commit, &self.transaction.image.encode());
        let fails = whole.number != 0;
        self.require([0, 14, 15].contains(&whole.number), || format!("commit answers {}", whole.number));
        if fails && !self.transaction.is_marked() {
            return;
        }
        let before = self.transaction.before();
        let done = if fails { before.clone() } else { self.transaction.all_writes_done() };
        self.require(whole.out.as_ref() == Some(&done), || "uncut".into());
        self.counts.transactions[self.transaction.kinds()] += 1;
        if fails {
            self.counts.failing[whole.number as usize - 14] += 1;
        }
        if self.judge.name() != "original" {
            self.held(rng, &before, &whole);
        }
        let steps: Vec<&Answer> = steps.iter().collect();
        for n in 0..steps.len() {
            if n == 0 || !self.transaction.waits(&steps[..=n]) {
                let cut = steps[n].out.as_ref().expect("an image");
                let stood = Image::decode(cut).is_some_and(|image| image.log.is_some());
                self.recovered(rng, n, cut, if stood { &before } else { &done });
            }
        }
    }

    fn recovered(&mut self, rng: &mut Rng, n: usize, cut: &[u8], want: &Vec<u8>) {
        let (whole, steps) = self.plan(Plan::Recover, cut);
        self.require(whole.number == 0 && whole.out.as_ref() == Some(want), || format!("cut after {n} steps"));
        self.counts.cuts += 1;
        if !self.transaction.is_marked() {
            return;
        }
        for (m, step) in steps.iter().enumerate() {
            let (mut image, mut again) = (step.out.clone().expect("an image"), vec![m]);
            while rng.one_in(2) {
                let length = self.plan(Plan::Recover, &image).1.len();
                let m = rng.below(length);
                image = self.ask(&Call::RecoverStep(m as u64), &image).out.expect("an image");
                again.push(m);
            }
            let end = self.ask(&Call::Recover, &image);
            let same = end.number == 0 && end.out.as_ref() == Some(want);
            self.require(same, || format!("cut after {n} steps, recoveries cut after {again:?} steps"));
            self.counts.again += 1;
        }
    }

    /// "revert after an uncut held commit gives exactly the collections, names and contents from before, and keep gives the ordinary commit's
    /// image"; "A held commit that fails rolls back as before."
    fn held(&mut self, rng: &mut Rng, before: &Vec<u8>, committed: &Answer) {
        let (whole, cuts) = self.plan(Plan::Hold, &self.transaction.image.encode());
        self.require(whole.number == committed.number, || "hold answers another number than commit".into());
        let held = whole.out.expect("an image");
        if whole.number != 0 {
            self.require(held == *before, || "a held commit that fails".into());
            return;
        }
        self.counts.held += 1;
        self.require(self.ask(&Call::Keep, &held).out == committed.out, || "held and kept".into());
        self.require(self.ask(&Call::Revert, &held).out.as_ref() == Some(before), || "held and reverted".into());
        if !self.transaction.is_marked() {
            return;
        }
        let (done, image) = (committed.out.as_ref().expect("an image"), |step: &Answer| step.out.clone().expect("an image"));
        for (n, cut) in cuts.iter().map(image).enumerate() {
            self.recovered(rng, n, &cut, if has_held_log(&cut) { &held } else { before });
        }
        let (keeps, reverts) = (self.plan(Plan::Keep, &held).1, self.plan(Plan::Revert, &held).1);
        for (n, cut) in keeps.iter().map(image).enumerate() {
            self.recovered(rng, n, &cut, if has_held_log(&cut) { &held } else { done });
        }
        for (n, cut) in reverts.iter().map(image).enumerate() {
            self.reverted(rng, n, cut, before);
        }
        self.counts.held_cuts += (cuts.len() + keeps.len() + reverts.len()) as u64;
    }

    /// A revert that was cut is begun again, and may be cut again, as long as its log stands; then it is recovered.
    fn reverted(&mut self, rng: &mut Rng, n: usize, mut cut: Vec<u8>, before: &Vec<u8>) {
        while has_held_log(&cut) {
            let (whole, steps) = self.plan(Plan::Revert, &cut);
            self.require(whole.number == 0 && whole.out.as_ref() == Some(before), || format!("a revert cut after {n} steps"));
            let next = steps[rng.below(steps.len())].out.clone().expect("an image");
            if next == cut && rng.one_in(2) {
                return;
            }
            cut = next;
        }
        self.recovered(rng, n, &cut, before);
    }

    /// A transaction that can be recorded has true marks.
    fn recording(&mut self) {
        let lowered = self.transaction.writes.iter().all(|w| !w.key.iter().any(u8::is_ascii_uppercase));
        if lowered
            && self.transaction.is_marked()
            && let Some(recorded) = self.transaction.recorded(self.judge)
        {
            self.require(recorded == self.transaction.image.encode(), || "as it is recorded".into());
            self.counts.recorded += 1;
        }
    }
}

/// What is held to the rule, judge by judge.
struct Rule<'a> {
    panel: &'a Panel,
    counts: Vec<Counts>,
    started: Instant,
}

impl Rule<'_> {
    fn new(panel: &Panel) -> Rule<'_> {
        let counts = panel.judges().iter().map(|_| Counts::default()).collect();
        Rule { panel, counts, started: Instant::now() }
    }

    /// Holds every judge that knows its Writes to a transaction, if that meets the conditions.
    fn hold(&mut self, rng: &mut Rng, image: Image) {
        let Some(transaction) = Transaction::of(image) else { return };
        for (judge, counts) in self.panel.judges().into_iter().zip(&mut self.counts) {
            if judge.name() != "original" || transaction.is_unmarked() {
                let mut held = Held { panel: self.panel, judge, transaction: &transaction, counts };
                held.recording();
                held.every_cut(rng);
            }
        }
    }

    fn summary(&self, what: &str) {
        for (judge, counts) in self.panel.judges().iter().zip(&self.counts) {
            let ([old, marked, both], [step_failed, full]) = (counts.transactions, counts.failing);
            println!(
                "{what}: {} keeps the cut rule; transactions under its conditions: {old} of kind 1, {marked} marked, {both} of both, of these {step_failed} that \
                 answer 14, {full} that answer 15, {} also recorded by begin and Writes; {} cuts recovered, {} recoveries cut again and recovered; {} held, kept and reverted, {} cuts of that",
                judge.name(),
                counts.recorded,
                counts.cuts,
                counts.again,
                counts.held,
                counts.held_cuts
            );
        }
        println!("{what}: {:.1} s", self.started.elapsed().as_secs_f64());
    }
}

pub fn run(panel: &mut Panel, seed: u64, transactions: u64) {
    let mut rule = Rule::new(panel);
    for case in 0..transactions {
        let rng = &mut Rng::new(seed, case);
        let image = generate::under_the_rule(rng);
        rule.hold(rng, image);
    }
    rule.summary(&format!("rule, seed {seed}"));
}

/// Every small case.
pub fn run_small(panel: &mut Panel) {
    let (mut rule, rng) = (Rule::new(panel), &mut Rng::new(0, 0));
    let (stores, lists) = (small::stores(&NAMES), small::lists(&NAMES));
    for store in &stores {
        for list in lists.iter().flat_map(|list| small::markings(list)) {
            rule.hold(rng, small::transaction(store, &list));
        }
    }
    rule.summary(&format!("rule, small, {} stores, {} lists", stores.len(), lists.len()));
}
