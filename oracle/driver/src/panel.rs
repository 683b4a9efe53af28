//! The judges side by side. The original decides; where it has no opinion, the documents do, by the plain reading.
//!
//! The original has no marked Write (document 02, item 4). Whatever is asked about a log with some is first asked, of every judge, about
//! the old log, with Writes of kind 1 in their place. The original's answer there is then held to the others' about the log itself: but for
//! the kinds and marks, and but for what item 4 says of a recovery or rollback. Nor has it a Held log (item 6): whatever is asked about one, the
//! documents decide.
use crate::{choice::Choice, shrink::shrink, text};
use original::{Original, old};
use plain::{Image, Plain, image::unmarked, log};
use std::io::{IsTerminal, Write};
use std::time::{Duration, Instant};
use store::{Answer, Call, Lent, NO_OPINION, Plan, Store, ask};

/// The numbers that the documents added and of which the original says nothing.
const ADDED: [u32; 8] = [1, 2, 4, 5, 6, 10, 12, 21];

/// What the judges are asked.
#[derive(Clone, PartialEq, Eq, PartialOrd, Ord, Debug)]
pub struct Question {
    pub call: Call,
    pub image: Vec<u8>,
    pub lent: Lent,
}

/// By whom an answer is decided.
#[derive(Clone, Copy, PartialEq, Eq, Debug)]
pub enum By {
    Original,
    /// The original, but for the kinds and marks of Writes.
    ButForMarks,
    /// Document 02, item 4: "recovery and rollback equal this rule and no longer the Rust".
    Item4,
    /// The documents alone: the original has no opinion, or isn't asked.
    Documents,
}

/// What is asked of an image: one call, or a plan, whole and after every step.
#[derive(Clone, Copy)]
enum Asked<'a> {
    One(&'a Call, Lent),
    All(Plan),
}

impl Asked<'_> {
    fn answers(self, judge: &dyn Store, image: &[u8]) -> Vec<Answer> {
        match self {
            Asked::One(call, lent) => vec![ask(judge, call, image, lent)],
            Asked::All(plan) => {
                let (whole, steps) = judge.plan(plan, image);
                std::iter::once(whole).chain(steps).collect()
            }
        }
    }

    /// What the answer of this place answers.
    fn question(self, at: usize, image: &[u8]) -> Question {
        let (call, lent) = match self {
            Asked::One(call, lent) => (call.clone(), lent),
            Asked::All(plan) if at == 0 => (plan.whole(), Lent::AMPLE),
            Asked::All(plan) => (plan.step(at as u64 - 1), Lent::AMPLE),
        };
        Question { call, image: image.to_vec(), lent }
    }
}

pub struct Panel {
    pub original: Option<Original>,
    pub port: Option<Box<dyn Store>>,
    /// Images that were handed to the judges.
    pub inputs: u64,
    /// Answers that were compared, in the order of `By`.
    pub compared: [u64; 4],
    /// The questions of this run that are kept for a list.
    pub choice: Option<Choice>,
    numbers: [u64; 22],
    /// Causes that were told.
    causes: [u64; 4],
    started: Instant,
    told: Instant,
}

/// The image with an old log. What is refused as an image stays.
fn old_image(image: &[u8]) -> Vec<u8> {
    if Image::decode(image).is_some() { unmarked(image) } else { image.to_vec() }
}

/// Whether item 4's rule can have a say: a commit or recovery of a log in which a key is marked as standing.
fn is_of_item_4(q: &Question) -> bool {
    let carried_out = matches!(q.call, Call::Commit | Call::CommitStep(_) | Call::Recover | Call::RecoverStep(_));
    let log = Image::decode(&q.image).and_then(|image| image.log).filter(|log| log::status(log).is_some());
    carried_out && log.is_some_and(|log| log::operations(&log).0.iter().any(|operation| operation.mark() == Some(true)))
}

/// The same of what a call is lent, which may be a log alone.
fn old_lent(call: &Call, lent: &[u8]) -> Vec<u8> {
    if call.takes_log() { log::unmarked(lent) } else { old_image(lent) }
}

/// Whether a Held log is asked about (document 02, item 6).
fn is_of_held(q: &Question) -> bool {
    let log = if q.call.takes_log() { Some(q.image.clone()) } else { Image::decode(&q.image).and_then(|image| image.log) };
    log::is_held(log.as_deref())
}

/// A recovery's answer without the cause, which the original doesn't hand back.
fn without_cause(q: &Question, said: &Answer) -> Answer {
    Answer { cause: said.cause.filter(|_| q.call != Call::Recover), ..said.clone() }
}

/// What the original doesn't say: how a log broke (document 02, item 1), which backup stands (item 2), all about a held update (item 6), an
/// inventory (item 9).
fn is_added(q: &Question, said: &Answer) -> bool {
    let told = said.number == 0 && said.out.as_ref().is_some_and(|out| !out.is_empty());
    match q.call {
        Call::Hold | Call::HoldStep(_) | Call::Keep | Call::KeepStep(_) | Call::Revert | Call::RevertStep(_) => true,
        _ if is_of_held(q) => true,
        Call::LogCause => said.number == 0 && said.cause != Some(0),
        Call::FindBackup | Call::Inventory => told,
        _ => false,
    }
}

impl Panel {
    pub fn new(with_original: bool) -> Panel {
        let original = with_original.then(Original::new);
        let now = Instant::now();
        Panel {
            original,
            port: port::port(),
            inputs: 0,
            compared: [0; 4],
            choice: None,
            numbers: [0; 22],
            causes: [0; 4],
            started: now,
            told: now,
        }
    }

    pub fn judges(&self) -> Vec<&dyn Store> {
        let original = self.original.as_ref().map(|o| o as &dyn Store);
        original.into_iter().chain(self.others()).collect()
    }

    /// The plain reading and the port, which know the marks.
    fn others(&self) -> Vec<&dyn Store> {
        [&Plain as &dyn Store].into_iter().chain(self.port.as_deref()).collect()
    }

    /// By whom an answer is decided, if the judges agree; they were asked about the old log before.
    fn decided(&self, question: impl FnOnce() -> Question, by_original: Option<&Answer>, others: &[&Answer]) -> Option<By> {
        let said = others[0];
        if others.iter().any(|answer| *answer != said || answer.stray.is_some()) {
            return None;
        }
        let Some(answer) = by_original else { return Some(By::Documents) };
        let question = question();
        if answer.number == NO_OPINION {
            let added = ADDED.contains(&said.number) || is_added(&question, said);
            return added.then_some(By::Documents);
        }
        match without_cause(&question, said) {
            said if *answer == said => Some(By::Original),
            said if *answer == old(&said) => Some(By::ButForMarks),
            _ => is_of_item_4(&question).then_some(By::Item4),
        }
    }

    /// The answer to a question, and by whom it is decided; none if the judges differ.
    pub fn decide(&self, q: &Question) -> Option<(Answer, By)> {
        let old = old_lent(&q.call, &q.image);
        let by_original = self.original.as_ref().map(|original| ask(original, &q.call, &old, q.lent));
        let decide = |image: &[u8]| {
            let others: Vec<Answer> = self.others().iter().map(|judge| ask(*judge, &q.call, image, q.lent)).collect();
            let question = || Question { image: image.to_vec(), ..q.clone() };
            let by = self.decided(question, by_original.as_ref(), &others.iter().collect::<Vec<_>>())?;
            Some((others.into_iter().next()?, by))
        };
        decide(&old)?;
        decide(&q.image)
    }

    pub fn differ(&self, q: &Question) -> bool {
        self.decide(q).is_none()
    }

    /// Holds the judges' answers about one image to each other, and hands on those that they agree on.
    fn compare(&mut self, asked: Asked, image: &[u8], by_original: Option<&[Answer]>) -> Vec<Answer> {
        self.inputs += 1;
        let mut others: Vec<Vec<Answer>> = self.others().iter().map(|judge| asked.answers(*judge, image)).collect();
        let most = others.iter().map(Vec::len).chain(by_original.map(<[Answer]>::len)).max().unwrap();
        let missing = Answer::refusal(16);
        // Without an opinion of the whole the original has none of a step.
        let unsaid = by_original.and_then(<[Answer]>::first).filter(|whole| whole.number == NO_OPINION).unwrap_or(&missing);
        for n in 0..most {
            let said: Vec<&Answer> = others.iter().map(|answers| answers.get(n).unwrap_or(&missing)).collect();
            let by_original = by_original.map(|answers| answers.get(n).unwrap_or(unsaid));
            let question = || asked.question(n, image);
            match self.decided(question, by_original, &said) {
                Some(by) => self.count(by, said[0], question),
                None => self.report(question()),
            }
        }
        others.pop().unwrap()
    }

    fn count(&mut self, by: By, answer: &Answer, question: impl FnOnce() -> Question) {
        self.compared[by as usize] += 1;
        self.numbers[answer.number as usize] += 1;
        answer.cause.into_iter().for_each(|cause| self.causes[cause as usize] += 1);
        if let Some(choice) = &mut self.choice {
            choice.offer(question(), answer);
        }
    }

    /// The original's answers about the old log, to which the others' are held, if it isn't the image's own.
    fn about_old_log(&mut self, asked: Asked, old: &[u8], image: &[u8]) -> Option<Vec<Answer>> {
        let by_original = self.original.as_ref().map(|original| asked.answers(original, old));
        if old != image {
            self.compare(asked, old, by_original.as_deref());
        }
        by_original
    }

    /// Asks all judges; the answer that they agree on.
    pub fn ask(&mut self, call: &Call, image: &[u8], lent: Lent) -> Answer {
        let asked = Asked::One(call, lent);
        let by_original = self.about_old_log(asked, &old_lent(call, image), image);
        self.compare(asked, image, by_original.as_deref()).remove(0)
    }

    /// Asks all judges for a plan, whole and after every step. The images after 0, 1, .. steps.
    pub fn plan(&mut self, plan: Plan, image: &[u8]) -> Vec<Vec<u8>> {
        self.plans(plan, &[image]).remove(0)
    }

    /// The same for images that may have one old log, of which it is asked once.
    pub fn plans<T: AsRef<[u8]>>(&mut self, plan: Plan, images: &[T]) -> Vec<Vec<Vec<u8>>> {
        let asked = Asked::All(plan);
        let (mut last, mut by_original) = (None, None);
        let mut all = Vec::new();
        for image in images.iter().map(T::as_ref) {
            let old = old_image(image);
            if last.as_ref() != Some(&old) {
                by_original = self.about_old_log(asked, &old, image);
                last = Some(old);
            }
            let answers = self.compare(asked, image, by_original.as_deref());
            all.push(answers.into_iter().skip(1).filter_map(|answer| answer.out).collect());
        }
        all
    }

    /// Stops at a difference, with the smallest question that still shows one.
    fn report(&self, question: Question) -> ! {
        println!("\nDIFFERENCE, as found:\n    {}", text::command(&question.call, &question.image, question.lent));
        let small = shrink(question, |q| self.differ(q));
        println!("smallest:\n    {}", text::command(&small.call, &small.image, small.lent));
        println!("    image {}", text::hex(&small.image));
        self.print_answers(&small);
        self.fail()
    }

    /// Every judge's answer, a line each.
    pub fn print_answers(&self, q: &Question) {
        for judge in self.judges() {
            println!("    {:8} {}", judge.name(), text::answer(&q.call, &ask(judge, &q.call, &q.image, q.lent)));
        }
    }

    pub fn names(&self) -> String {
        self.judges().iter().map(|judge| judge.name()).collect::<Vec<_>>().join(", ")
    }

    /// Ends the program, which failed, with the original's folder cleared away.
    pub fn fail(&self) -> ! {
        if let Some(original) = &self.original {
            let _ = std::fs::remove_dir_all(&original.root.0);
        }
        std::process::exit(1)
    }

    /// A line now and then: done of so many.
    pub fn progress(&mut self, what: &str, done: u64, of: u64) {
        let terminal = std::io::stderr().is_terminal();
        if self.told.elapsed() < Duration::from_secs(if terminal { 1 } else { 15 }) {
            return;
        }
        self.told = Instant::now();
        let rate = self.inputs as f64 / self.started.elapsed().as_secs_f64();
        let compared: u64 = self.compared.iter().sum();
        let line = format!("{what}: {done} of {of}, {compared} answers compared, {rate:.0} inputs a second");
        let end = if terminal { "\x1b[K\r" } else { "\n" };
        let _ = write!(std::io::stderr(), "{line}{end}");
    }

    /// The last line of a kind of run that compares.
    pub fn summary(&self, what: &str) {
        if self.choice.is_some() {
            return;
        }
        let counts = |of: &[u64]| of.iter().enumerate().filter(|(_, n)| **n > 0).map(|(at, n)| format!(" {at}:{n}")).collect::<String>();
        println!(
            "{what}: {} agree; {} inputs, {}; {:.1} s; numbers{}; causes{}",
            self.names(),
            self.inputs,
            comparisons(self.compared),
            self.started.elapsed().as_secs_f64(),
            counts(&self.numbers),
            counts(&self.causes)
        );
    }
}

/// How many answers were compared with what, in the order of `By`.
pub fn comparisons([original, but_for_marks, item_4, documents]: [u64; 4]) -> String {
    format!(
        "{} answers compared with the original, {but_for_marks} of them but for kind and mark; {item_4} differ from the original as document \
         02, item 4 says; {documents} by the documents alone",
        original + but_for_marks
    )
}
