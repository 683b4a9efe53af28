//! Compares the port, the original and the plain reading of documents 01 and 02.
mod boundary;
mod child;
mod choice;
mod corners;
mod cuts;
mod damaged;
mod generate;
#[cfg(feature = "host")]
mod host;
mod lists;
mod panel;
mod random;
mod rule;
mod shrink;
mod small;
mod text;
mod wrong;

use panel::Panel;
use plain::image::unmarked;
use std::io::Write;
use store::{Call, Lent, NO_OPINION, Plan, Store, ask};

const USAGE: &str = "diff corners FILE                questions with the answers that a paper gives
diff wrong FILE                  useless stores, found out by such questions
diff random SEED CASES [FROM]    random runs
diff small narrow|wide [N REST]  every small case, or each whose number divided by N leaves REST
diff boundary                    limits
diff damaged [N]                 damaged logs and images, all or each N-th
diff cuts SEED TRANSACTIONS      the original stopped after each step
diff rule SEED TRANSACTIONS      the cut rule of documents 01 and 02, recoveries cut again too; updates held, kept and reverted
diff rule small                  the same of every small case
diff host SEED TURNS             the host and the original on one directory, in turns
diff lists FILE ROOT             the lists of the programs corners and replay, and what these must print
diff show CALL IMAGE             every judge's answer; the steps too, of an entry that has a plan
diff show restart IMAGE          the original opens a store, whose names may be such as 01 refuses
      --lent OUT STEP            lengths of the lent outputs
      --without-original         the plain reading and the port alone";

fn main() {
    let mut words: Vec<String> = std::env::args().skip(1).collect();
    let with_original = !take(&mut words, "--without-original", 0).0;
    let (_, lent) = take(&mut words, "--lent", 2);
    let lent = lent.map_or(Lent::AMPLE, |l| Lent { out: l[0].parse().expect("a length"), step: l[1].parse().expect("a length") });
    let mut panel = Panel::new(with_original);
    let number = |i: usize| words.get(i).map(|w| w.parse().expect("a number"));
    let alone = panel.judges().len() == 1;
    match words.first().map(String::as_str) {
        Some("lists") => lists::run(&mut panel, &words[1], &words[2]),
        Some(kind) if alone && kind != "show" => println!("{kind}: skipped, the plain reading stands alone"),
        Some("random") => random::run(&mut panel, number(1).unwrap_or(1), number(3).unwrap_or(0), number(2).unwrap_or(1000)),
        Some("corners") => corners::run(&mut panel, &words[1]),
        Some("wrong") => wrong::run(&mut panel, &words[1]),
        Some("small") => {
            let names = if words[1] == "wide" { small::WIDE } else { small::NARROW };
            small::run(&mut panel, &names, number(2).unwrap_or(1), number(3).unwrap_or(0));
        }
        Some("boundary") => boundary::run(&mut panel),
        Some("damaged") => damaged::run(&mut panel, number(1).unwrap_or(1) as usize),
        Some("cuts") => cuts::run(&mut panel, number(1).unwrap_or(1), number(2).unwrap_or(100)),
        Some("rule") if words[1] == "small" => rule::run_small(&mut panel),
        Some("rule") => rule::run(&mut panel, number(1).unwrap_or(1), number(2).unwrap_or(100)),
        #[cfg(feature = "host")]
        Some("host") => host::run(&mut panel, number(1).unwrap_or(1), number(2).unwrap_or(100)),
        #[cfg(not(feature = "host"))]
        Some("host") => println!("host: skipped, the port's static library is not there"),
        Some("show") if words[1] == "restart" => restart(&panel, &words[2]),
        Some("show") => show(&panel, &words[1..], lent),
        _ => println!("{USAGE}"),
    }
}

/// Takes an option and its words out of the command line.
fn take(words: &mut Vec<String>, option: &str, count: usize) -> (bool, Option<Vec<String>>) {
    match words.iter().position(|w| w == option) {
        None => (false, None),
        Some(at) => (true, Some(words.drain(at..=at + count).skip(1).collect())),
    }
}

fn restart(panel: &Panel, image: &str) {
    let (opened, after) = panel.original.as_ref().expect("the original").restart(&text::read_store(image));
    println!("{}", opened.map_or_else(|error| error, |()| "opened".into()));
    println!("'{}'", text::store(&after));
}

fn show(panel: &Panel, words: &[String], lent: Lent) {
    let mut words = words.iter();
    let call = text::read_call(&mut words);
    let image = text::read_lent(&call, words.next().map_or("", |w| w));
    let mut lines = String::new();
    for judge in panel.judges() {
        lines += &format!("{:8} {}\n", judge.name(), text::answer(&call, &ask(judge, &call, &image, lent)));
    }
    let marked = panel.original.is_some() && unmarked(&image) != image;
    if marked {
        lines += "the original has no marked Write: it is given Writes of kind 1\n";
    }
    if let Some(plan) = Plan::of(&call) {
        let judges = panel.judges();
        let has_opinion = judges[0].plan(plan, &image).0.number != NO_OPINION;
        if has_opinion {
            lines += &steps(judges[0], plan, &image);
        }
        if marked || !has_opinion {
            lines += &steps(judges[judges.len() - 1], plan, &image);
        }
    }
    let _ = std::io::stdout().write_all(lines.as_bytes());
}

/// The image after each step and, but of a recovery, what recovery makes of a cut there.
fn steps(judge: &dyn Store, plan: Plan, image: &[u8]) -> String {
    let cuts = if plan != Plan::Recover { ", and what recovery makes of a cut there" } else { "" };
    let mut lines = format!("\nsteps of the {}{cuts}\n", judge.name());
    for (n, step) in judge.plan(plan, image).1.iter().enumerate().filter(|(_, s)| s.number == 0) {
        let cut = step.out.as_ref().unwrap();
        lines += &format!("{n:3}  {:28} {}\n", text::field(step.step.as_ref().unwrap()), text::image(cut));
        if plan != Plan::Recover {
            lines += &format!("     {:28} -> {}\n", "", text::answer(&Call::Recover, &ask(judge, &Call::Recover, cut, Lent::AMPLE)));
        }
    }
    lines
}
