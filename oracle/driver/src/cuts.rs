//! Real cuts: the original is stopped by its process's exit after each step, its disk is read back and held to the step
//! entry's image, and both sides recover from there. The Writes are of kind 1, which is all that the original knows.
use crate::child;
use crate::generate::{self, Rng};
use crate::panel::{By, Panel};
use crate::text;
use original::{Cut, Original};
use plain::{Image, Plain};
use std::time::Instant;
use store::{Answer, Call, Lent, Plan, Store, ask};

/// Runs the original in a process of its own, which ends after n steps, and reads its disk.
fn disk_after_exit(original: &Original, plan: Plan, image: &Image, n: usize) -> Image {
    let status = child::run(|| drop(original.run(plan, image, Cut::Exit(n))));
    // With nothing to do there is no step to end after.
    assert!(status == 0 || n == 0, "the original did not come to step {n}: status {status}");
    original.root.get()
}

struct Cuts<'a> {
    original: &'a Original,
    other: &'a dyn Store,
    commits: u64,
    recoveries: u64,
}

impl Cuts<'_> {
    /// Every cut of a commit or recovery.
    fn all(&mut self, plan: Plan, image: &Image) -> Vec<Image> {
        let (_, steps) = self.other.plan(plan, &image.encode());
        let steps: Vec<&Answer> = steps.iter().filter(|s| s.number == 0).collect();
        let mut cuts = Vec::new();
        for (n, step) in steps.iter().enumerate() {
            let bytes = step.out.as_ref().unwrap();
            let marked = |image: &Image| Image { open: plan == Plan::Commit && n + 1 < steps.len(), ..image.clone() }.encode();
            let frozen = self.original.run(plan, image, Cut::Freeze(n)).expect("an opinion").image;
            self.same(plan, image, n, "frozen", bytes, &marked(&frozen));
            let disk = disk_after_exit(self.original, plan, image, n);
            self.same(plan, image, n, "on disk", bytes, &marked(&disk));
            *(if plan == Plan::Commit { &mut self.commits } else { &mut self.recoveries }) += 1;
            // A name that 01 refuses can come of a restore: such an image is recovered by none.
            if Image::decode(bytes).is_some() {
                self.recovered(plan, image, n, bytes, &disk);
                cuts.push(disk);
            }
        }
        cuts
    }

    /// Recovery of the disk as the exit left it.
    fn recovered(&self, plan: Plan, image: &Image, n: usize, bytes: &[u8], disk: &Image) {
        let recovered = self.original.recover_in_place(disk, Cut::Never);
        let by_other = ask(self.other, &Call::Recover, bytes, Lent::AMPLE);
        assert_eq!(by_other.number, recovered.number, "recovery after {n} steps of {}", text::store(image));
        if let Some(out) = &by_other.out {
            self.same(plan, image, n, "recovered", out, &recovered.image.encode());
        }
    }

    fn same(&self, plan: Plan, image: &Image, n: usize, what: &str, other: &[u8], original: &[u8]) {
        if other != original {
            println!("\nDIFFERENCE {what}, cut after {n} steps of\n    {}", text::command(&plan.whole(), &image.encode(), Lent::AMPLE));
            println!("    {:8} {}\n    original {}", self.other.name(), text::image(other), text::image(original));
            let _ = std::fs::remove_dir_all(&self.original.root.0);
            std::process::exit(1)
        }
    }
}

pub fn run(panel: &mut Panel, seed: u64, transactions: u64) {
    let started = Instant::now();
    let original = panel.original.take().expect("the original");
    let other = panel.port.take().unwrap_or_else(|| Box::new(Plain));
    let mut cuts = Cuts { original: &original, other: other.as_ref(), commits: 0, recoveries: 0 };
    for case in 0..transactions {
        let rng = &mut Rng::new(seed, case);
        let images = cuts.all(Plan::Commit, &generate::transaction(rng).unmarked());
        if rng.one_in(4) && !images.is_empty() {
            // The key turned twice: recovery is cut too.
            cuts.all(Plan::Recover, &images[rng.below(images.len())]);
        }
        panel.inputs = cuts.commits + cuts.recoveries;
        panel.compared[By::Original as usize] = 2 * panel.inputs;
        panel.progress("cuts", case, transactions);
    }
    println!(
        "cuts, seed {seed}: original and {} agree; {transactions} transactions, {} cuts of commits, {} cuts of recoveries, {:.1} s",
        other.name(),
        cuts.commits,
        cuts.recoveries,
        started.elapsed().as_secs_f64()
    );
}
