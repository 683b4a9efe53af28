//! The syncs that are added to the steps of a plan, so that a loss of power leaves the earlier files or the later ones. The rule, by which
//! that is proved, is `around`, `withSyncs`, `syncedPlan` and `syncedCommit` in crates/power/specs/Loss.antt; it is stated here alone.
use crate::{entries::Plan, image::Contents, step::Step};

/// The added syncs before a step and behind it. They are no steps of the plan.
#[derive(Clone, PartialEq, Eq, Default, Debug)]
pub struct Syncs {
    /// Before the step.
    pub before: Vec<Step>,
    /// Behind it.
    pub behind: Vec<Step>,
}

/// The syncs around a step that finds this store. Its plan fails if it is a commit's and meets a failing step.
///
/// - `around`: before a step 0x2B, the log's removal, 0x2D of every collection that stands, and 0x2D with no name; behind it 0x2E.
/// - `syncedPlan`: so in a recovery; and where no log stands, first of all 0x2E, so that the log stays gone.
/// - `syncedCommit`: so in a commit that meets a failing step, and is rolled back; no other has them.
///
/// A revert takes a recovery's steps, and has their syncs. A hold is as a commit. A keep undoes nothing, and its plan syncs the journal before
/// the first backup goes.
pub fn around(plan: Plan, fails: bool, number: u64, step: &Step, found: &Contents) -> Syncs {
    let goes_back = match plan {
        Plan::Recover | Plan::Revert => true,
        Plan::Commit | Plan::Hold => fails,
        Plan::Keep => false,
    };
    let mut syncs = Syncs::default();
    if plan == Plan::Recover && number == 1 && found.log.is_none() {
        syncs.before.push(Step::SyncJournal);
    }
    if goes_back && *step == Step::RemoveLog {
        syncs.before.extend(found.directories.keys().map(|name| Step::SyncDirectory { directory: name.clone() }));
        syncs.before.push(Step::SyncCollections);
        syncs.behind.push(Step::SyncJournal);
    }
    syncs
}

#[cfg(test)]
mod tests {
    use super::*;
    use crate::image::Image;

    /// The plan with its added syncs, which stand in brackets.
    fn synced(plan: Plan, image: &Image) -> Vec<String> {
        let mut words = Vec::new();
        for stepped in image.steps(plan).map(|stepped| stepped.unwrap()) {
            words.extend(stepped.syncs.before.iter().map(|sync| format!("({sync})")));
            words.push(stepped.step.to_string());
            words.extend(stepped.syncs.behind.iter().map(|sync| format!("({sync})")));
        }
        words
    }

    /// db/a=1, fonts empty, and a transaction: a Write of 2 to db/a, and one to `more`.
    fn recorded(more: &str) -> Image {
        let files = [("a".to_string(), 1), (LONG.to_string(), 3)].into();
        let directories = [("db".to_string(), files), ("fonts".to_string(), Default::default())].into();
        let begun = Contents { directories, ..Contents::default() }.image().unwrap().begin().unwrap();
        begun.write("db", "a", "4.tmp", 4).and_then(|image| image.write("db", more, "5.tmp", 5)).unwrap()
    }

    /// Where this key stands, its backup name has over 64 bytes, and the step fails that makes it.
    const LONG: &str = "a-key-of-62-bytes-for-which-no-backup-name-is-left-in-64-bytes";
    const BEFORE: [&str; 3] = ["(sync directory db)", "(sync directory fonts)", "(sync the collections)"];

    /// The words from the log's removal on, with the syncs before it.
    fn end(words: &[String]) -> Vec<&str> {
        let at = words.iter().position(|word| word == "remove the log").unwrap();
        words[at - BEFORE.len()..].iter().map(String::as_str).collect()
    }

    #[test]
    fn a_commit_that_succeeds_has_no_added_sync() {
        for plan in [Plan::Commit, Plan::Hold] {
            let (image, none) = (recorded("b"), Syncs::default());
            assert!(image.steps(plan).all(|stepped| stepped.unwrap().syncs == none));
        }
    }

    #[test]
    fn a_commit_that_fails_is_synced_around_the_logs_removal() {
        let image = recorded(LONG);
        assert!(image.commit().is_err());
        for plan in [Plan::Commit, Plan::Hold] {
            let words = synced(plan, &image);
            assert_eq!(end(&words)[..5], [&BEFORE[..], &["remove the log", "(sync the journal)"]].concat(), "{words:?}");
            assert_eq!(words.iter().filter(|word| word.starts_with('(')).count(), 4, "{words:?}");
        }
    }

    #[test]
    fn a_recovery_and_a_revert_are_synced_around_the_logs_removal() {
        let image = recorded("b");
        let cut = image.commit_steps().map(|stepped| stepped.unwrap()).find(|stepped| matches!(stepped.step, Step::MoveStaged { .. }));
        let held = image.hold().unwrap();
        for (plan, image) in [(Plan::Recover, cut.unwrap().image), (Plan::Revert, held), (Plan::Recover, image)] {
            let words = synced(plan, &image);
            assert_eq!(end(&words)[..5], [&BEFORE[..], &["remove the log", "(sync the journal)"]].concat(), "{words:?}");
            assert_eq!(words.iter().filter(|word| word.starts_with('(')).count(), 4, "{words:?}");
        }
    }

    #[test]
    fn a_recovery_that_finds_no_log_syncs_the_journal_first() {
        let steps = recorded("b").commit_steps().map(|stepped| stepped.unwrap()).collect::<Vec<_>>();
        let cut = steps.into_iter().find(|stepped| stepped.step == Step::RemoveLog).unwrap().image;
        assert_eq!(synced(Plan::Recover, &cut), ["(sync the journal)", "remove db/a.bak"]);
        let rest = cut.recover().unwrap().image;
        assert_eq!(synced(Plan::Recover, &rest), [""; 0], "nothing is pending");
    }

    #[test]
    fn a_keep_has_no_added_sync() {
        let words = synced(Plan::Keep, &recorded("b").hold().unwrap());
        assert_eq!(words, ["remove the log", "sync the journal", "remove db/a.bak"]);
    }
}
