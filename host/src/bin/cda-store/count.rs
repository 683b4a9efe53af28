//! The number of a commit's steps as a sum: document 02, item 13.
use crate::rule::Broken;
use cda_store::{Contents, Write};
use std::{collections::BTreeSet, fmt};

/// What is counted of a transaction of Writes.
#[derive(Clone, Copy, PartialEq, Eq, Debug)]
pub struct Count {
    writes: usize,
    /// Written keys that are there already.
    standing: usize,
    collections: usize,
    /// Staging files that no Write names.
    unnamed: usize,
}

impl Count {
    pub const LEGEND: &str = "w writes, b of their keys already there, c collections named, s staging files that no write names";

    /// Counts a transaction that commits; none outside the conditions of the cut rule, of which these are broken. Here a Write may lack its mark.
    pub fn of(before: &Contents, broken: &[Broken]) -> Option<Count> {
        let writes = before.writes().filter(|writes| !writes.is_empty() && broken.iter().all(Broken::is_unmarked))?;
        let (collections, staged) = (distinct(&writes, |write| &write.collection), distinct(&writes, |write| &write.staged));
        Some(Count {
            writes: writes.len(),
            standing: writes.iter().filter(|write| before.has(&write.collection, &write.key)).count(),
            collections: collections.len(),
            unnamed: before.staging.keys().filter(|name| !staged.contains(name)).count(),
        })
    }
}

impl fmt::Display for Count {
    fn fmt(&self, f: &mut fmt::Formatter) -> fmt::Result {
        let Count { writes, standing, collections, unnamed } = self;
        write!(f, "6 + w {writes} + 2 x b {standing} + c {collections} + s {unnamed}")
    }
}

fn distinct<'a, T: Ord>(writes: &'a [Write], of: impl Fn(&'a Write) -> T) -> BTreeSet<T> {
    writes.iter().map(of).collect()
}
