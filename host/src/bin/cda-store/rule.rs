//! Whether the cut rule speaks of an update. Its conditions for operations of every kind, each in words, are decided from the image that
//! is committed: crates/cut_rule/specs/Kinds.antt has them as definitions.
use cda_store::{Contents, Log, Logged, Plan, Write};
use std::fmt;

/// A condition that does not hold.
#[derive(Clone, PartialEq, Eq, Debug)]
pub struct Broken {
    /// The operation that it fails for, with its number in the log, from 1; none where it is one on the store alone.
    operation: Option<(usize, Logged)>,
    condition: Condition,
}

/// What is wrong.
#[derive(Clone, PartialEq, Eq, Debug)]
pub enum Condition {
    /// Directories and files of the store have names that end in .bak or .tmp.
    NamesInStore(Vec<String>),
    /// A name of the operation's place does.
    NameOfPlace(String),
    /// An earlier operation, of this number, touches a place that this one touches.
    Shared(usize, String),
    /// A Write whose log does not say whether its key was there.
    Unmarked,
    /// A Write whose log says so, or not, and it is the other way.
    FalseMark(bool),
    /// The collection of a Write does not stand.
    NoCollection(String),
    /// The collection to create stands.
    Exists(String),
    /// A copy whose log says that the destination was there, or not, and it is the other way.
    FalseFlag(bool, String),
}

/// What an operation touches: a key of a collection, or a collection as a whole. A copy touches its destination; its source it only reads.
#[derive(Clone, Copy, PartialEq, Eq)]
enum Place<'a> {
    Key(&'a str, &'a str),
    Whole(&'a str),
}

impl<'a> Place<'a> {
    fn of(operation: &'a Logged) -> Place<'a> {
        match operation {
            Logged::Write(Write { collection, key, .. }) | Logged::Delete { collection, key } => Place::Key(collection, key),
            Logged::DeleteAll { collection } => Place::Whole(collection),
            Logged::CreateCollection { name } | Logged::DeleteCollection { name } => Place::Whole(name),
            Logged::CopyCollection { destination, .. } => Place::Whole(destination),
        }
    }

    fn collection(self) -> &'a str {
        let (Place::Key(collection, _) | Place::Whole(collection)) = self;
        collection
    }

    fn names(self) -> Vec<&'a str> {
        match self {
            Place::Key(collection, key) => vec![collection, key],
            Place::Whole(collection) => vec![collection],
        }
    }

    /// What two places share, in words.
    fn shared(self, other: Place) -> Option<String> {
        match (self, other) {
            (Place::Key(..), Place::Key(collection, key)) => {
                (self == other).then(|| format!("the key {:?}", format!("{collection}/{key}")))
            }
            _ => (self.collection() == other.collection()).then(|| format!("the collection {:?}", other.collection())),
        }
    }
}

/// The conditions that do not hold of the transaction in this image. None: the rule speaks of it.
pub fn broken(before: &Contents) -> Vec<Broken> {
    let log = before.log.as_deref().and_then(|log| Log::read(log).ok());
    let operations = log.map_or(Vec::new(), |log| log.operations);
    let mut all = Vec::new();
    let names = reserved_names(before);
    if !names.is_empty() {
        all.push(Broken { operation: None, condition: Condition::NamesInStore(names) });
    }
    for (i, operation) in operations.iter().enumerate() {
        let place = Place::of(operation);
        let name = place.names().into_iter().find(|name| is_reserved(name)).map(|name| Condition::NameOfPlace(name.to_string()));
        let earlier = operations[..i].iter().map(Place::of).enumerate();
        let shared = earlier.filter_map(|(j, other)| Some(Condition::Shared(j + 1, other.shared(place)?)));
        let conditions = name.into_iter().chain(shared).chain(untrue(before, operation));
        all.extend(conditions.map(|condition| Broken { operation: Some((i + 1, operation.clone())), condition }));
    }
    all
}

/// What an operation says of the store and is not so, or asks of it and does not have.
fn untrue(before: &Contents, operation: &Logged) -> Vec<Condition> {
    let stands = |name: &str| before.directories.contains_key(name);
    match operation {
        Logged::Write(Write { collection, key, mark, .. }) => {
            let mark = match mark {
                None => Some(Condition::Unmarked),
                Some(mark) => (*mark != before.has(collection, key)).then_some(Condition::FalseMark(*mark)),
            };
            let missing = (!stands(collection)).then(|| Condition::NoCollection(collection.clone()));
            mark.into_iter().chain(missing).collect()
        }
        Logged::CreateCollection { name } if stands(name) => vec![Condition::Exists(name.clone())],
        Logged::CopyCollection { destination, existed, .. } if *existed != stands(destination) => {
            vec![Condition::FalseFlag(*existed, destination.clone())]
        }
        _ => Vec::new(),
    }
}

/// Whether a name ends as those of backups and staging files do, whatever stands before the dot.
fn is_reserved(name: &str) -> bool {
    name.ends_with(".bak") || name.ends_with(".tmp")
}

/// The collections, with / behind their names, and the files of the store whose names are reserved.
fn reserved_names(before: &Contents) -> Vec<String> {
    let of_directory = |(directory, files): (&String, &cda_store::Files)| {
        let own = is_reserved(directory).then(|| format!("{directory}/"));
        own.into_iter().chain(files.keys().filter(|file| is_reserved(file)).map(|file| format!("{directory}/{file}"))).collect::<Vec<_>>()
    };
    before.directories.iter().flat_map(of_directory).collect()
}

impl Broken {
    /// Whether it is nothing but a Write of an older version, without a mark.
    pub fn is_unmarked(&self) -> bool {
        self.condition == Condition::Unmarked
    }
}

impl fmt::Display for Broken {
    fn fmt(&self, f: &mut fmt::Formatter) -> fmt::Result {
        if let Some((number, operation)) = &self.operation {
            write!(f, "operation {number}, {}: ", Quoted(operation))?;
        }
        self.condition.fmt(f)
    }
}

/// So many names are told; the others are counted.
const MOST: usize = 4;

impl fmt::Display for Condition {
    fn fmt(&self, f: &mut fmt::Formatter) -> fmt::Result {
        let was = |there: bool| if there { "was there, and it is not" } else { "is new, and it is there" };
        match self {
            Condition::NamesInStore(names) => {
                let told: Vec<String> = names.iter().take(MOST).map(|name| format!("{name:?}")).collect();
                let more = names.len() - told.len();
                let more = if more == 0 { String::new() } else { format!(" and {more} more") };
                write!(f, "the store has {}{more}, and no name in it may end in .bak or .tmp", told.join(", "))
            }
            Condition::NameOfPlace(name) => write!(f, "the name {name:?} ends in .bak or .tmp"),
            Condition::Shared(other, what) => write!(f, "operation {other} touches {what} too"),
            Condition::Unmarked => write!(f, "the log is an older version's and does not say whether the key was there"),
            Condition::FalseMark(mark) => write!(f, "the log says that the key {}", was(*mark)),
            Condition::NoCollection(name) => write!(f, "the collection {name:?} is not there"),
            Condition::Exists(name) => write!(f, "the collection {name:?} is there already"),
            Condition::FalseFlag(existed, name) => write!(f, "the log says that {name:?} {}", was(*existed)),
        }
    }
}

/// An operation with its names in quotes.
struct Quoted<'a>(&'a Logged);

impl fmt::Display for Quoted<'_> {
    fn fmt(&self, f: &mut fmt::Formatter) -> fmt::Result {
        match self.0 {
            Logged::Write(Write { collection, key, .. }) => write!(f, "put {:?}", format!("{collection}/{key}")),
            Logged::Delete { collection, key } => write!(f, "delete {:?}", format!("{collection}/{key}")),
            Logged::DeleteAll { collection } => write!(f, "clear {collection:?}"),
            Logged::CreateCollection { name } => write!(f, "create {name:?}"),
            Logged::DeleteCollection { name } => write!(f, "drop {name:?}"),
            Logged::CopyCollection { source, destination, .. } => write!(f, "copy {source:?} to {destination:?}"),
        }
    }
}

/// What is said under the table: one line if the rule speaks of the update, else one for each condition that does not hold.
pub fn lines(plan: Plan, broken: &[Broken]) -> Vec<String> {
    let end = if plan == Plan::Hold { "exactly the held update" } else { "exactly the files that it makes" };
    if broken.is_empty() {
        return vec![format!(
            "within the rule: behind whatever step this update is cut, and however often its recovery is cut, it leaves exactly the files from before or {end}."
        )];
    }
    broken.iter().map(|broken| format!("outside the rule: {broken}.")).collect()
}

#[cfg(test)]
mod tests {
    use super::{Broken, broken};
    use crate::cuts::{Outcome, cuts};
    use cda_store::{Contents, Files, Image, Plan, Refusal};

    const COLLECTIONS: [&str; 5] = ["db", "n", "z", "e.bak", "t.tmp"];
    const KEYS: [&str; 5] = ["a", "b", "K", "k", "a.bak"];

    struct Random(u64);

    impl Random {
        /// splitmix64
        fn below(&mut self, n: usize) -> usize {
            self.0 = self.0.wrapping_add(0x9E37_79B9_7F4A_7C15);
            let z = (self.0 ^ (self.0 >> 30)).wrapping_mul(0xBF58_476D_1CE4_E5B9);
            let z = (z ^ (z >> 27)).wrapping_mul(0x94D0_49BB_1331_11EB);
            ((z ^ (z >> 31)) % n as u64) as usize
        }
        /// One of the names; the last two, which end as backups and staging files do, seldom.
        fn pick(&mut self, names: [&'static str; 5]) -> &'static str {
            let few = if self.below(12) == 0 { 5 } else { 3 };
            names[self.below(few)]
        }
    }

    fn store(random: &mut Random) -> Image {
        let mut number = 0;
        let mut contents = Contents::default();
        for _ in 0..random.below(4) {
            let files: &mut Files = contents.directories.entry(random.pick(COLLECTIONS).to_string()).or_default();
            for _ in 0..random.below(3) {
                number += 1;
                files.insert(random.pick(KEYS).to_string(), number);
            }
        }
        contents.image().unwrap()
    }

    fn record(random: &mut Random, image: &Image) -> Result<Image, Refusal> {
        let (collection, key) = (random.pick(COLLECTIONS), random.pick(KEYS));
        match random.below(8) {
            0..=2 => {
                let (staged, number) = image.contents().unused();
                image.write(collection, key, &staged, number)
            }
            3 => image.delete(collection, key),
            4 => image.delete_all(collection),
            5 => image.create_collection(collection),
            6 => image.delete_collection(collection),
            _ => image.copy_collection(collection, random.pick(COLLECTIONS)),
        }
    }

    /// Of an update within the rule no cut, held or not, leaves anything but the two; outside it some do.
    #[test]
    fn what_is_said_is_so() {
        let (mut within, mut outside, mut kept_anyhow) = (0, 0, 0);
        for case in 0..4000 {
            let random = &mut Random(case);
            let mut image = store(random).begin().unwrap();
            for _ in 0..random.below(4) {
                image = record(random, &image).unwrap_or(image);
            }
            for plan in [Plan::Commit, Plan::Hold] {
                let cuts = cuts(plan, &image).ok().unwrap();
                let Some(broken) = cuts.broken else { continue };
                assert_eq!(broken, super::broken(&image.contents()));
                let either = |outcome: &Outcome| matches!(outcome, Outcome::Earlier | Outcome::Later | Outcome::Held);
                match (broken.is_empty(), cuts.cuts.iter().all(|cut| either(&cut.outcome))) {
                    (true, holds) => {
                        assert!(holds, "{case}: {:?}", image.contents());
                        within += 1;
                    }
                    (false, true) => kept_anyhow += 1,
                    (false, false) => outside += 1,
                }
            }
        }
        assert!(within > 2000 && outside > 500 && kept_anyhow > 500, "{within} {outside} {kept_anyhow}");
    }

    /// An operation on a copy's source does not touch the copy's place.
    #[test]
    fn the_rotation_is_within() {
        let directories = ["current", "next"].map(|name| (name.to_string(), Files::new())).into();
        let image = Contents { directories, ..Contents::default() }.image().and_then(|image| image.begin()).unwrap();
        let image = image.copy_collection("current", "backup").and_then(|image| image.copy_collection("next", "current")).unwrap();
        assert_eq!(broken(&image.delete_collection("next").unwrap().contents()), Vec::<Broken>::new());
    }
}
