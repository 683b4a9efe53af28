//! Makes a question smaller as long as the judges still differ on it.
use crate::panel::Question;
use crate::text;
use plain::{
    Image, Name, Operation,
    log::{Ending, operations, status},
};
use store::{Call, Lent};

pub fn shrink(mut question: Question, differ: impl Fn(&Question) -> bool) -> Question {
    while let Some(smaller) = smaller(&question).into_iter().find(|q| *q != question && differ(q)) {
        question = smaller;
    }
    question
}

fn smaller(q: &Question) -> Vec<Question> {
    let mut found = vec![Question { lent: Lent::AMPLE, ..q.clone() }];
    let fewer = |n: u64| [n / 2, n.saturating_sub(1)];
    let with = |call: Call| Question { call, ..q.clone() };
    match q.call {
        Call::CommitStep(n) => found.extend(fewer(n).map(|n| with(Call::CommitStep(n)))),
        Call::RecoverStep(n) => found.extend(fewer(n).map(|n| with(Call::RecoverStep(n)))),
        Call::HoldStep(n) => found.extend(fewer(n).map(|n| with(Call::HoldStep(n)))),
        Call::KeepStep(n) => found.extend(fewer(n).map(|n| with(Call::KeepStep(n)))),
        Call::RevertStep(n) => found.extend(fewer(n).map(|n| with(Call::RevertStep(n)))),
        _ => {}
    }
    match Image::decode(&q.image) {
        Some(image) => {
            found.extend(smaller_images(&image).into_iter().map(|i| Question { image: i.encode(), ..q.clone() }));
            found.extend(shorter_names(&image, q));
        }
        None => found.extend(fewer_bytes(&q.image).into_iter().map(|image| Question { image, ..q.clone() })),
    }
    found
}

/// Without each part, the large ones first.
fn fewer_bytes(bytes: &[u8]) -> Vec<Vec<u8>> {
    let mut found = Vec::new();
    let mut size = bytes.len() / 2;
    while size > 0 {
        found.extend((0..=bytes.len() - size).step_by(size).map(|at| [&bytes[..at], &bytes[at + size..]].concat()));
        size /= 2;
    }
    found
}

fn smaller_images(image: &Image) -> Vec<Image> {
    let mut found = Vec::new();
    let mut without = |change: &dyn Fn(&mut Image)| {
        let mut smaller = image.clone();
        change(&mut smaller);
        found.push(smaller);
    };
    image.dirs.keys().for_each(|dir| without(&|i| i.dirs.retain(|d, _| d != dir)));
    image.staging.keys().for_each(|file| without(&|i| i.staging.retain(|f, _| f != file)));
    for (dir, files) in &image.dirs {
        files.keys().for_each(|file| without(&|i| i.dirs.get_mut(dir).unwrap().retain(|f, _| f != file)));
    }
    without(&|i| i.open = false);
    if let Some(log) = &image.log {
        without(&|i| i.log = None);
        if let Some((status, found)) = whole(log) {
            (0..found.len()).for_each(|at| {
                let mut fewer = found.clone();
                fewer.remove(at);
                without(&|i| i.log = Some(text::log(status, &fewer)));
                let mut plainer = found.clone();
                plainer[at] = plainer[at].clone().with_mark(None);
                without(&|i| i.log = Some(text::log(status, &plainer)));
            });
        }
        fewer_bytes(log).into_iter().for_each(|fewer| without(&|i| i.log = Some(fewer.clone())));
    }
    found
}

fn whole(log: &[u8]) -> Option<(plain::log::Status, Vec<Operation>)> {
    match operations(log.get(8..).map(|_| log)?) {
        (found, Ending::Whole) => Some((status(log)?, found)),
        _ => None,
    }
}

/// A name longer than one byte becomes one letter, wherever it stands.
fn shorter_names(image: &Image, q: &Question) -> Vec<Question> {
    let mut names: Vec<Name> = image.dirs.iter().flat_map(|(dir, files)| std::iter::once(dir).chain(files.keys())).cloned().collect();
    names.extend(image.staging.keys().cloned());
    let log = image.log.as_deref().and_then(whole);
    names.extend(log.iter().flat_map(|(_, found)| found.iter().flat_map(names_of)));
    let letter = (b'a'..=b'z').map(|b| vec![b]).find(|l| !names.contains(l) && !q.image.windows(1).any(|w| w == &l[..]));
    let Some(letter) = letter else { return Vec::new() };
    let long: Vec<&Name> = names.iter().filter(|n| n.len() > 1).collect();
    long.into_iter()
        .map(|old| {
            let new = |n: &Name| if n == old { letter.clone() } else { n.clone() };
            let files = |f: &plain::image::Files| f.iter().map(|(n, x)| (new(n), *x)).collect();
            let renamed = Image {
                dirs: image.dirs.iter().map(|(dir, f)| (new(dir), files(f))).collect(),
                staging: files(&image.staging),
                log: match &log {
                    Some((status, found)) => Some(text::log(*status, &found.iter().map(|o| renamed(o, &new)).collect::<Vec<_>>())),
                    None => image.log.clone(),
                },
                open: image.open,
            };
            Question { call: renamed_call(&q.call, &new), image: renamed.encode(), lent: q.lent }
        })
        .collect()
}

fn names_of(o: &Operation) -> Vec<Name> {
    use Operation::*;
    match o {
        Write { collection, key, staged, .. } => vec![collection.clone(), key.clone(), staged.clone()],
        Delete { collection, key } => vec![collection.clone(), key.clone()],
        DeleteAll { collection: name } | CreateCollection { name } | DeleteCollection { name } => vec![name.clone()],
        CopyCollection { source, dest, .. } => vec![source.clone(), dest.clone()],
    }
}

fn renamed(o: &Operation, new: &dyn Fn(&Name) -> Name) -> Operation {
    use Operation::*;
    match o {
        Write { collection, key, staged, mark } => Write { collection: new(collection), key: new(key), staged: new(staged), mark: *mark },
        Delete { collection, key } => Delete { collection: new(collection), key: new(key) },
        DeleteAll { collection } => DeleteAll { collection: new(collection) },
        CreateCollection { name } => CreateCollection { name: new(name) },
        DeleteCollection { name } => DeleteCollection { name: new(name) },
        CopyCollection { source, dest, existed } => CopyCollection { source: new(source), dest: new(dest), existed: *existed },
    }
}

fn renamed_call(call: &Call, new: &dyn Fn(&Name) -> Name) -> Call {
    match call {
        Call::Write { collection, key, staged, number } => {
            Call::Write { collection: new(collection), key: new(key), staged: new(staged), number: *number }
        }
        Call::Delete { collection, key } => Call::Delete { collection: new(collection), key: new(key) },
        Call::DeleteAll { collection } => Call::DeleteAll { collection: new(collection) },
        Call::CreateCollection { name } => Call::CreateCollection { name: new(name) },
        Call::DeleteCollection { name } => Call::DeleteCollection { name: new(name) },
        Call::CopyCollection { source, dest } => Call::CopyCollection { source: new(source), dest: new(dest) },
        Call::ListKeys { collection } => Call::ListKeys { collection: new(collection) },
        other => other.clone(),
    }
}
