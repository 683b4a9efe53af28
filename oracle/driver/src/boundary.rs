//! Limits: at them, one short of them, one over them. Where Writes are marked, the same is asked of Writes of kind 1 too.
use crate::panel::Panel;
use crate::text;
use plain::{
    Image, Name, Operation,
    image::{DIR_LIMIT, FILE_LIMIT, LOG_LIMIT, STAGING_LIMIT, unmarked},
    log::{OPERATION_LIMIT, Status},
};
use store::{Call, HIT_ROOM, IMAGE_ROOM, INVENTORY_ROOM, KEYS_ROOM, Lent, Plan, STEP_ROOM};

pub fn run(panel: &mut Panel) {
    for length in [1, 59, 60, 61, 63, 64, 65, 66] {
        names(panel, length);
    }
    for slack in [-1, 0, 1] {
        counts(panel, slack);
    }
    full_commits(panel);
    lent_lengths(panel);
    largest(panel);
    inventories(panel);
    step_numbers(panel);
    panel.summary("boundary");
}

/// A name of this length, all over the store and as every argument.
fn names(panel: &mut Panel, length: usize) {
    let long: Name = vec![b'n'; length];
    let word = text::name(&long);
    let stores = [
        format!("{word}/a=1 ~s=2 recording /write/{word}/a/s/1 open"),
        format!("db/{word}=1 ~s=2 recording /write/db/{word}/s/1 open"),
        format!("db/{word}=1 recording /delete/db/{word} open"),
        format!("db/a=1 db/{word}=1 recording /delete_all/db open"),
        format!("db/a=1 ~{word}=2 recording /write/db/a/{word}/1 open"),
        format!("{word}/a=1 recording /delete_collection/{word} open"),
        format!("{word}/a=1 db/b=1 recording /copy_collection/db/{word}/1 open"),
        format!("{word}/a=1 recording /copy_collection/{word}/db/0 open"),
        format!("recording /create_collection/{word} open"),
        format!("{word}.bak/a=1 {word}/b=2 committing"),
        format!("db/{word}.bak=1 db/{word}=2 committing /write/db/{word}/s/1"),
        format!("db/{word}.bak=1 db/{word}=2 {word}.bak/a=1 held /write/db/{word}/s/1 /delete_collection/{word}"),
    ];
    for store in stores {
        let image = text::read_store(&store).encode();
        plans(panel, &image);
        calls(panel, &image, &long);
    }
}

/// Every entry that takes names, with this one in each place.
fn calls(panel: &mut Panel, image: &[u8], name: &Name) {
    let db = || b"db".to_vec();
    let s = || b"new".to_vec();
    let calls = [
        Call::Begin,
        Call::Write { collection: name.clone(), key: db(), staged: s(), number: 1 },
        Call::Write { collection: db(), key: name.to_ascii_uppercase(), staged: s(), number: u32::MAX },
        Call::Write { collection: db(), key: db(), staged: name.clone(), number: 1 },
        Call::Write { collection: db(), key: db(), staged: s(), number: 0 },
        Call::Delete { collection: name.clone(), key: b"A".to_vec() },
        Call::Delete { collection: db(), key: name.to_ascii_uppercase() },
        Call::DeleteAll { collection: name.clone() },
        Call::CreateCollection { name: name.clone() },
        Call::DeleteCollection { name: name.clone() },
        Call::CopyCollection { source: name.clone(), dest: db() },
        Call::CopyCollection { source: db(), dest: name.clone() },
        Call::Rollback,
        Call::HasPendingWork,
        Call::ListKeys { collection: name.clone() },
        Call::FindBackup,
        Call::Inventory,
    ];
    for call in calls {
        panel.ask(&call, image, Lent::AMPLE);
    }
}

/// Plans of an image, and of what the cuts of its commit leave; if its Writes are marked, of their kin of kind 1 too.
fn plans(panel: &mut Panel, image: &[u8]) {
    let old = unmarked(image);
    for image in if old == image { vec![old] } else { vec![old, image.to_vec()] } {
        let cuts = panel.plan(Plan::Commit, &image);
        for cut in cuts.iter().step_by(1 + cuts.len() / 16) {
            panel.plan(Plan::Recover, cut);
        }
        let held = panel.plan(Plan::Hold, &image).pop();
        for image in held.into_iter().chain([image]) {
            for plan in [Plan::Recover, Plan::Keep, Plan::Revert] {
                panel.plan(plan, &image);
            }
        }
    }
}

/// So many directories, files, staging files, operations, log bytes, each limit with this slack.
fn counts(panel: &mut Panel, slack: isize) {
    let at = |limit: usize| limit.checked_add_signed(slack).unwrap();
    let name = |letter: char, i: usize| format!("{letter}{i:03}").into_bytes();
    let empty = Image { log: Some(text::log(Status::Recording, &[])), open: true, ..Image::default() };
    let dirs = Image { dirs: (0..at(DIR_LIMIT)).map(|i| (name('d', i), Default::default())).collect(), ..empty.clone() };
    let one_dir = (0..at(FILE_LIMIT)).map(|i| (name('f', i), 1)).collect();
    let files = Image { dirs: [(b"db".to_vec(), one_dir)].into(), ..empty.clone() };
    let staging = Image { staging: (0..at(STAGING_LIMIT)).map(|i| (name('s', i), 1)).collect(), ..empty.clone() };
    let created: Vec<Operation> = (0..at(OPERATION_LIMIT)).map(|i| Operation::CreateCollection { name: name('c', i % 9) }).collect();
    let logged = |status: Status, more: &[u8]| Image { log: Some([&text::log(status, &created), more].concat()), ..empty.clone() };
    let filled = |byte: u8| Image { log: Some(vec![byte; at(LOG_LIMIT)]), ..empty.clone() };
    let recording = [logged(Status::Recording, &[]), logged(Status::Recording, &[0])];
    let committing = [logged(Status::Committing, &[]), logged(Status::Committing, &[0])];
    let held = [logged(Status::Held, &[]), logged(Status::Held, &[0])];
    let logs = recording.into_iter().chain(committing).chain(held);
    for image in [dirs, files, staging, filled(0), filled(0xCA)].into_iter().chain(logs) {
        plans(panel, &image.encode());
        calls(panel, &image.encode(), &b"db".to_vec());
        panel.ask(&Call::LogCause, image.log.as_deref().unwrap_or_default(), Lent::AMPLE);
    }
}

/// Commits that come to 16 directories or 128 files, and over.
fn full_commits(panel: &mut Panel) {
    let dirs = |count: usize| (0..count).map(|i| format!("d{i:02}/ ")).collect::<String>();
    let files = |count: usize| (0..count).map(|i| format!("f/{i:03}=1 ")).collect::<String>();
    let mut stores = Vec::new();
    for count in [DIR_LIMIT - 2, DIR_LIMIT - 1, DIR_LIMIT] {
        let all = dirs(count);
        stores.push(format!("{all} recording /create_collection/x open"));
        stores.push(format!("{all} recording /create_collection/d00 /create_collection/x /create_collection/y open"));
        stores.push(format!("{all} recording /copy_collection/d00/d01/1 open"));
        stores.push(format!("{all} recording /copy_collection/d00/d00/1 /copy_collection/d01/d00/1 open"));
        stores.push(format!("{all} ~s=1 recording /write/x/k/s/0 open"));
        stores.push(format!("{all} recording /write/x/k/missing/0 open"));
        stores.push(format!("{all} recording /delete_collection/d00 /create_collection/x open"));
        let with_backup = all.replace("d01/", "d00.bak/");
        stores.push(format!("{with_backup} recording /delete_collection/d00 /create_collection/x open"));
        stores.push(format!("{with_backup} recording /copy_collection/d02/d00/1 open"));
    }
    for count in [FILE_LIMIT - 2, FILE_LIMIT - 1, FILE_LIMIT] {
        let all = files(count);
        stores.push(format!("{all} ~s=1 recording /write/f/x/s/0 open"));
        stores.push(format!("{all} ~s=1 ~t=2 recording /write/f/000/s/1 /write/g/000/t/0 open"));
        stores.push(format!("{all} recording /write/f/x/missing/0 open"));
        stores.push(format!("{all} ~s=1 recording /delete/f/000 /write/f/000/s/1 open"));
        let with_backup = all.replace("f/001=", "f/000.bak=");
        stores.push(format!("{with_backup} ~s=1 recording /write/f/000/s/1 open"));
        stores.push(format!("{with_backup} ~s=1 recording /delete/f/000 /write/f/x/s/0 open"));
        stores.push(format!("{all} recording /delete_all/f open"));
        let two = all.replacen("f/", "g/", 2);
        stores.push(format!("{two} recording /copy_collection/g/h/0 open"));
        stores.push(format!("{two} recording /copy_collection/g/f/1 open"));
    }
    for store in stores {
        plans(panel, &text::read_store(&store).encode());
    }
}

/// Lent outputs of every length that matters.
fn lent_lengths(panel: &mut Panel) {
    let lengths = |room: usize| [0, 1, room - 1, room, room + 1, 2 * room];
    let store = "db/a=7 db/B=2 ~s.tmp=9 recording /write/db/a/s.tmp/1 open";
    let hit = format!("{}/{}.bak={}", "d".repeat(64), "f".repeat(60), u32::MAX);
    let held = "db/a=9 db/a.bak=7 held /write/db/a/s.tmp/1";
    let stores = [store, &store.replace("open", ""), &hit, held].map(|store| text::read_store(store).encode());
    for image in stores.into_iter().chain([b"\x10".to_vec()]) {
        for out in [IMAGE_ROOM, KEYS_ROOM, HIT_ROOM].into_iter().flat_map(lengths) {
            let some = Lent { out, step: STEP_ROOM };
            for call in [
                Call::Begin,
                Call::Write { collection: b"db".to_vec(), key: b"a".to_vec(), staged: b"n".to_vec(), number: 1 },
                Call::Delete { collection: b"db".to_vec(), key: b"b".to_vec() },
                Call::DeleteAll { collection: b"db".to_vec() },
                Call::CreateCollection { name: b"n".to_vec() },
                Call::DeleteCollection { name: b"db".to_vec() },
                Call::CopyCollection { source: b"db".to_vec(), dest: b"n".to_vec() },
                Call::Commit,
                Call::Rollback,
                Call::HasPendingWork,
                Call::Recover,
                Call::ListKeys { collection: b"db".to_vec() },
                Call::ListKeys { collection: b"".to_vec() },
                Call::FindBackup,
                Call::Inventory,
                Call::Hold,
                Call::Keep,
                Call::Revert,
            ] {
                panel.ask(&call, &image, some);
            }
            for step in lengths(STEP_ROOM) {
                for n in [0, 4, 10, 11] {
                    for plan in Plan::ALL {
                        panel.ask(&plan.step(n), &image, Lent { out, step });
                    }
                }
            }
        }
    }
}

/// The largest image, and what comes of it; it has marked Writes.
fn largest(panel: &mut Panel) {
    let name = |letter: char, i: usize, length: usize| format!("{letter:x<0$}{i:03}", length - 3).into_bytes();
    for (length, mark) in [(60, None), (64, None), (60, Some(true)), (64, Some(false)), (64, Some(true))] {
        let dirs: Vec<Name> = (0..DIR_LIMIT).map(|i| name('d', i, length)).collect();
        let files = |dir: usize| (0..FILE_LIMIT / DIR_LIMIT).map(|i| (name('f', dir * 8 + i, length), u32::MAX)).collect();
        let staged: Vec<Name> = (0..STAGING_LIMIT).map(|i| name('s', i, length)).collect();
        let write = |i: usize| Operation::Write {
            collection: dirs[i / 2].clone(),
            key: name('f', i / 2 * 8 + i % 2, length),
            staged: staged[i].clone(),
            mark,
        };
        let writes: Vec<Operation> = (0..OPERATION_LIMIT).map(write).collect();
        for status in [Status::Recording, Status::Committing, Status::Held] {
            let image = Image {
                dirs: dirs.iter().enumerate().map(|(i, dir)| (dir.clone(), files(i))).collect(),
                staging: staged.iter().map(|s| (s.clone(), 1)).collect(),
                log: Some(text::log(status, &writes)),
                open: true,
            };
            assert_eq!(image.encode().len() == IMAGE_ROOM, length == 64 && mark.is_some());
            for plan in Plan::ALL {
                panel.plan(plan, &image.encode());
            }
            calls(panel, &image.encode(), &dirs[0]);
            let one_dir = (0..FILE_LIMIT).map(|i| (name('K', i, 64), 1)).collect();
            let keys = Image { dirs: [(b"db".to_vec(), one_dir)].into(), ..image };
            panel.ask(&Call::ListKeys { collection: b"db".to_vec() }, &keys.encode(), Lent { out: KEYS_ROOM, step: 0 });
        }
    }
}

/// Inventories with room, without, and with more: the shortest, one of names that a reader must not break at, the longest.
fn inventories(panel: &mut Panel) {
    let names = |count: u8| (0..count).map(|i| if i == 0 { vec![b'"'; 64] } else { [vec![b'"'; 63], vec![b'a' + i]].concat() });
    let files = || names(8).map(|file| (file, u32::MAX)).collect();
    let longest = Image { dirs: names(16).map(|dir| (dir, files())).collect(), ..Image::default() };
    let stores = ["", "db/ \"/ {}/{\"=1 a/b:=10 a/c,\"},=999 ~s=1 recording open"].map(text::read_store);
    for image in stores.into_iter().chain([longest]) {
        let text = panel.ask(&Call::Inventory, &image.encode(), Lent { out: INVENTORY_ROOM, step: 0 }).out.expect("a text").len();
        assert_eq!(text == INVENTORY_ROOM, image.dirs.len() == DIR_LIMIT);
        for out in [0, 1, text - 1, text, text + 1] {
            panel.ask(&Call::Inventory, &image.encode(), Lent { out, step: 0 });
        }
    }
}

/// Step numbers past the end.
fn step_numbers(panel: &mut Panel) {
    let stores = ["db/a=7 ~s.tmp=9 recording /write/db/a/s.tmp/1 open", "db/a=9 db/a.bak=7 held /write/db/a/s.tmp/1"];
    for image in stores.map(|store| text::read_store(store).encode()) {
        for n in [3, 4, 9, 10, 11, 12, 256, 266, 1 << 32, (1 << 32) + 10, u64::MAX - 1, u64::MAX] {
            for plan in Plan::ALL {
                panel.ask(&plan.step(n), &image, Lent::AMPLE);
            }
        }
    }
}
