//! Useless stores, most of them from document 01's note to the testers, three each of document 02's items 1 and 4, two each of its items 2, 6
//! and 9, in the port's place: the panel must differ on each.
use crate::corners;
use crate::panel::{Panel, Question};
use plain::{
    Image, Plain,
    image::{Files, unmarked},
    log::map_operations,
    name::is_backup,
};
use store::{Call, Out, Plan, Store, pass};

/// Spoils an answer of the plain reading: the call, the lent image, the number, the outputs, the cause.
type Spoil = fn(&Call, &[u8], u32, &mut Out, &mut Out, &mut u32) -> u32;

const WRONG: [(&str, Spoil); 23] = [
    ("refuses each call", |_, _, _, _, _, _| 4),
    ("gives one image always", |_, _, number, out, _, _| {
        if number == 0 {
            out.put(b"\x10\x01\x00c");
        }
        number
    }),
    ("recovery changes nothing", |call, image, number, out, _, _| {
        if *call == Call::Recover && number == 0 {
            out.put(image);
        }
        number
    }),
    ("commit changes nothing", |call, image, number, out, _, _| {
        if *call == Call::Commit && number == 0 {
            out.put(image);
        }
        number
    }),
    ("commits wholly in step 1", |call, image, number, out, _, _| {
        if *call == Call::CommitStep(1) && number == 0 {
            Plain.commit(image, out);
        }
        number
    }),
    ("a plan that is one step too long", |call, image, number, out, step, _| match *call {
        Call::CommitStep(n) if number == 16 && n > 0 => Plain.commit_step(image, n - 1, out, step),
        _ => number,
    }),
    ("a plan that is one step too short", |call, image, number, _, _, _| match *call {
        Call::CommitStep(n) if number == 0 && Plain.plan(Plan::Commit, image).1.len() as u64 == n + 2 => 16,
        _ => number,
    }),
    ("undecodable is corruption", |_, _, number, _, _, _| if number == 11 { 13 } else { number }),
    ("a byte behind the image is touched", |_, _, number, out, _, _| {
        if let Some(byte) = out.bytes.get_mut(out.written) {
            *byte ^= 1;
        }
        number
    }),
    ("a refusal counts", |_, _, number, out, _, _| {
        if number == 3 {
            out.written = 0;
        }
        number
    }),
    ("the field of the step before", |call, image, number, _, step, _| match *call {
        Call::RecoverStep(n @ 1..) if number == 0 => {
            let mut image_before = vec![0; store::IMAGE_ROOM];
            Plain.recover_step(image, n - 1, &mut Out { bytes: &mut image_before, written: 0 }, step)
        }
        _ => number,
    }),
    ("records a Write as kind 1", |call, _, number, out, _, _| record_marked(call, number, out, None)),
    ("every written key is marked as standing", |call, _, number, out, _, _| record_marked(call, number, out, Some(true))),
    ("recovery reads no mark", |call, image, number, out, _, cause| match call {
        Call::Recover => Plain.recover(&unmarked(image), out, cause),
        _ => number,
    }),
    ("finds a directory before a file", |call, image, number, out, _, _| {
        found_in(call, image, number, out, |image| {
            if image.dirs.keys().any(|dir| is_backup(dir)) {
                image.dirs.values_mut().for_each(Files::clear);
            }
        })
    }),
    ("finds in the last directory", |call, image, number, out, _, _| {
        found_in(call, image, number, out, |image| image.dirs = image.dirs.pop_last().into_iter().collect())
    }),
    ("a payload past the end is a wrong checksum", |_, _, number, _, _, cause| {
        if *cause == 2 {
            *cause = 3;
        }
        number
    }),
    ("a Recording log's cause is told", |call, image, number, _, _, cause| {
        if let (Call::Recover, 0, Some(log)) = (call, number, Image::decode(image).and_then(|image| image.log)) {
            Plain.log_cause(&log, cause);
        }
        number
    }),
    ("a refusal tells a cause", |_, _, number, _, _, cause| {
        if number == 13 {
            *cause = 1;
        }
        number
    }),
    ("a quote in a name ends it", |call, _, number, out, _, _| {
        if *call == Call::Inventory && number == 0 {
            let text = String::from_utf8_lossy(&out.bytes[..out.written]).replace('\\', "");
            out.put(text.as_bytes());
        }
        number
    }),
    ("an inventory without room is cut off", |call, image, number, out, _, _| {
        if *call != Call::Inventory || number != 2 {
            return number;
        }
        let mut bytes = vec![0; store::INVENTORY_ROOM];
        Plain.inventory(image, &mut Out { bytes: &mut bytes, written: 0 });
        out.put(&bytes[..out.bytes.len()]);
        0
    }),
    ("recovery keeps what is held", |call, image, number, out, _, _| match call {
        Call::Recover if number == 0 && Plain.keep(image, out) == 0 => 0,
        _ => number,
    }),
    ("keep reads the entries", |call, image, number, _, _, _| {
        let log = Image::decode(image).and_then(|image| image.log);
        match log.map(|log| Plain.log_cause(&log, &mut 0)) {
            Some(refused @ (11 | 12)) if *call == Call::Keep && number == 0 => refused,
            _ => number,
        }
    }),
];

/// The hit of another store than the lent one.
fn found_in(call: &Call, image: &[u8], number: u32, out: &mut Out, change: fn(&mut Image)) -> u32 {
    if *call != Call::FindBackup || number != 0 {
        return number;
    }
    let mut image = Image::decode(image).expect("an image");
    change(&mut image);
    Plain.find_backup(&image.encode(), out)
}

/// Gives the Writes of the log that is handed back this mark.
fn record_marked(call: &Call, number: u32, out: &mut Out, mark: Option<bool>) -> u32 {
    if matches!(call, Call::Write { .. }) && number == 0 {
        let image = Image::decode(&out.bytes[..out.written]).expect("an image");
        let log = image.log.as_deref().map(|log| map_operations(log, |operation| operation.with_mark(mark)));
        out.put(&Image { log, ..image }.encode());
    }
    number
}

pub fn run(panel: &mut Panel, file: &str) {
    let questions: Vec<Question> = corners::read(file).into_iter().map(|(question, _)| question).collect();
    found_out(panel, &questions, file);
}

/// Puts each useless store in the port's place: some question must show it.
pub fn found_out(panel: &mut Panel, questions: &[Question], file: &str) {
    panel.port = Some(Box::new(Wrong(|_, _, number, _, _, _| number)));
    assert!(!questions.iter().any(|q| panel.differ(q)), "an unspoiled store is taken");
    for (what, spoil) in WRONG {
        panel.port = Some(Box::new(Wrong(spoil)));
        if !questions.iter().any(|q| panel.differ(q)) {
            println!("a useless store passed: {what}");
            panel.fail();
        }
    }
    println!("wrong: {} useless stores, each found out by {file}", WRONG.len());
}

struct Wrong(Spoil);

impl Wrong {
    /// The plain reading's answer, spoiled. Behind what is written anew stand the bytes that were lent.
    fn answer(&self, call: Call, image: &[u8], out: &mut Out, step: &mut Out, pending: &mut u32, cause: &mut u32) -> u32 {
        let clean = out.bytes.to_vec();
        let number = pass(&Plain, &call, image, out, step, pending, cause);
        let end = out.written.min(clean.len());
        let number = (self.0)(&call, image, number, out, step, cause);
        if out.written < end {
            out.bytes[out.written..end].copy_from_slice(&clean[out.written..end]);
        }
        number
    }

    /// An entry with one output.
    fn one(&self, call: Call, image: &[u8], out: &mut Out) -> u32 {
        self.answer(call, image, out, &mut Out { bytes: &mut [], written: 0 }, &mut 0, &mut 0)
    }
}

impl Store for Wrong {
    fn name(&self) -> &'static str {
        "wrong"
    }
    fn begin(&self, image: &[u8], out: &mut Out) -> u32 {
        self.one(Call::Begin, image, out)
    }
    fn write(&self, image: &[u8], collection: &[u8], key: &[u8], staged: &[u8], number: u32, out: &mut Out) -> u32 {
        let call = Call::Write { collection: collection.into(), key: key.into(), staged: staged.into(), number };
        self.one(call, image, out)
    }
    fn delete(&self, image: &[u8], collection: &[u8], key: &[u8], out: &mut Out) -> u32 {
        self.one(Call::Delete { collection: collection.into(), key: key.into() }, image, out)
    }
    fn delete_all(&self, image: &[u8], collection: &[u8], out: &mut Out) -> u32 {
        self.one(Call::DeleteAll { collection: collection.into() }, image, out)
    }
    fn create_collection(&self, image: &[u8], name: &[u8], out: &mut Out) -> u32 {
        self.one(Call::CreateCollection { name: name.into() }, image, out)
    }
    fn delete_collection(&self, image: &[u8], name: &[u8], out: &mut Out) -> u32 {
        self.one(Call::DeleteCollection { name: name.into() }, image, out)
    }
    fn copy_collection(&self, image: &[u8], source: &[u8], dest: &[u8], out: &mut Out) -> u32 {
        self.one(Call::CopyCollection { source: source.into(), dest: dest.into() }, image, out)
    }
    fn commit(&self, image: &[u8], out: &mut Out) -> u32 {
        self.one(Call::Commit, image, out)
    }
    fn commit_step(&self, image: &[u8], n: u64, out: &mut Out, step: &mut Out) -> u32 {
        self.answer(Call::CommitStep(n), image, out, step, &mut 0, &mut 0)
    }
    fn rollback(&self, image: &[u8], out: &mut Out) -> u32 {
        self.one(Call::Rollback, image, out)
    }
    fn has_pending_work(&self, image: &[u8], pending: &mut u32) -> u32 {
        let none = || Out { bytes: &mut [], written: 0 };
        self.answer(Call::HasPendingWork, image, &mut none(), &mut none(), pending, &mut 0)
    }
    fn recover(&self, image: &[u8], out: &mut Out, cause: &mut u32) -> u32 {
        self.answer(Call::Recover, image, out, &mut Out { bytes: &mut [], written: 0 }, &mut 0, cause)
    }
    fn recover_step(&self, image: &[u8], n: u64, out: &mut Out, step: &mut Out) -> u32 {
        self.answer(Call::RecoverStep(n), image, out, step, &mut 0, &mut 0)
    }
    fn list_keys(&self, image: &[u8], collection: &[u8], out: &mut Out) -> u32 {
        self.one(Call::ListKeys { collection: collection.into() }, image, out)
    }
    fn find_backup(&self, image: &[u8], out: &mut Out) -> u32 {
        self.one(Call::FindBackup, image, out)
    }
    fn log_cause(&self, log: &[u8], cause: &mut u32) -> u32 {
        let none = || Out { bytes: &mut [], written: 0 };
        self.answer(Call::LogCause, log, &mut none(), &mut none(), &mut 0, cause)
    }

    fn inventory(&self, image: &[u8], out: &mut Out) -> u32 {
        self.one(Call::Inventory, image, out)
    }
    fn hold(&self, image: &[u8], out: &mut Out) -> u32 {
        self.one(Call::Hold, image, out)
    }
    fn hold_step(&self, image: &[u8], n: u64, out: &mut Out, step: &mut Out) -> u32 {
        self.answer(Call::HoldStep(n), image, out, step, &mut 0, &mut 0)
    }
    fn keep(&self, image: &[u8], out: &mut Out) -> u32 {
        self.one(Call::Keep, image, out)
    }
    fn keep_step(&self, image: &[u8], n: u64, out: &mut Out, step: &mut Out) -> u32 {
        self.answer(Call::KeepStep(n), image, out, step, &mut 0, &mut 0)
    }
    fn revert(&self, image: &[u8], out: &mut Out, cause: &mut u32) -> u32 {
        self.answer(Call::Revert, image, out, &mut Out { bytes: &mut [], written: 0 }, &mut 0, cause)
    }
    fn revert_step(&self, image: &[u8], n: u64, out: &mut Out, step: &mut Out) -> u32 {
        self.answer(Call::RevertStep(n), image, out, step, &mut 0, &mut 0)
    }
}
