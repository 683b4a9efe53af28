//! Damage: every flipped bit and every truncation of some logs and images, and every flipped bit and truncation of a payload
//! whose checksum and length are then put right; of a marked Write's also every value of its mark.
use crate::panel::Panel;
use crate::text;
use plain::{
    Image, Operation,
    log::{append, operations},
};
use store::{Call, Lent, Plan};

/// Stores in which damage shows: backups stand, and what the log names stands or doesn't.
const STORES: [&str; 13] = [
    "db/a=7 ~s.tmp=9 recording /write/db/a/s.tmp open",
    "db/a=7 db/a.bak=8 ~s=1 committing",
    "db/a=9 db/a.bak=7 committing /write/db/a/s.tmp open",
    "db/b=1 ~s=2 committing /write/db/a/s /delete/db/b",
    "c/a=1 e/ committing /copy_collection/c/d/0 /create_collection/e",
    "c.bak/a=1 d/a=1 d.bak/b=2 committing /delete_collection/c /copy_collection/c.bak/d/1",
    "db/A=1 db/b.tmp=2 recording /delete_all/db /create_collection/n open",
    "db/K=4294967295 db/k.bak=256 ~s=1 ~t=2",
    "db/a=7 ~s.tmp=9 recording /write/db/a/s.tmp/1 /write/db/b/t/0 open",
    "db/a=7 db/b=1 ~s=9 committing /write/db/a/s/1 /write/db/b/t",
    "db/a=9 db/a.bak=7 db/b=1 committing /write/db/b/t/0 /write/db/a/s/1 open",
    "db/a=9 db/a.bak=7 db/b=1 held /write/db/a/s/1 /write/db/b/t/0",
    "db/b=1 ~s=2 held /write/db/a/s /delete/db/b open",
];

pub fn run(panel: &mut Panel, every: usize) {
    let mut damaged: Vec<Vec<u8>> = Vec::new();
    for store in STORES {
        let image = text::read_store(store);
        damaged.extend(hurt(&image.encode()));
        let Some(log) = &image.log else { continue };
        let with_log = |log: Vec<u8>| Image { log: Some(log), ..image.clone() }.encode();
        damaged.extend((0..log.len()).map(|n| with_log(log[..n].to_vec())));
        let (found, _) = operations(log);
        for at in 0..found.len() {
            let payloads = hurt(&found[at].encode()).into_iter().chain(marks(&found[at]));
            damaged.extend(payloads.map(|payload| with_log(relogged(&log[..8], &found, at, &payload))));
        }
    }
    let total = damaged.len() as u64;
    for (i, image) in damaged.iter().enumerate().step_by(every) {
        for plan in Plan::ALL {
            panel.plan(plan, image);
        }
        panel.ask(&Call::Begin, image, Lent::AMPLE);
        panel.ask(&Call::HasPendingWork, image, Lent::AMPLE);
        panel.ask(&Call::FindBackup, image, Lent::AMPLE);
        if let Some(log) = Image::decode(image).and_then(|image| image.log) {
            panel.ask(&Call::LogCause, &log, Lent::AMPLE);
        }
        panel.ask(&Call::Inventory, image, Lent::AMPLE);
        panel.ask(&Call::ListKeys { collection: b"db".into() }, image, Lent::AMPLE);
        panel.ask(&Call::Delete { collection: b"db".into(), key: b"a".into() }, image, Lent::AMPLE);
        panel.progress("damaged", i as u64, total);
    }
    panel.summary(&format!(
        "damaged, {total} flips, truncations and marks{}",
        if every == 1 { String::new() } else { format!(", every {every}th") }
    ));
}

/// Each single bit flipped, and each truncation.
fn hurt(bytes: &[u8]) -> Vec<Vec<u8>> {
    let flipped = (0..bytes.len() * 8).map(|bit| {
        let mut flipped = bytes.to_vec();
        flipped[bit / 8] ^= 1 << (bit % 8);
        flipped
    });
    flipped.chain((0..bytes.len()).map(|n| bytes[..n].to_vec())).collect()
}

/// A marked Write's payload with each value of its last byte, the mark.
fn marks(operation: &Operation) -> Vec<Vec<u8>> {
    let mut front = operation.encode();
    front.pop();
    let with = |mark: u8| operation.mark().map(|_| [front.as_slice(), &[mark]].concat());
    (0..=u8::MAX).filter_map(with).collect()
}

/// The log with another payload in one place, its entry whole.
fn relogged(header: &[u8], found: &[Operation], at: usize, payload: &[u8]) -> Vec<u8> {
    let mut log = header.to_vec();
    for (i, operation) in found.iter().enumerate() {
        append(&mut log, &if i == at { payload.to_vec() } else { operation.encode() });
    }
    log
}
