//! The two lists, read, and what is made of them: the declarations in Rust and the header in C.
use crate::rooms::{HIT_ROOM, IMAGE_ROOM, INVENTORY_ROOM, KEYS_ROOM, LOG_LIMIT, STEP_ROOM};

/// A parameter: how C and Rust declare it, and how the safe function takes it and hands it on. `#` stands for its name.
struct Kind {
    c: &'static str,
    raw: &'static str,
    safe: &'static str,
    given: &'static str,
}

const SLICE: Kind =
    Kind { c: "const uint8_t *#, size_t #_len", raw: "#: *const u8, #_len: usize", safe: "#: &[u8]", given: "#.as_ptr(), #.len()" };
const OUTPUT: Kind = Kind {
    c: "uint8_t *#, size_t #_len, size_t *#_written",
    raw: "#: *mut u8, #_len: usize, #_written: *mut usize",
    safe: "#: Output",
    given: "#.bytes.as_mut_ptr(), #.bytes.len(), #.written",
};
const U32: Kind = Kind { c: "uint32_t #", raw: "#: u32", safe: "#: u32", given: "#" };
const U64: Kind = Kind { c: "uint64_t #", raw: "#: u64", safe: "#: u64", given: "#" };
/// Where a flag or a cause goes.
const WORD: Kind = Kind { c: "uint32_t *#", raw: "#: *mut u32", safe: "#: &mut u32", given: "#" };

fn kind(word: &str) -> Kind {
    match word {
        "slice" => SLICE,
        "output" => OUTPUT,
        "u32" => U32,
        "u64" => U64,
        "flag" | "cause" => WORD,
        _ => panic!("{word} is no kind of parameter"),
    }
}

/// The lines of a list, parted at the bars.
fn rows(list: &str) -> impl Iterator<Item = [&str; 3]> {
    let lines = list.lines().filter(|line| !line.starts_with('#'));
    lines.map(|line| line.splitn(3, '|').map(str::trim).collect::<Vec<_>>().try_into().expect("three parts"))
}

/// A function's parameters, each in the form that is asked for.
fn parameters(list: &str, form: impl Fn(&Kind) -> &'static str) -> Vec<String> {
    let each = list.split(',').map(|parameter| {
        let (word, name) = parameter.trim().split_once(' ').expect("a kind and a name");
        form(&kind(word)).replace('#', name)
    });
    each.collect()
}

/// The declarations, and a safe function over each.
pub fn declarations(entries: &str) -> String {
    let (mut raw, mut safe) = (String::new(), String::new());
    for [name, list, what] in rows(entries) {
        raw += &format!("    fn cda_storage_{name}({}) -> u32;\n", parameters(list, |k| k.raw).join(", "));
        safe += &format!("/// {what}\npub fn {name}({}) -> u32 {{\n", parameters(list, |k| k.safe).join(", "));
        safe += &format!("    unsafe {{ cda_storage_{name}({}) }}\n}}\n", parameters(list, |k| k.given).join(", "));
    }
    format!("unsafe extern \"C\" {{\n{raw}}}\n{safe}")
}

/// The refusals as an enum, and a row for each: the refusal, its name, its sentence.
pub fn refusals(list: &str) -> String {
    let (mut variants, mut table) = (String::new(), String::new());
    for [number, name, what] in rows(list) {
        variants += &format!("    /// {number}: {what}.\n    {name} = {number},\n");
        table += &format!("    (Refusal::{name}, {name:?}, {what:?}),\n");
    }
    format!(
        "/// Why the port refused a call: document 01, 'Sixteen numbers, in checking order', and document 02. Each variant's number is the port's.
#[derive(Clone, Copy, PartialEq, Eq, PartialOrd, Ord, Hash, Debug)]
#[repr(u32)]
pub enum Refusal {{\n{variants}}}\n
const TABLE: &[(Refusal, &str, &str)] = &[\n{table}];\n"
    )
}

const TOP: &str = "/* Made from host/sys/entries.txt and refusals.txt by `cargo run -p cda-storage-sys --example header`. */
#ifndef CDA_STORAGE_H
#define CDA_STORAGE_H

#include <stddef.h>
#include <stdint.h>

#ifdef __cplusplus
extern \"C\" {
#endif

/* Least lengths of the lent outputs (an image, a key list, a step field, what names a backup), one that every inventory fits, and the most bytes of a
   log. */
";

const NUMBERS: &str = "
/* What the functions return: 0, or a refusal, which leaves outputs, counters and causes as they were (but for 14 and 15 of a commit or a hold). */
enum cda_storage_number {
    CDA_STORAGE_DONE = 0";

const CAUSES: &str = "
};

/* How a log broke, as a function tells it that returned 0: the first entry that is not whole. 1 and 2 suggest that writing stopped, as on a full
   flash, 3 that written bytes changed, as on a worn one. */
enum cda_storage_cause {
    CDA_STORAGE_NOT_BROKEN = 0,
    /* under 8 bytes are left for the entry's checksum and length */
    CDA_STORAGE_HEADER_SHORT = 1,
    /* the entry's length is 0 or goes past the end */
    CDA_STORAGE_PAYLOAD_MISSING = 2,
    /* the entry's checksum is not that of its payload */
    CDA_STORAGE_CHECKSUM_WRONG = 3
};
";

/// The header for C and C++.
pub fn header(entries: &str, refusals: &str) -> String {
    let mut text = TOP.to_string();
    let rooms = [("IMAGE_ROOM", IMAGE_ROOM), ("KEYS_ROOM", KEYS_ROOM), ("STEP_ROOM", STEP_ROOM), ("HIT_ROOM", HIT_ROOM)];
    for (what, bytes) in rooms.into_iter().chain([("INVENTORY_ROOM", INVENTORY_ROOM), ("LOG_LIMIT", LOG_LIMIT)]) {
        text += &format!("#define CDA_STORAGE_{what} {bytes}\n");
    }
    text += NUMBERS;
    for [number, name, what] in rows(refusals) {
        text += &format!(",\n    /* {what} */\n    CDA_STORAGE_{} = {number}", screaming(name));
    }
    text += CAUSES;
    for [name, list, what] in rows(entries) {
        let parameters = parameters(list, |k| k.c).join(",\n    ");
        text += &format!("\n/* {what} */\nuint32_t cda_storage_{name}(\n    {parameters});\n");
    }
    text + "\n#ifdef __cplusplus\n}\n#endif\n\n#endif\n"
}

/// StepFailed as STEP_FAILED.
fn screaming(name: &str) -> String {
    let mut text = String::new();
    for (at, letter) in name.char_indices() {
        if at > 0 && letter.is_uppercase() {
            text.push('_');
        }
        text.push(letter.to_ascii_uppercase());
    }
    text
}
