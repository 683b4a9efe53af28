//! The longest names in the table and in the picture of `cda-store cuts`: they wrap, and nothing is left out.
mod common;

use common::Folder;
use std::{fs, process::Command};

const COLLECTION: char = 'W';

/// What is printed and drawn for a put to the longest names that a put may have, beside a name in .tmp that is lost.
fn shown() -> (String, String) {
    let folder = Folder::new();
    let (collection, key) = (COLLECTION.to_string().repeat(64), "m".repeat(60));
    fs::create_dir_all(folder.0.join("store/collections").join(&collection)).unwrap();
    [key.as_str(), "long-.tmp"]
        .iter()
        .for_each(|name| fs::write(folder.0.join("store/collections").join(&collection).join(name), "").unwrap());
    let mut command = Command::new(env!("CARGO_BIN_EXE_cda-store"));
    command.current_dir(&folder.0).args(["cuts", "store", "put", &format!("{collection}/{key}"), "new", "--svg", "cuts.svg"]);
    let output = command.output().unwrap();
    assert!(output.status.success(), "{output:?}");
    (String::from_utf8(output.stdout).unwrap(), fs::read_to_string(folder.0.join("cuts.svg")).unwrap())
}

/// The longest step, without its spaces.
fn rename() -> String {
    let path = format!("{}/{}", COLLECTION.to_string().repeat(64), "m".repeat(60));
    format!("rename{path}to{path}.bak")
}

#[test]
fn the_table_wraps() {
    let (table, _) = shown();
    let rows: Vec<&str> = table.lines().skip(2).take_while(|line| !line.is_empty()).collect();
    assert!(rows.iter().all(|row| row.len() <= 143 && row.trim_end() == *row), "{table}");
    let steps = rows.iter().map(|row| row.get(4..).unwrap_or_default()).map(|row| row.get(..65).unwrap_or(row).replace(' ', ""));
    assert!(steps.collect::<String>().contains(&rename()), "{table}");
}

/// An attribute's number.
fn number(tag: &str, attribute: &str) -> usize {
    let at = tag.find(&format!(" {attribute}=\"")).unwrap_or_else(|| panic!("{attribute}: {tag}")) + attribute.len() + 3;
    tag[at..].split('"').next().unwrap().parse().unwrap()
}

/// Where a text ends, at the widest that its letters are: those of one width have 0.61 of their size; names stand in no other.
fn end(text: &str) -> usize {
    let (tag, words) = text.split_once('>').unwrap();
    let thousandths = match (tag.contains("monospace"), tag.contains("font-size=\"20\"")) {
        (true, _) => 12 * 610,
        (false, true) => 20 * 650,
        (false, false) => 13 * 520,
    };
    assert!(tag.contains("monospace") || !words.contains(&COLLECTION.to_string().repeat(3)), "{text}");
    let width = words.replace("&quot;", "\"").len() * thousandths / 1000;
    number(tag, "x")
        + if tag.contains("middle") {
            width / 2
        } else if tag.contains("\"end\"") {
            0
        } else {
            width
        }
}

#[test]
fn nothing_runs_out_of_the_picture() {
    let (_, picture) = shown();
    let (svg, body) = picture.split_once('>').unwrap();
    let texts: Vec<&str> = body.split("<text").skip(1).map(|text| text.split("</text>").next().unwrap()).collect();
    for text in &texts {
        let right = if number(text, "x") == 88 { 520 } else { 960 };
        assert!(end(text) <= right && number(text, "y") < number(svg, "height"), "{text}");
    }
    let names: String =
        texts.iter().filter(|text| number(text, "x") == 88).map(|text| text.split_once('>').unwrap().1.replace(' ', "")).collect();
    assert!(names.contains(&rename()), "{names}");
    let rows: Vec<&str> = body.split("<g>").skip(1).map(|row| row.split("<rect").nth(1).unwrap()).collect();
    rows.windows(2).for_each(|pair| assert_eq!(number(pair[0], "y") + number(pair[0], "height"), number(pair[1], "y")));
}
