//! The cuts as a picture: a band from the first cut to the last, and a row for each.
use crate::{
    cuts::{Cut, Cuts},
    fold::folded,
    table,
};

const WIDTH: usize = 1000;
const LEFT: usize = 40;
const BAND: usize = 920;
/// The least width of a part of the band that has its word in it.
const PART: usize = 72;
const BAND_TOP: usize = 78;
const ROWS_TOP: usize = 176;
/// The height of a row of one line, and of every line more.
const ROW: usize = 24;
const LINE: usize = 16;
/// What has names in it is set in letters of one width, so that the number of characters that fit a column is known.
const NAMES: &str = "font-family=\"monospace\" font-size=\"12\"";
const STEP_LENGTH: usize = 58;
const DETAIL_LENGTH: usize = 48;
const NOTE_LENGTH: usize = 130;
const RULE_LENGTH: usize = 124;
/// The height of a line below the rows.
const NOTE: usize = 18;

/// Each outcome's colour; the word stands beside it.
fn colour(word: &str) -> &'static str {
    match word {
        "earlier" => "#1f5fa8",
        "later" => "#1a7a4c",
        "held" => "#5b3f9c",
        "kept" => "#8a5a00",
        _ => "#b3261e",
    }
}

pub fn picture(cuts: &Cuts) -> String {
    let (mut rows, mut y) = (String::new(), ROWS_TOP);
    for (n, cut) in cuts.cuts.iter().enumerate() {
        let (row, height) = row(n, y, cut);
        (rows, y) = (rows + &row, y + height);
    }
    let notes: Vec<String> = table::notes(cuts).iter().flat_map(|note| folded(note, NOTE_LENGTH)).collect();
    let rule: Vec<String> = table::rule(cuts).iter().flat_map(|line| folded(line, RULE_LENGTH)).collect();
    let height = y + 24 + NOTE * (notes.len() + rule.len());
    format!(
        "<svg xmlns=\"http://www.w3.org/2000/svg\" viewBox=\"0 0 {WIDTH} {height}\" width=\"{WIDTH}\" height=\"{height}\" \
         font-family=\"sans-serif\" font-size=\"13\" fill=\"#222222\">\n<title>What a cut leaves</title>\n\
         <rect width=\"100%\" height=\"100%\" fill=\"white\"/>\n{}{}{}{rows}{}{}</svg>\n",
        text(LEFT, 34, "font-size=\"20\" font-weight=\"bold\"", "What a cut during this update leaves, after recovery"),
        text(LEFT, 58, "", &table::summary(cuts)),
        band(&cuts.cuts),
        lines(LEFT, y + 16, NOTE, "", &notes),
        lines(LEFT, y + 16 + NOTE * notes.len(), NOTE, NAMES, &rule)
    )
}

/// Runs of cuts that have the same outcome, as parts of one band. A part is wide enough for its word where so many fit.
fn band(cuts: &[Cut]) -> String {
    let runs: Vec<&[Cut]> = cuts.chunk_by(|a, b| a.outcome.word() == b.outcome.word()).collect();
    let least = PART.min(BAND / runs.len());
    let (mut out, mut from, mut start) = (String::new(), LEFT, 0);
    for run in &runs {
        let width = least + (BAND - least * runs.len()) * run.len() / cuts.len();
        let range = if run.len() == 1 { start.to_string() } else { format!("{start} to {}", start + run.len() - 1) };
        out += &part(from, width, run[0].outcome.word(), &range);
        (from, start) = (from + width, start + run.len());
    }
    out + &text(LEFT, BAND_TOP + 74, "font-weight=\"bold\"", "cut after step")
}

fn part(x: usize, width: usize, word: &str, range: &str) -> String {
    let mut out = format!(
        "<rect x=\"{x}\" y=\"{BAND_TOP}\" width=\"{width}\" height=\"34\" fill=\"{}\" stroke=\"white\"><title>{word}, cut after step {range}</title></rect>\n",
        colour(word)
    );
    if width >= PART {
        out += &text(x + width / 2, BAND_TOP + 22, "text-anchor=\"middle\" fill=\"white\" font-weight=\"bold\"", word);
        out += &text(x + width / 2, BAND_TOP + 52, "text-anchor=\"middle\"", range);
    }
    out
}

/// A cut's row from here, and its height.
fn row(n: usize, y: usize, cut: &Cut) -> (String, usize) {
    let step = cut.step.as_ref().map_or("nothing is done yet".to_string(), |step| step.to_string());
    let (word, detail) = (cut.outcome.word(), table::words(&cut.outcome, 1));
    let detail = if detail == word { String::new() } else { detail };
    let (step, detail) = (folded(&step, STEP_LENGTH), folded(&detail, DETAIL_LENGTH));
    let height = ROW + LINE * (step.len().max(detail.len()) - 1);
    let shade = if n.is_multiple_of(2) { "#f3f3f3" } else { "white" };
    let row = format!(
        "<g><title>{}</title>\n<rect x=\"{LEFT}\" y=\"{}\" width=\"{BAND}\" height=\"{height}\" fill=\"{shade}\"/>\n{}{}\
         <rect x=\"520\" y=\"{}\" width=\"66\" height=\"18\" rx=\"4\" fill=\"{}\"/>\n{}{}</g>\n",
        escaped(&table::words(&cut.outcome, usize::MAX)),
        y - 17,
        text(LEFT + 34, y, "text-anchor=\"end\"", &n.to_string()),
        lines(LEFT + 48, y, LINE, NAMES, &step),
        y - 14,
        colour(word),
        text(553, y, "text-anchor=\"middle\" fill=\"white\" font-weight=\"bold\"", word),
        lines(598, y, LINE, NAMES, &detail)
    );
    (row, height)
}

/// Lines below each other; an empty one is not drawn.
fn lines(x: usize, y: usize, height: usize, style: &str, lines: &[String]) -> String {
    let drawn = lines.iter().enumerate().filter(|(_, line)| !line.is_empty());
    drawn.map(|(i, line)| text(x, y + height * i, style, line)).collect()
}

fn text(x: usize, y: usize, style: &str, what: &str) -> String {
    format!("<text x=\"{x}\" y=\"{y}\" {style}>{}</text>\n", escaped(what))
}

fn escaped(text: &str) -> String {
    text.replace('&', "&amp;").replace('<', "&lt;").replace('>', "&gt;").replace('"', "&quot;")
}
