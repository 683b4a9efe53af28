//! The picture: a panel for each size with a line for each entry, and one for the growth. Time has a logarithmic scale.
use crate::Table;
use crate::clock::{Growth, Judge, Times};
use crate::section::{figures, unit};

const WIDTH: f64 = 960.0;
const LEFT: f64 = 190.0;
const RIGHT: f64 = 850.0;
const LINE: f64 = 20.0;
const GROWTH_HEIGHT: f64 = 240.0;

const PORT: &str = "#0b5cad";
const PLAIN: &str = "#b85c00";
const ORIGINAL: &str = "#444444";

/// A logarithmic scale from powers of ten to a stretch of the page.
struct Scale {
    powers: (i32, i32),
    from: f64,
    to: f64,
}

impl Scale {
    fn over(values: impl Iterator<Item = f64>, from: f64, to: f64) -> Scale {
        let (low, high) = values.fold((f64::MAX, f64::MIN), |(low, high), v| (low.min(v), high.max(v)));
        Scale { powers: (low.log10().floor() as i32, high.log10().ceil() as i32), from, to }
    }
    fn at(&self, value: f64) -> f64 {
        let (low, high) = (f64::from(self.powers.0), f64::from(self.powers.1));
        self.from + (value.log10() - low) / (high - low) * (self.to - self.from)
    }
    fn ticks(&self) -> impl Iterator<Item = f64> {
        (self.powers.0..=self.powers.1).map(|p| 10f64.powi(p))
    }
}

fn text(x: f64, y: f64, anchor: &str, what: &str) -> String {
    format!("<text x=\"{x:.1}\" y=\"{y:.1}\" text-anchor=\"{anchor}\">{what}</text>\n")
}

fn line(from: (f64, f64), to: (f64, f64), colour: &str) -> String {
    format!("<path d=\"M{:.1} {:.1}L{:.1} {:.1}\" stroke=\"{colour}\"/>\n", from.0, from.1, to.0, to.1)
}

/// Each judge has its own shape, so that colour is not needed.
fn mark(colour: &str, (x, y): (f64, f64)) -> String {
    match colour {
        PORT => format!("<circle cx=\"{x:.1}\" cy=\"{y:.1}\" r=\"5\" fill=\"{PORT}\"/>\n"),
        PLAIN => format!("<path d=\"M{x:.1} {:.1}l6 6l-6 6l-6 -6z\" fill=\"white\" stroke=\"{PLAIN}\" stroke-width=\"2\"/>\n", y - 6.0),
        _ => format!("<rect x=\"{:.1}\" y=\"{:.1}\" width=\"10\" height=\"10\" fill=\"{ORIGINAL}\"/>\n", x - 5.0, y - 5.0),
    }
}

/// A power of ten as a time.
fn tick(ns: f64) -> String {
    let (value, unit) = unit(ns);
    format!("{value} {unit}")
}

fn legend(y: f64) -> String {
    let mut out = String::new();
    for (i, (colour, what)) in [(PORT, "port"), (PLAIN, "plain reading, in memory"), (ORIGINAL, "original, on tmpfs")].iter().enumerate() {
        let x = LEFT + [0.0, 90.0, 310.0][i];
        out += &mark(colour, (x, y - 4.0));
        out += &text(x + 12.0, y, "start", what);
    }
    out
}

fn all(t: &Times) -> impl Iterator<Item = f64> {
    [t.port, t.plain].into_iter().chain(t.original)
}

/// The entries of one size, from y downwards. The numbers at the right are original / port.
fn panel(table: &Table, scale: &Scale, y: f64) -> (String, f64) {
    let bottom = y + LINE * (table.rows.len() as f64 + 1.0);
    let mut out = format!("<text x=\"12\" y=\"{y:.1}\" font-weight=\"bold\">{}</text>\n", table.size.title);
    out += &text(LEFT, y, "start", table.size.words);
    for ns in scale.ticks() {
        let x = scale.at(ns);
        out += &line((x, y + 8.0), (x, bottom - 6.0), "#d8d8d8");
        out += &text(x, bottom + 8.0, "middle", &tick(ns));
    }
    for (i, (what, t)) in table.rows.iter().enumerate() {
        let row = y + LINE * (i as f64 + 1.0);
        let at = |ns: f64| (scale.at(ns), row);
        let (low, high) = all(t).fold((f64::MAX, f64::MIN), |(low, high), v| (low.min(v), high.max(v)));
        out += &text(LEFT - 14.0, row + 4.0, "end", what);
        out += &line(at(low), at(high), "#999999");
        out.extend(
            t.original.map(|o| mark(ORIGINAL, at(o)) + &text(WIDTH - 12.0, row + 4.0, "end", &format!("× {}", figures(o / t.port)))),
        );
        out += &mark(PLAIN, at(t.plain));
        out += &mark(PORT, at(t.port));
    }
    (out, bottom + 44.0)
}

fn growth_panel(growth: &[Growth], y: f64) -> String {
    let bottom = y + GROWTH_HEIGHT;
    let across = Scale::over(growth.iter().map(|g| g.length as f64), LEFT, RIGHT);
    let up = Scale::over(growth.iter().flat_map(|g| [g.port, g.plain]), bottom, y + 16.0);
    let mut out = format!("<text x=\"12\" y=\"{y:.1}\" font-weight=\"bold\">stepping</text>\n");
    out += &text(LEFT, y, "start", "a whole commit through commit_step, n = 1, 2, .. to the plan's end, by the plan's length");
    for steps in across.ticks() {
        let x = across.at(steps);
        out += &line((x, y + 16.0), (x, bottom), "#d8d8d8");
        out += &text(x, bottom + 18.0, "middle", &format!("{steps:.0} steps"));
    }
    for ns in up.ticks() {
        out += &line((LEFT, up.at(ns)), (RIGHT, up.at(ns)), "#d8d8d8");
        out += &text(LEFT - 14.0, up.at(ns) + 4.0, "end", &tick(ns));
    }
    let series: [(&str, Judge); 2] = [(PLAIN, |g| g.plain), (PORT, |g| g.port)];
    for (colour, of) in series {
        let points: Vec<(f64, f64)> = growth.iter().map(|g| (across.at(g.length as f64), up.at(of(g)))).collect();
        points.windows(2).for_each(|pair| out += &line(pair[0], pair[1], colour));
        points.iter().for_each(|point| out += &mark(colour, *point));
    }
    out
}

pub fn svg(tables: &[Table], growth: &[Growth]) -> String {
    let scale = Scale::over(tables.iter().flat_map(|table| table.rows.iter().flat_map(|(_, t)| all(t))), LEFT, RIGHT);
    let mut body = legend(30.0) + &text(WIDTH - 12.0, 30.0, "end", "original / port");
    let mut y = 66.0;
    for table in tables {
        let (panel, next) = panel(table, &scale, y);
        body += &panel;
        y = next;
    }
    body += &growth_panel(growth, y);
    let height = y + GROWTH_HEIGHT + 36.0;
    format!(
        "<svg xmlns=\"http://www.w3.org/2000/svg\" viewBox=\"0 0 {WIDTH} {height:.0}\" width=\"{WIDTH}\" height=\"{height:.0}\" \
         font-family=\"sans-serif\" font-size=\"13\" fill=\"#222222\">\n<title>Times of the entries</title>\n\
         <rect width=\"100%\" height=\"100%\" fill=\"white\"/>\n{body}</svg>\n"
    )
}
