//! A diagram as a picture (SVG): a row for each fact, a broken line to the low side (the fact is false), a full one to the high side.

use crate::text::escaped;
use crate::words::Words;
use proof::{Diagram, Diagrams};
use std::collections::{BTreeMap, HashMap, HashSet};
use std::fmt::Write;

/// More nodes than this make no picture that helps.
pub const MOST_NODES: usize = 60;

const ROW: f64 = 64.0;
const COLUMN: f64 = 72.0;
const MARGIN: f64 = 40.0;
const RADIUS: f64 = 17.0;
/// A longer name is cut in the picture; the claim in words has it whole.
const LONGEST_LABEL: usize = 32;

/// Where everything stands.
struct Layout {
    rows: BTreeMap<u8, Vec<Diagram>>,
    at: HashMap<Diagram, (f64, f64)>,
    /// Where the labels end.
    left: f64,
    width: f64,
    height: f64,
}

/// The picture; none where the diagram has too many nodes. `id` is the picture's own, `said` the diagram in words.
pub fn picture(diagrams: &Diagrams, f: Diagram, words: &Words, said: &str, id: usize) -> Option<String> {
    let nodes = below(diagrams, f, MOST_NODES)?;
    let layout = layout(diagrams, &nodes, words);
    let (width, height) = (layout.width, layout.height);
    let mut out = format!(
        "<svg role=\"img\" aria-labelledby=\"t{id} d{id}\" viewBox=\"0 0 {width:.0} {height:.0}\" width=\"{width:.0}\" \
         height=\"{height:.0}\">\
         <title id=\"t{id}\">The line as a decision diagram</title><desc id=\"d{id}\">{}</desc>\n",
        escaped(said)
    );
    put_labels(&mut out, &layout, words);
    nodes.iter().filter(|&&g| g > 1).for_each(|&g| put_edges(&mut out, diagrams, &layout, g));
    nodes.iter().for_each(|&g| put_node(&mut out, diagrams, &layout, g));
    Some(out + "</svg>\n")
}

/// How a picture in a file of its own is drawn.
const STYLE: &str = "text { font: 14px sans-serif } .in { text-anchor: middle } circle, rect { fill: white; stroke: black; stroke-width: 1.5 } \
    .row { stroke: #ccc; fill: none } .low, .high { stroke: black; stroke-width: 1.5; fill: none } .low { stroke-dasharray: 4 4 }";

/// The picture as a file of its own.
pub fn file(diagrams: &Diagrams, f: Diagram, words: &Words, said: &str) -> Option<String> {
    let drawn = picture(diagrams, f, words, said, 0)?;
    let inner = drawn.strip_prefix("<svg")?;
    let (head, rest) = inner.split_once('>')?;
    Some(format!("<svg xmlns=\"http://www.w3.org/2000/svg\"{head}><style>{STYLE}</style>{rest}"))
}

/// The diagrams below f, f first, the constants among them; none where there are more nodes than this.
pub fn below(diagrams: &Diagrams, f: Diagram, most: usize) -> Option<Vec<Diagram>> {
    let (mut found, mut seen) = (vec![f], HashSet::from([f]));
    let mut at = 0;
    while at < found.len() {
        let (_, low, high) = diagrams.row(found[at]);
        let children = [low, high].into_iter().filter(|_| found[at] > 1);
        let new: Vec<Diagram> = children.filter(|&child| seen.insert(child)).collect();
        found.extend(new);
        at += 1;
        if found.len() > most + 2 {
            return None;
        }
    }
    Some(found)
}

/// A fact's name beside its row.
fn label(words: &Words, variable: u8) -> String {
    let name = words.fact(variable.into());
    match name.char_indices().nth(LONGEST_LABEL) {
        None => name,
        Some((end, _)) => format!("{}…”", name[..end].trim_end()),
    }
}

/// A node stands near the middle of those above it, and no two in one place.
fn layout(diagrams: &Diagrams, nodes: &[Diagram], words: &Words) -> Layout {
    let mut rows: BTreeMap<u8, Vec<Diagram>> = BTreeMap::new();
    nodes.iter().for_each(|&g| rows.entry(diagrams.variable(g)).or_default().push(g));
    let widest = rows.values().map(Vec::len).max().unwrap_or(1) as f64;
    let labels = rows.keys().filter(|&&v| v <= 64).map(|&v| label(words, v).chars().count()).max().unwrap_or(0);
    let left = MARGIN + 8.0 * labels as f64;
    let (width, height) = (left + widest * COLUMN + MARGIN, rows.len() as f64 * ROW + 16.0);
    let (mut at, mut above): (HashMap<_, _>, HashMap<Diagram, Vec<f64>>) = (HashMap::new(), HashMap::new());
    for (row, nodes) in rows.values_mut().enumerate() {
        let middle = |g: &Diagram| above.get(g).map_or(widest / 2.0, |xs| xs.iter().sum::<f64>() / xs.len() as f64);
        nodes.sort_by(|a, b| middle(a).total_cmp(&middle(b)).then(a.cmp(b)));
        let free = (widest - nodes.len() as f64) / 2.0;
        let mut xs: Vec<f64> = (0..nodes.len()).map(|k| free + k as f64 + 0.5).collect();
        if let [only] = nodes[..] {
            xs[0] = middle(&only).clamp(0.5, widest - 0.5);
        }
        for (&g, x) in nodes.iter().zip(xs) {
            at.insert(g, (left + x * COLUMN, row as f64 * ROW + ROW / 2.0));
            let (_, low, high) = diagrams.row(g);
            if g > 1 {
                above.entry(low).or_default().push(x - 0.45);
                above.entry(high).or_default().push(x + 0.45);
            }
        }
    }
    Layout { rows, at, left, width, height }
}

/// Each row's fact, with a line through the row.
fn put_labels(out: &mut String, layout: &Layout, words: &Words) {
    for (row, &variable) in layout.rows.keys().enumerate().filter(|(_, &variable)| variable <= 64) {
        let y = row as f64 * ROW + ROW / 2.0;
        let (from, to, base) = (layout.left - 20.0, layout.width - 8.0, y + 5.0);
        let name = escaped(&label(words, variable));
        let _ = writeln!(
            out,
            "<path class=\"row\" d=\"M{from:.0} {y:.0}H{to:.0}\"/><text x=\"8\" y=\"{base:.0}\">{name}</text>"
        );
    }
}

fn put_edges(out: &mut String, diagrams: &Diagrams, layout: &Layout, g: Diagram) {
    let (_, low, high) = diagrams.row(g);
    let (x, y) = layout.at[&g];
    for (child, class, side) in [(low, "low", -1.0), (high, "high", 1.0)] {
        let (to, below) = layout.at[&child];
        // Two sides that go straight down would hide each other: they stay apart.
        let (bend, to) = if (to - x).abs() < 1.0 { (11.0, to + side * 8.0) } else { (5.0, to) };
        let (from_x, from_y) = (x + side * 9.0, y + 14.0);
        let (by_x, by_y, end) = ((x + to) / 2.0 + side * bend, (y + below) / 2.0, below - RADIUS);
        let _ = writeln!(
            out,
            "<path class=\"{class}\" d=\"M{from_x:.0} {from_y:.0}Q{by_x:.0} {by_y:.0} {to:.0} {end:.0}\"/>"
        );
    }
}

/// A circle with the variable, or a square with the constant.
fn put_node(out: &mut String, diagrams: &Diagrams, layout: &Layout, g: Diagram) {
    let (x, y) = layout.at[&g];
    let shape = match g {
        0 | 1 => format!("<rect x=\"{:.0}\" y=\"{:.0}\" width=\"30\" height=\"30\" rx=\"3\"/>", x - 15.0, y - 15.0),
        _ => format!("<circle cx=\"{x:.0}\" cy=\"{y:.0}\" r=\"{RADIUS}\"/>"),
    };
    let label = if g < 2 { g.to_string() } else { diagrams.variable(g).to_string() };
    let _ = writeln!(out, "{shape}<text class=\"in\" x=\"{x:.0}\" y=\"{:.0}\">{label}</text>", y + 5.0);
}
