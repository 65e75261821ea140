//! The trail as a drawing: the tree grows from the left, each place is a box, and the entries of a node stand one below the other.

use crate::fold::{self, Box, Shown};
use crate::library::Fit;
use crate::source::Accepted;
use crate::trail::{label, told};
use crate::tree::{Place, Trail};
use crate::wanted::Found;

pub const MARGIN: usize = 20;
const ROW: usize = 63;
const GAP: usize = 36;
pub const PADDING: usize = 8;
pub const LINE: usize = 15;
/// tenths of the width of a letter, in the font below
const LETTER: usize = 75;
/// The boxes stand below the title.
pub const TOP: usize = MARGIN + 2 * LINE;

const STYLE: &str = "text{font:12px monospace}rect{stroke:#333}path{fill:none;stroke:#777}.title{font-weight:bold}\
.closed{fill:#f3c6c0}.open{fill:#bfe3c0}.split{fill:#dfe5ef}.unchecked{stroke-dasharray:4 3}.folded{fill:#f4efdc}.absent{fill:#fff;stroke:#ccc}.unwanted{fill:#e4e4e4;stroke:#ccc}.faint{fill:#fafafa;stroke:#ccc}\
.faint~text{fill:#999}";

/// What the boxes look like.
const LEGEND: [(&str, &str); 6] = [
    ("closed", "closed"),
    ("open", "open"),
    ("split", "split"),
    ("split unchecked", "unchecked"),
    ("faint", "not entered"),
    ("folded", "folded"),
];

pub struct Shape {
    /// for the style
    pub class: String,
    pub lines: Vec<String>,
    /// what a reader sees who points at it
    pub title: String,
    pub x: usize,
    pub y: usize,
    pub width: usize,
}

pub fn drawing(accepted: &Accepted, trail: &Trail, fit: &Fit, title: &str) -> String {
    let boxes = fold::boxes(accepted, &trail.places);
    let shapes = shapes(accepted, &trail.places, &boxes);
    let below = shapes.iter().map(|shape| shape.y).max().unwrap_or(0) + ROW;
    let legend = legend(below);
    let caption = format!("{}: {} entries of at most {}", fit.verdict.name(), fit.count, accepted.ticket.limit);
    let right = shapes.iter().chain(&legend).map(|shape| shape.x + shape.width).max().unwrap_or(0);
    let width = right.max(MARGIN + letters(&caption)).max(MARGIN + letters(title)) + MARGIN;
    let mut drawn = opening(width, below + ROW + LINE, title);
    drawn.extend(boxes.iter().zip(&shapes).filter_map(|(own, to)| Some(edge(&shapes[own.above?], to))));
    drawn.extend(shapes.iter().chain(&legend).map(Shape::drawn));
    drawn + &text(MARGIN, below + ROW - LINE, &caption) + "\n</svg>\n"
}

/// The beginning of a drawing of this size.
pub fn opening(width: usize, height: usize, title: &str) -> String {
    let size = format!("width=\"{width}\" height=\"{height}\" viewBox=\"0 0 {width} {height}\"");
    let words = escaped(title);
    format!(
        "<svg xmlns=\"http://www.w3.org/2000/svg\" {size}>\n<title>{words}</title>\n<style>{STYLE}</style>\n\
         <text class=\"title\" x=\"{MARGIN}\" y=\"{}\">{words}</text>\n",
        MARGIN + LINE
    )
}

fn shapes(accepted: &Accepted, places: &[Place], boxes: &[Box]) -> Vec<Shape> {
    let inside: Vec<Inside> = boxes.iter().map(|own| inside(accepted, places, &own.shown)).collect();
    let columns = columns(boxes, &inside);
    let shape = |((own, Inside { class, lines, title }), y): ((&Box, Inside), usize)| {
        let (x, width) = columns[own.depth];
        Shape { class, lines, title, x, y, width }
    };
    boxes.iter().zip(inside).zip(heights(boxes)).map(shape).collect()
}

/// What stands in a box, and what is said of it.
struct Inside {
    class: String,
    lines: Vec<String>,
    title: String,
}

fn inside(accepted: &Accepted, places: &[Place], shown: &Shown) -> Inside {
    match shown {
        Shown::Place(i) => of_place(accepted, *i, &places[*i]),
        Shown::Folded(entries) => {
            let lines = vec![format!("{entries} more"), if *entries == 1 { "entry" } else { "entries" }.to_string()];
            Inside { class: "folded".to_string(), lines, title: "folded, so that the drawing is not too large".to_string() }
        }
        Shown::Alternative(atom) => {
            Inside { class: "faint".to_string(), lines: vec![accepted.atom(atom), "not entered".to_string()], title: "not entered".to_string() }
        }
    }
}

fn of_place(accepted: &Accepted, number: usize, place: &Place) -> Inside {
    let (class, more) = match &place.found {
        Found::Closed(clause, values) => ("closed", vec![format!("closed by {}", accepted.clause_name(*clause)), accepted.reason(*clause, values)]),
        Found::Open(_) => ("open", vec!["open".to_string()]),
        Found::Split(clause, values) => ("split", vec![accepted.instance_name(*clause, values)]),
    };
    let unchecked = if place.confirmed { "" } else { " unchecked" };
    let lines = std::iter::once(label(accepted, number, place)).chain(more).collect();
    Inside { class: format!("{class}{unchecked}"), lines, title: told(accepted, &place.found) }
}

/// Where the boxes of each depth begin, and their width, which is that of the longest line.
fn columns(boxes: &[Box], inside: &[Inside]) -> Vec<(usize, usize)> {
    let mut widths = Vec::new();
    for (own, inside) in boxes.iter().zip(inside) {
        widths.resize(widths.len().max(own.depth + 1), 0);
        widths[own.depth] = widths[own.depth].max(width(&inside.lines));
    }
    let begin = |x: &mut usize, width| Some((std::mem::replace(x, *x + width + GAP), width));
    widths.into_iter().scan(MARGIN, begin).collect()
}

/// The width of a box around these lines.
pub fn width(lines: &[String]) -> usize {
    lines.iter().map(|line| letters(line)).max().unwrap_or(0) + 2 * PADDING
}

fn letters(line: &str) -> usize {
    line.chars().count() * LETTER / 10
}

/// A row for each box with none below it, in their order; any other box stands in the middle of those below it.
fn heights(boxes: &[Box]) -> Vec<usize> {
    let above = |i: usize| boxes.get(i).and_then(|own| own.above);
    let row = |row: &mut usize, i| Some(TOP + ROW * if above(i + 1) == Some(i) { *row } else { std::mem::replace(row, *row + 1) });
    let mut heights: Vec<usize> = (0..boxes.len()).scan(0, row).collect();
    let mut last = vec![None; boxes.len()];
    for i in (1..boxes.len()).rev() {
        if let Some(above) = above(i) {
            let last = *last[above].get_or_insert(heights[i]);
            heights[above] = (heights[i] + last) / 2;
        }
    }
    heights
}

fn edge(from: &Shape, to: &Shape) -> String {
    let (x, y) = (from.x + from.width, from.y + from.height() / 2);
    format!("<path d=\"M{x} {y}C{0} {y} {0} {2} {1} {2}\"/>\n", x + GAP / 2, to.x, to.y + to.height() / 2)
}

fn legend(y: usize) -> Vec<Shape> {
    let shape = |(i, (class, word)): (usize, (&str, &str))| {
        let lines = vec![word.to_string()];
        let width = width(&["not entered".to_string()]);
        Shape { class: class.to_string(), title: word.to_string(), lines, x: MARGIN + i * (width + PADDING), y, width }
    };
    LEGEND.into_iter().enumerate().map(shape).collect()
}

impl Shape {
    fn height(&self) -> usize {
        LINE * self.lines.len() + PADDING
    }

    pub fn drawn(&self) -> String {
        let Shape { class, x, y, width, .. } = self;
        let (title, height) = (escaped(&self.title), self.height());
        let mut drawn = format!("<g><title>{title}</title><rect class=\"{class}\" x=\"{x}\" y=\"{y}\" width=\"{width}\" height=\"{height}\"/>");
        drawn.extend(self.lines.iter().enumerate().map(|(i, line)| text(x + PADDING, y + LINE * (i + 1), line)));
        drawn + "</g>\n"
    }
}

pub fn text(x: usize, y: usize, line: &str) -> String {
    format!("<text x=\"{x}\" y=\"{y}\">{}</text>", escaped(line))
}

/// Text as XML has it.
fn escaped(text: &str) -> String {
    text.replace('&', "&amp;").replace('<', "&lt;").replace('>', "&gt;")
}
