//! A fitting as a drawing. Predicates of one argument are the columns of one table, whose rows are the constants; a predicate of two arguments has a
//! table of its own; the true atoms of the others are listed.

use crate::fitting::Fitting;
use crate::svg::{opening, text, width, Shape, LINE, MARGIN, PADDING, TOP};
use crate::ticket::Atom;

const HEIGHT: usize = LINE + PADDING;
/// between two tables
const GAP: usize = 2 * LINE;

struct Table {
    heading: String,
    rows: Vec<(String, u8)>,
    columns: Vec<(String, u8)>,
    /// the atom of a cell, by its row and column
    atom: Box<dyn Fn(u8, u8) -> Atom>,
}

pub fn drawing(fitting: &Fitting, title: &str) -> String {
    let (mut y, mut right, mut drawn) = (TOP, MARGIN, String::new());
    for table in tables(fitting) {
        let (body, wide) = drawn_table(fitting, &table, y);
        drawn += &body;
        right = right.max(wide);
        y += HEIGHT * (table.rows.len() + 1) + GAP;
    }
    for atom in fitting.true_atoms().iter().filter(|atom| !matches!(atom.arguments.len(), 1 | 2)) {
        let line = fitting.accepted().atom(atom);
        drawn += &(text(MARGIN, y, &line) + "\n");
        right = right.max(MARGIN + width(&[line]));
        y += LINE;
    }
    let legend = legend(y);
    drawn.extend(legend.iter().map(Shape::drawn));
    right = legend.iter().map(|shape| shape.x + shape.width).fold(right.max(MARGIN + width(&[title.to_string()])), usize::max);
    opening(right + MARGIN, y + HEIGHT + MARGIN, title) + &drawn + "</svg>\n"
}

fn tables(fitting: &Fitting) -> Vec<Table> {
    let (accepted, atoms) = (fitting.accepted(), fitting.true_atoms());
    let constants: Vec<u8> = (0..accepted.ticket.constants).collect();
    let called = |constants: Vec<u8>| -> Vec<(String, u8)> { constants.into_iter().map(|constant| (accepted.constant(constant), constant)).collect() };
    let of_arity = |arity: u8| -> Vec<u8> { (0..accepted.ticket.arities.len()).filter(|i| accepted.ticket.arities[*i] == arity).map(|i| i as u8).collect() };
    let unary: Vec<(String, u8)> = of_arity(1).into_iter().map(|predicate| (accepted.predicate(predicate), predicate)).collect();
    let cell = |row, column| Atom { predicate: column, arguments: vec![row] };
    let first = Table { heading: String::new(), rows: called(constants.clone()), columns: unary, atom: Box::new(cell) };
    let binary = of_arity(2).into_iter().map(|predicate| {
        let among = |i: usize| -> Vec<u8> {
            let occurs = |constant: &u8| atoms.iter().any(|atom| atom.predicate == predicate && atom.arguments[i] == *constant);
            constants.iter().copied().filter(occurs).collect()
        };
        let cell = move |row, column| Atom { predicate, arguments: vec![row, column] };
        Table { heading: accepted.predicate(predicate), rows: called(among(0)), columns: called(among(1)), atom: Box::new(cell) }
    });
    std::iter::once(first).chain(binary).filter(|table| !table.rows.is_empty() && !table.columns.is_empty()).collect()
}

/// The table at this height, and how far right it goes.
fn drawn_table(fitting: &Fitting, table: &Table, y: usize) -> (String, usize) {
    let names: Vec<String> = table.rows.iter().map(|(name, _)| name.clone()).chain([table.heading.clone()]).collect();
    let mut x = MARGIN + width(&names);
    let mut drawn = text(MARGIN, y + LINE, &table.heading) + "\n";
    for (i, (name, _)) in table.rows.iter().enumerate() {
        drawn += &(text(MARGIN, y + HEIGHT * (i + 1) + LINE, name) + "\n");
    }
    for (name, column) in &table.columns {
        let wide = width(&[name.clone()]);
        drawn += &(text(x + PADDING, y + LINE, name) + "\n");
        let cell = |(i, (_, row)): (usize, &(String, u8))| cell(fitting, &(table.atom)(*row, *column), x, y + HEIGHT * (i + 1), wide);
        drawn.extend(table.rows.iter().enumerate().map(cell));
        x += wide;
    }
    (drawn, x)
}

/// A cell: filled where its atom is true, grey where nobody wants it.
fn cell(fitting: &Fitting, atom: &Atom, x: usize, y: usize, width: usize) -> String {
    let (class, word) = match fitting.mark(atom) {
        (1, 1) => ("open", "true"),
        (_, 1) => ("unwanted", "in the fitting, and nobody wants it"),
        _ => ("absent", "not in the fitting"),
    };
    let title = format!("{}: {word}", fitting.accepted().atom(atom));
    Shape { class: class.to_string(), lines: vec![String::new()], title, x, y, width }.drawn()
}

fn legend(y: usize) -> Vec<Shape> {
    let words = [("open", "true"), ("unwanted", "nobody wants it"), ("absent", "not in the fitting")];
    let width = width(&["not in the fitting".to_string()]);
    let shape = |(i, (class, word)): (usize, (&str, &str))| {
        Shape { class: class.to_string(), lines: vec![word.to_string()], title: word.to_string(), x: MARGIN + i * (width + PADDING), y, width }
    };
    words.into_iter().enumerate().map(shape).collect()
}
