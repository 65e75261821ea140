//! Whether a file is well-formed XML, as far as the tool's drawings use it: tags that nest, within one root, attributes in double quotes, and
//! no other < or & than those of tags and of the five entities. Usage: well_formed FILE.

type Fault = String;

fn main() {
    let file = std::env::args().nth(1).expect("a file");
    let text = std::fs::read_to_string(&file).expect("a file in UTF-8");
    if let Err(fault) = document(text.trim()) {
        println!("{file} is not well-formed: {fault}");
        std::process::exit(1);
    }
}

/// The tags of a document must close in turn, the root's at the very end.
fn document(text: &str) -> Result<(), Fault> {
    let mut open: Vec<&str> = Vec::new();
    let mut rest = text;
    while let Some(tagged) = rest.strip_prefix('<') {
        let (tag, after) = tagged.split_once('>').ok_or("a tag without an end")?;
        step(&mut open, tag)?;
        let (between, _) = after.split_at(after.find('<').unwrap_or(after.len()));
        characters(between)?;
        if open.is_empty() && !after.is_empty() {
            return Err(format!("something follows the root: {after}"));
        }
        rest = &after[between.len()..];
    }
    match (rest, open.last()) {
        ("", None) if !text.is_empty() => Ok(()),
        ("", None) => Err("it is empty".to_string()),
        ("", Some(name)) => Err(format!("{name} is not closed")),
        _ => Err(format!("text outside the root: {rest}")),
    }
}

/// A tag, without its brackets, opens an element, closes the last one, or is one by itself.
fn step<'a>(open: &mut Vec<&'a str>, tag: &'a str) -> Result<(), Fault> {
    if let Some(name) = tag.strip_prefix('/') {
        return if open.pop() == Some(name) { Ok(()) } else { Err(format!("{name} is closed out of turn")) };
    }
    let (tag, whole) = tag.strip_suffix('/').map_or((tag, false), |tag| (tag, true));
    let (name, rest) = tag.split_at(tag.find(' ').unwrap_or(tag.len()));
    if name.is_empty() || !name.bytes().all(|byte| byte.is_ascii_alphanumeric()) {
        return Err(format!("an element called '{name}'"));
    }
    if !whole {
        open.push(name);
    }
    attributes(rest)
}

/// Each attribute is a blank, a name, a sign of equality and a value in quotes; no name comes twice.
fn attributes(mut rest: &str) -> Result<(), Fault> {
    let mut names = Vec::new();
    while !rest.is_empty() {
        let (name, value) = rest.strip_prefix(' ').and_then(|rest| rest.split_once("=\"")).ok_or(format!("no attribute: {rest}"))?;
        let (value, after) = value.split_once('"').ok_or(format!("no end of the value of {name}"))?;
        if names.contains(&name) || name.is_empty() || !name.bytes().all(|byte| byte.is_ascii_alphabetic()) {
            return Err(format!("an attribute called '{name}', or twice"));
        }
        names.push(name);
        characters(value)?;
        rest = after;
    }
    Ok(())
}

/// Characters that stand for themselves, and entities.
fn characters(text: &str) -> Result<(), Fault> {
    let is_entity = |after: &str| ["amp;", "lt;", "gt;", "quot;", "apos;"].iter().any(|entity| after.starts_with(entity));
    match text.split('&').skip(1).find(|after| !is_entity(after)) {
        Some(after) => Err(format!("an & before {after}")),
        None if text.contains('<') || text.chars().any(|c| c.is_control() && c != '\n') => Err(format!("a foreign character in {text}")),
        None => Ok(()),
    }
}
