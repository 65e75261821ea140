//! Answers as JSON. docs/TOOL.md has their shape.

use crate::ending::{Ending, Status};

pub enum Json {
    Null,
    True(bool),
    Number(f64),
    Text(String),
    List(Vec<Json>),
    Record(Vec<(&'static str, Json)>),
}

impl Json {
    pub fn number(number: impl TryInto<u32>) -> Json {
        Json::Number(number.try_into().map_or(f64::NAN, f64::from))
    }

    pub fn text(text: impl Into<String>) -> Json {
        Json::Text(text.into())
    }

    pub fn texts(texts: Vec<String>) -> Json {
        Json::List(texts.into_iter().map(Json::Text).collect())
    }

    fn spelt(&self) -> String {
        let joined = |items: Vec<String>| items.join(", ");
        match self {
            Json::Null => "null".to_string(),
            Json::True(is) => is.to_string(),
            Json::Number(number) => number.to_string(),
            Json::Text(text) => quoted(text),
            Json::List(items) => format!("[{}]", joined(items.iter().map(Json::spelt).collect())),
            Json::Record(fields) => {
                format!("{{{}}}", joined(fields.iter().map(|(name, value)| format!("{}: {}", quoted(name), value.spelt())).collect()))
            }
        }
    }
}

/// What a command prints: its name, its verdict, and more.
pub fn ending(command: &str, verdict: &str, status: Status, more: Vec<(&'static str, Json)>) -> Ending {
    let mut fields = vec![("command", Json::text(command)), ("verdict", Json::text(verdict)), ("status", Json::number(status as u8))];
    fields.extend(more);
    Ending::new(status, Json::Record(fields).spelt() + "\n")
}

fn quoted(text: &str) -> String {
    let shown = |c: char| match c {
        '"' | '\\' => format!("\\{c}"),
        c if c.is_control() => format!("\\u{:04x}", c as u32),
        c => c.to_string(),
    };
    format!("\"{}\"", text.chars().map(shown).collect::<String>())
}
