//! The words of a sheet: names, numbers, codes, variables and signs, each with the place where it stands.

use super::Error;

/// A line and a column, both from 1. A column counts characters. The files are the sheet itself, 0, and those that it includes.
#[derive(Clone, Copy, Debug, PartialEq, Eq)]
pub struct Place {
    pub file: usize,
    pub line: usize,
    pub column: usize,
}

#[derive(Clone, Copy, Debug, PartialEq, Eq)]
pub enum Kind {
    Name,
    Number(u32),
    /// begins as a number and goes on with letters
    Code,
    Variable,
    Sign,
    /// between quotation marks, which are not in it
    Quoted,
    /// the end of the sheet, once, as the last word
    End,
}

#[derive(Clone, Copy, Debug)]
pub struct Word<'a> {
    pub kind: Kind,
    pub text: &'a str,
    pub place: Place,
}

const MOST_LETTERS: usize = 64;

/// Those that begin alike, the longer one first.
const SIGNS: [&str; 11] = ["->", "..", "!=", ".", ",", ";", "/", "(", ")", "&", "|"];

impl Word<'_> {
    /// The place just after it. A word stands on one line.
    pub fn end(&self) -> Place {
        Place { column: self.place.column + self.text.chars().count(), ..self.place }
    }
}

pub fn words(source: &str, file: usize) -> Result<Vec<Word<'_>>, Error> {
    let unmarked = source.strip_prefix('\u{FEFF}').unwrap_or(source); // some editors mark a file so
    let mut reader = Reader { rest: unmarked, place: Place { file, line: 1, column: 1 } };
    let mut words = Vec::new();
    loop {
        reader.pass_blanks();
        let word = reader.word()?;
        words.push(word);
        if word.kind == Kind::End {
            return Ok(words);
        }
    }
}

/// What is left of a sheet, and the place where that begins.
struct Reader<'a> {
    rest: &'a str,
    place: Place,
}

impl<'a> Reader<'a> {
    /// Takes the characters up to the first that does not belong.
    fn take(&mut self, belongs: impl Fn(char) -> bool) -> &'a str {
        let len = self.rest.find(|c| !belongs(c)).unwrap_or(self.rest.len());
        let (taken, rest) = self.rest.split_at(len);
        for c in taken.chars() {
            self.place = match c {
                '\n' => Place { line: self.place.line + 1, column: 1, ..self.place },
                _ => Place { column: self.place.column + 1, ..self.place },
            };
        }
        self.rest = rest;
        taken
    }

    /// Blanks, line ends and comments.
    fn pass_blanks(&mut self) {
        self.take(char::is_whitespace);
        while self.rest.starts_with(['#', '%']) {
            self.take(|c| c != '\n');
            self.take(char::is_whitespace);
        }
    }

    fn word(&mut self) -> Result<Word<'a>, Error> {
        let place = self.place;
        let Some(first) = self.rest.chars().next() else {
            return Ok(Word { kind: Kind::End, text: "", place });
        };
        if first.is_alphanumeric() {
            let text = self.take(|c| c.is_alphanumeric() || c == '_');
            return Ok(Word { kind: kind(text, place)?, text, place });
        }
        if first == '_' && !self.rest[1..].starts_with(|c: char| c.is_alphanumeric() || c == '_') {
            return Ok(Word { kind: Kind::Variable, text: self.take(|c| c == '_'), place });
        }
        if first == '"' {
            return self.quoted(place);
        }
        let Some(sign) = SIGNS.into_iter().find(|sign| self.rest.starts_with(sign)) else {
            return Err(Error::at(place, format!("no word begins with {first:?}")));
        };
        self.rest = &self.rest[sign.len()..];
        self.place.column += sign.len();
        Ok(Word { kind: Kind::Sign, text: sign, place })
    }
}

impl<'a> Reader<'a> {
    fn quoted(&mut self, place: Place) -> Result<Word<'a>, Error> {
        let (_, rest) = self.rest.split_at(1);
        let end = rest.find(['"', '\n']).filter(|end| rest[*end..].starts_with('"'));
        let text = &rest[..end.ok_or_else(|| Error::at(place, "this quotation mark is not closed on its line"))?];
        self.rest = &rest[text.len() + 1..];
        self.place.column += text.chars().count() + 2;
        Ok(Word { kind: Kind::Quoted, text, place })
    }
}

/// What a word of letters and digits is.
fn kind(text: &str, place: Place) -> Result<Kind, Error> {
    let letters = text.chars().count();
    if letters > MOST_LETTERS {
        return Err(Error::at(place, format!("this word has {letters} letters: at most {MOST_LETTERS}")));
    }
    if text.starts_with(char::is_uppercase) {
        return Ok(Kind::Variable);
    }
    if !text.starts_with(char::is_numeric) {
        return Ok(Kind::Name);
    }
    if !text.bytes().all(|byte| byte.is_ascii_digit()) {
        return Ok(Kind::Code);
    }
    if text.len() > 1 && text.starts_with('0') {
        return Err(Error::at(place, format!("the number {text} begins with a needless 0")));
    }
    let too_large = |_| Error::at(place, format!("the number {text} is too large: at most {}", u32::MAX));
    text.parse().map(Kind::Number).map_err(too_large)
}
