//! The words after a command: options, some with a value, files, and a rule or atoms. Which ones there can be is what the usage says, in the first line of the
//! command's help; `lutsamik`, the script, reads it too.

use crate::ending::{Ending, Failure};
use crate::spell::counted;
use std::borrow::Cow;
use std::ffi::{OsStr, OsString};
use std::os::unix::ffi::{OsStrExt, OsStringExt};

/// A command: its help, of which the first line is the usage, and what it does.
pub struct Command {
    pub name: &'static str,
    pub text: &'static str,
    pub run: fn(&Arguments) -> Result<Ending, Failure>,
}

/// The words that are no options are the files, and then what stands behind them.
#[derive(Default)]
pub struct Arguments {
    words: Vec<OsString>,
    options: Vec<(&'static str, OsString)>,
    flags: Vec<&'static str>,
    /// how many of the words are files
    files: usize,
}

/// What stands behind the files.
#[derive(Clone, Copy, Default, PartialEq, Eq)]
enum Behind {
    #[default]
    Nothing,
    Rule,
    /// one or more
    Atoms,
}

/// What a usage allows.
#[derive(Default)]
struct Allowed {
    /// options with a value, and what the usage calls that
    options: Vec<(&'static str, &'static str)>,
    flags: Vec<&'static str>,
    files: usize,
    behind: Behind,
}

/// What the usage calls a value that is a number: of entries or fittings, of seconds, or one to draw by.
const NUMBERS: [&str; 3] = ["N", "S", "SEED"];

impl Command {
    fn usage(&self) -> &'static str {
        let first = self.text.lines().next().unwrap_or_default();
        first.strip_prefix("usage: ./lutsamik ").unwrap_or(first)
    }

    /// An option stands in brackets, alone or with its value; or without them, where it is needed.
    fn allowed(&self) -> Allowed {
        let mut allowed = Allowed::default();
        let mut words = self.usage().split(' ').skip(1);
        while let Some(word) = words.next() {
            let bare = word.trim_matches(['[', ']']);
            match (bare.starts_with('-'), bare) {
                (true, _) if word.ends_with(']') => allowed.flags.push(bare),
                (true, _) => allowed.options.push((bare, words.next().unwrap_or_default().trim_end_matches(']'))),
                (false, "RULE") => allowed.behind = Behind::Rule,
                (false, "ATOM...") => allowed.behind = Behind::Atoms,
                (false, _) => allowed.files += 1,
            }
        }
        allowed
    }

    pub fn arguments(&self, words: &[OsString]) -> Result<Arguments, Failure> {
        let allowed = self.allowed();
        let mut arguments = Arguments { files: allowed.files, ..Arguments::default() };
        let mut words = words.iter();
        while let Some(word) = words.next() {
            if word == "--" {
                arguments.words.extend(words.by_ref().cloned());
            } else {
                self.take(&allowed, word, &mut words, &mut arguments)?;
            }
        }
        let given = arguments.words.len();
        let (most, behind) = match allowed.behind {
            Behind::Nothing => (allowed.files, ""),
            Behind::Rule => (allowed.files + 1, " and a rule"),
            Behind::Atoms => (given.max(allowed.files + 1), " and one atom or more"),
        };
        if given != most {
            return Err(self.wrong(&format!("{} takes {}{behind} and was given {given}", self.name, counted(allowed.files, "file"))));
        }
        match arguments.files().iter().filter(|file| *file == "-").count() {
            0 | 1 => Ok(arguments),
            _ => Err(self.wrong("standard input can be named once")),
        }
    }

    /// Takes a word, and the next one where it is the word's value. A rule may begin with its arrow, as no option does.
    fn take<'a>(&self, allowed: &Allowed, word: &'a OsString, rest: &mut impl Iterator<Item = &'a OsString>, into: &mut Arguments) -> Result<(), Failure> {
        let (name, value) = parted(word);
        if word == "-" || !name.starts_with('-') || (allowed.behind == Behind::Rule && name.starts_with("->")) {
            into.words.push(word.clone());
        } else if let Some((option, kind)) = allowed.options.iter().find(|(option, _)| *option == name) {
            let value = value.or_else(|| rest.next().cloned()).ok_or_else(|| self.wrong(&format!("{option} needs a value")))?;
            check_choice(option, kind, &value)?;
            into.options.push((option, value));
            if NUMBERS.contains(kind) {
                into.number(option)?;
            }
        } else if let Some(flag) = allowed.flags.iter().find(|flag| **flag == name) {
            if value.is_some() {
                return Err(self.wrong(&format!("{flag} takes no value")));
            }
            into.flags.push(flag);
        } else {
            return Err(self.wrong(&format!("{} has no option {}", self.name, word.to_string_lossy())));
        }
        Ok(())
    }

    fn wrong(&self, what: &str) -> Failure {
        Failure::usage(format!("{what}; usage: ./lutsamik {}", self.usage()))
    }
}

/// That a value is one of those that the usage names, where it names several.
fn check_choice(option: &str, kind: &str, value: &OsStr) -> Result<(), Failure> {
    match kind.rsplit_once('|') {
        Some((others, last)) if kind.split('|').all(|choice| value != choice) => {
            Err(Failure::usage(format!("{option} is {} or {last}, not '{}'", others.replace('|', ", "), value.to_string_lossy())))
        }
        _ => Ok(()),
    }
}

/// A word before and after its first equals sign, where it is a long option.
fn parted(word: &OsStr) -> (String, Option<OsString>) {
    let bytes = word.as_bytes();
    match bytes.iter().position(|byte| *byte == b'=').filter(|_| bytes.starts_with(b"--")) {
        Some(at) => (String::from_utf8_lossy(&bytes[..at]).into_owned(), Some(OsString::from_vec(bytes[at + 1..].to_vec()))),
        None => (word.to_string_lossy().into_owned(), None),
    }
}

/// The number that a word is: digits alone, without a sign.
pub fn number(word: &str) -> Option<u32> {
    word.parse().ok().filter(|_| word.bytes().all(|byte| byte.is_ascii_digit()))
}

impl Arguments {
    pub fn file(&self, i: usize) -> &OsStr {
        &self.words[i]
    }

    pub fn files(&self) -> &[OsString] {
        &self.words[..self.files]
    }

    /// The words behind the files.
    pub fn atoms(&self) -> impl Iterator<Item = Cow<'_, str>> {
        self.words[self.files..].iter().map(|word| word.to_string_lossy())
    }

    /// The last word, of a command that takes a rule.
    pub fn rule(&self) -> Result<&str, Failure> {
        let rule = self.words.last().and_then(|word| word.to_str());
        rule.ok_or_else(|| Failure::usage("the rule is not in UTF-8"))
    }

    pub fn has(&self, flag: &str) -> bool {
        self.flags.contains(&flag)
    }

    /// An option's value; where it is given twice, the last one.
    pub fn option(&self, name: &str) -> Option<&OsStr> {
        self.options.iter().rev().find(|(option, _)| *option == name).map(|(_, value)| value.as_os_str())
    }

    /// One of several words that an option can have; nothing where it is not given.
    pub fn choice(&self, name: &str) -> Option<&str> {
        self.option(name).and_then(OsStr::to_str)
    }

    /// That no option is given that does not go with this one: by it there is not what the other one asks for, as the words beside that say.
    pub fn bar(&self, option: &str, by: &str, others: &[(&str, &str)]) -> Result<(), Failure> {
        let is_given = |name: &str| self.has(name) || self.option(name).is_some();
        match others.iter().find(|(name, _)| is_given(name)) {
            Some((name, why)) => Err(Failure::usage(format!("{option} does not go with {name}: by {by} {why}"))),
            None => Ok(()),
        }
    }

    /// An option's value as a number.
    pub fn number(&self, name: &str) -> Result<Option<u32>, Failure> {
        let Some(value) = self.option(name) else { return Ok(None) };
        let number = value.to_str().and_then(number);
        let wrong = || Failure::usage(format!("{name} takes a number from 0 to {}, not '{}'", u32::MAX, value.to_string_lossy()));
        number.map(Some).ok_or_else(wrong)
    }
}
