//! The words behind a command: operands, options with a value, options without one.

use crate::trouble::Trouble;
use std::ffi::{OsStr, OsString};
use std::path::{Path, PathBuf};

/// An option of a command, and whether a value follows it.
#[derive(Clone, Copy)]
pub enum Opt {
    Value(&'static str),
    Plain(&'static str),
}

impl Opt {
    fn name(self) -> &'static str {
        match self {
            Opt::Value(name) | Opt::Plain(name) => name,
        }
    }
}

/// What a command was given.
pub struct Words {
    command: &'static str,
    operands: Vec<OsString>,
    options: Vec<(&'static str, OsString)>,
}

impl Words {
    /// Reads the words of a command that has these options. A value stands behind its option, or after `=` in one word.
    pub fn read(
        command: &'static str,
        options: &[Opt],
        words: impl IntoIterator<Item = OsString>,
    ) -> Result<Self, Trouble> {
        let mut found = Self { command, operands: Vec::new(), options: Vec::new() };
        let mut words = words.into_iter();
        while let Some(word) = words.next() {
            let text = word.to_str().unwrap_or("");
            if !text.starts_with('-') || text == "-" {
                found.operands.push(word);
                continue;
            }
            let (name, joined) = match text.split_once('=') {
                Some((name, value)) if text.starts_with("--") => (name, Some(OsString::from(value))),
                _ => (text, None),
            };
            let Some(option) = options.iter().find(|option| option.name() == name) else {
                return Err(found.usage(format!("there is no option {name}; {}", listed(options))));
            };
            let value = match (option, joined) {
                (Opt::Value(_), Some(value)) => value,
                (Opt::Value(_), None) => {
                    words.next().ok_or_else(|| found.usage(format!("{name} wants a value behind it")))?
                }
                (Opt::Plain(_), None) => OsString::new(),
                (Opt::Plain(_), Some(_)) => return Err(found.usage(format!("{name} takes no value"))),
            };
            if found.has(option.name()) {
                return Err(found.usage(format!("{name} is given twice")));
            }
            found.options.push((option.name(), value));
        }
        Ok(found)
    }

    /// A sentence about this command's words.
    pub fn usage(&self, text: impl AsRef<str>) -> Trouble {
        Trouble::usage(format!("{}: {}", self.command, text.as_ref()))
    }

    pub fn has(&self, option: &str) -> bool {
        self.os(option).is_some()
    }

    fn os(&self, option: &str) -> Option<&OsStr> {
        self.options.iter().find(|(name, _)| *name == option).map(|(_, value)| value.as_os_str())
    }

    /// The value of an option, as text.
    pub fn value(&self, option: &str) -> Result<Option<&str>, Trouble> {
        match self.os(option) {
            None => Ok(None),
            Some(value) => match value.to_str() {
                Some(text) => Ok(Some(text)),
                None => Err(self.usage(format!("the value of {option} is no text"))),
            },
        }
    }

    pub fn path(&self, option: &str) -> Option<&Path> {
        self.os(option).map(Path::new)
    }

    pub fn operands(&self) -> &[OsString] {
        &self.operands
    }

    /// The one operand that the command wants; `what` names it.
    pub fn operand(&self, what: &str) -> Result<PathBuf, Trouble> {
        match &self.operands[..] {
            [one] => Ok(one.into()),
            [] => Err(self.usage(format!("{what} is missing"))),
            [_, more, ..] => {
                Err(self.usage(format!("it takes one operand, {what}; what is {} for?", more.to_string_lossy())))
            }
        }
    }

    /// For a command that takes options alone.
    pub fn no_operand(&self) -> Result<(), Trouble> {
        match self.operands.first() {
            None => Ok(()),
            Some(word) => Err(self.usage(format!("it takes options alone; what is {} for?", word.to_string_lossy()))),
        }
    }
}

fn listed(options: &[Opt]) -> String {
    let names: Vec<&str> = options.iter().map(|option| option.name()).collect();
    format!("the options are {}", names.join(", "))
}
