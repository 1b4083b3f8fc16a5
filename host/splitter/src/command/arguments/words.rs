//! The words behind a command, sorted.

use super::{name::REPEATED, Name};
use crate::command::{failure::Failure, screen::Form, text::shown_word};
use splitter::Edition;
use std::{collections::VecDeque, ffi::OsString};

/// The words behind a command: its options, and the rest in order.
pub struct Words {
    command: Name,
    options: Vec<(&'static str, Option<OsString>)>,
    operands: VecDeque<OsString>,
}

impl Words {
    /// Sorts the words. Behind `--` nothing is an option.
    pub fn sort(command: Name, mut words: impl Iterator<Item = OsString>) -> Result<Self, Failure> {
        let mut sorted = Self {
            command,
            options: Vec::new(),
            operands: VecDeque::new(),
        };
        while let Some(word) = words.next() {
            match word.to_str() {
                Some("--") => sorted.operands.extend(words.by_ref()),
                Some(option) if option.len() > 1 && option.starts_with('-') => {
                    let (name, value) = match option.split_once('=') {
                        Some((name, value)) => (name, Some(value.into())),
                        None => (option, None),
                    };
                    sorted.add_option(name, value, &mut words)?;
                }
                _ => sorted.operands.push_back(word),
            }
        }
        Ok(sorted)
    }

    fn add_option(
        &mut self,
        word: &str,
        value: Option<OsString>,
        words: &mut impl Iterator<Item = OsString>,
    ) -> Result<(), Failure> {
        let long = match word {
            "-h" => "--help",
            "-o" => "--output",
            "-q" => "--quiet",
            word => word,
        };
        let options = [("--help", false)];
        let mut options = options.iter().chain(self.command.options());
        let Some(&(name, takes_value)) = options.find(|(name, _)| *name == long) else {
            let word = shown_word(word.as_ref());
            return Err(self.failure(&format!("has no option {word}")));
        };
        if self.has(name) && !REPEATED.contains(&name) {
            return Err(self.failure(&format!("takes {word} once")));
        }
        let value = match (takes_value, value) {
            (true, value) => match value.or_else(|| words.next()) {
                Some(value) => Some(value),
                None => return Err(self.failure(&format!("wants something behind {word}"))),
            },
            (false, Some(_)) => {
                return Err(self.failure(&format!("takes {word} without a value")));
            }
            (false, None) => None,
        };
        self.options.push((name, value));
        Ok(())
    }

    /// Whether an option is there.
    pub fn has(&self, name: &str) -> bool {
        self.options.iter().any(|(option, _)| *option == name)
    }

    /// The value of an option.
    pub fn value(&self, name: &str) -> Option<OsString> {
        let mut options = self.options.iter();
        options.find(|(option, _)| *option == name)?.1.clone()
    }

    /// The values of an option, which are numbers.
    pub fn numbers<N: TryFrom<u32>>(&self, name: &str, what: &str) -> Result<Vec<N>, Failure> {
        let options = self.options.iter().filter(|(option, _)| *option == name);
        let values = options.filter_map(|(_, value)| value.as_ref());
        values.map(|word| self.to_number(what, word)).collect()
    }

    /// By which edition tables are cut: the first, unless another one is asked for.
    pub fn edition(&self) -> Result<Edition, Failure> {
        let Some(word) = self.value("--edition") else {
            return Ok(Edition::First);
        };
        let mut editions = Edition::ALL.into_iter();
        let named = editions.find(|edition| word == *edition.number().to_string());
        named.ok_or_else(|| {
            let word = shown_word(&word);
            self.failure(&format!(
                "wants the edition to be 1 or 2, and \"{word}\" is neither"
            ))
        })
    }

    /// What is written to standard output.
    pub fn form(&self) -> Result<Form, Failure> {
        match (self.has("--json"), self.has("--quiet")) {
            (false, false) => Ok(Form::Text),
            (true, false) => Ok(Form::Json),
            (false, true) => Ok(Form::Quiet),
            (true, true) => Err(self.failure("takes --json or --quiet, not both")),
        }
    }

    /// How many words are left that are no options.
    pub fn count(&self) -> usize {
        self.operands.len()
    }

    /// The next word that is no option, if there is one.
    pub fn optional(&mut self) -> Option<OsString> {
        self.operands.pop_front()
    }

    /// The next word that is no option.
    pub fn operand(&mut self, what: &str) -> Result<OsString, Failure> {
        let word = self.optional();
        word.ok_or_else(|| self.failure(&format!("wants {what}")))
    }

    /// The next word, which is a number.
    pub fn number<N: TryFrom<u32>>(&mut self, what: &str) -> Result<N, Failure> {
        let word = self.operand(what)?;
        self.to_number(what, &word)
    }

    /// The next word, if there is one; it is a number then.
    pub fn optional_number<N: TryFrom<u32>>(&mut self, what: &str) -> Result<Option<N>, Failure> {
        let word = self.optional();
        word.map(|word| self.to_number(what, &word)).transpose()
    }

    /// A number, in tens or, behind `0x`, in sixteens.
    fn to_number<N: TryFrom<u32>>(&self, what: &str, word: &OsString) -> Result<N, Failure> {
        let word = shown_word(word);
        let number = match word.strip_prefix("0x") {
            Some(digits) if !digits.starts_with('+') => u32::from_str_radix(digits, 16).ok(),
            _ => word.parse().ok(),
        };
        number
            .and_then(|number| N::try_from(number).ok())
            .ok_or_else(|| {
                let most = u32::MAX >> (32 - 8 * size_of::<N>() as u32);
                self.failure(&format!(
                    "wants {what} to be a number from 0 to {most}, and \"{word}\" is none"
                ))
            })
    }

    /// Refuses words that are left over.
    pub fn end(mut self) -> Result<(), Failure> {
        match self.optional() {
            None => Ok(()),
            Some(word) => {
                let word = shown_word(&word);
                Err(self.failure(&format!("has no use for the word \"{word}\"")))
            }
        }
    }

    /// A sentence about the command, and where to read more.
    pub fn failure(&self, what: &str) -> Failure {
        let command = self.command.word();
        Failure::Words(format!(
            "{command} {what}; \"splitter help {command}\" says how it is used"
        ))
    }
}
