//! The words of a line, taken one after the other.

use super::{OPTIONS, REASONS};
use crate::codes::NO_NOTIFICATION;

/// The words of a line that are still to be read.
pub struct Words<'a> {
    pub left: Vec<&'a str>,
}

impl<'a> Words<'a> {
    pub fn of(content: &'a str) -> Words<'a> {
        Words {
            left: content.split_whitespace().collect(),
        }
    }

    pub fn next_is(&self, word: &str) -> bool {
        self.left.first() == Some(&word)
    }

    /// The error for the next word.
    pub fn expected<T>(&self, what: &str) -> Result<T, String> {
        match self.left.first() {
            Some(found) => Err(format!("expected {what}, found `{found}`")),
            None => Err(format!("expected {what}, found the end of the line")),
        }
    }

    pub fn word(&mut self, word: &str) -> Result<(), String> {
        if !self.next_is(word) {
            return self.expected(&format!("`{word}`"));
        }
        self.left.remove(0);
        Ok(())
    }

    /// The place of the next word among the given ones; "" cannot be met.
    pub fn choice(&mut self, words: &[&str]) -> Option<u8> {
        let found = self.left.first()?;
        let at = words.iter().position(|word| word == found)?;
        self.left.remove(0);
        Some(at as u8)
    }

    pub fn value(&mut self, low: u64, high: u64) -> Result<u64, String> {
        let digits = self.left.first().filter(|word| is_digits(word));
        match digits.and_then(|word| word.parse().ok()) {
            Some(value) if low <= value && value <= high => {
                self.left.remove(0);
                Ok(value)
            }
            _ => self.expected(&format!("a number from {low} to {high}")),
        }
    }

    /// A key and its value.
    pub fn keyed(&mut self, key: &str, low: u64, high: u64) -> Result<u64, String> {
        self.word(key)?;
        self.value(low, high)
    }

    pub fn party(&mut self) -> Result<u16, String> {
        Ok(self.value(1, 65_535)? as u16)
    }

    /// A key and a number, or 0 if the key is not there.
    pub fn party_or_none(&mut self, key: &str) -> Result<u16, String> {
        if !self.next_is(key) {
            return Ok(0);
        }
        self.word(key)?;
        self.party()
    }

    /// A reason from `low` on.
    pub fn reason(&mut self, low: usize) -> Result<u8, String> {
        match self.choice(&REASONS[low..]) {
            Some(at) => Ok(at + low as u8),
            None => self.expected(&format!("one of {}", REASONS[low..].join(", "))),
        }
    }

    pub fn option(&mut self) -> u8 {
        self.choice(&OPTIONS).unwrap_or(NO_NOTIFICATION)
    }

    pub fn end(&self) -> Result<(), String> {
        match self.left.is_empty() {
            true => Ok(()),
            false => self.expected("the end of the line"),
        }
    }
}

fn is_digits(word: &str) -> bool {
    word.bytes().all(|byte| byte.is_ascii_digit())
}
