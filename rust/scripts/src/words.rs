//! A script line as words.

use std::iter::Peekable;
use std::str::{FromStr, SplitWhitespace};

/// The words of a line that are left.
pub struct Words<'a> {
    line: &'a str,
    rest: Peekable<SplitWhitespace<'a>>,
}

impl<'a> Words<'a> {
    pub fn of(line: &'a str) -> Words<'a> {
        Words {
            line,
            rest: line.split_whitespace().peekable(),
        }
    }

    pub fn wrong<T>(&self, what: &str) -> Result<T, String> {
        Err(format!("{what}: {}", self.line))
    }

    pub fn word(&mut self) -> Result<&'a str, String> {
        match self.rest.next() {
            Some(word) => Ok(word),
            None => self.wrong("a word is missing"),
        }
    }

    /// The next word is this one.
    pub fn skip(&mut self, word: &str) -> Result<(), String> {
        if self.word()? == word {
            Ok(())
        } else {
            self.wrong(word)
        }
    }

    /// Whether the next word is this one; then it is skipped.
    pub fn skipped(&mut self, word: &str) -> bool {
        self.rest.next_if_eq(&word).is_some()
    }

    pub fn number<T: FromStr>(&mut self) -> Result<T, String> {
        match self.word()?.parse() {
            Ok(number) => Ok(number),
            Err(_) => self.wrong("not a number that fits"),
        }
    }

    /// `192.0.2.1`
    pub fn address(&mut self) -> Result<[u8; 4], String> {
        let parts: Result<Vec<u8>, _> = self.word()?.split('.').map(u8::from_str).collect();
        match parts.map(<[u8; 4]>::try_from) {
            Ok(Ok(address)) => Ok(address),
            _ => self.wrong("not an address"),
        }
    }

    /// Words in hexadecimal, and `then c0 up to 264` for one byte over and
    /// over until there are so many.
    pub fn bytes(&mut self) -> Result<Vec<u8>, String> {
        let mut bytes = Vec::new();
        while let Some(word) = self.rest.next_if(|word| is_hex(word)) {
            for at in (0..word.len()).step_by(2) {
                bytes.push(self.hex(&word[at..at + 2])?);
            }
        }
        if self.skipped("then") {
            let word = self.word()?;
            let byte = self.hex(word)?;
            self.skip("up")?;
            self.skip("to")?;
            bytes.resize(self.number()?, byte);
        }
        Ok(bytes)
    }

    fn hex(&self, digits: &str) -> Result<u8, String> {
        u8::from_str_radix(digits, 16).or_else(|_| self.wrong("not a byte"))
    }
}

fn is_hex(word: &str) -> bool {
    word.len() % 2 == 0 && word.bytes().all(|byte| byte.is_ascii_hexdigit())
}
