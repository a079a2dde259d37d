//! The words of one line of the text form, taken one by one. A message says what
//! was found and what was expected.

use std::ops::RangeInclusive;

const LONGEST_QUOTE: usize = 32;

pub struct Words<'a> {
    rest: std::vec::IntoIter<&'a [u8]>,
}

impl<'a> Words<'a> {
    /// The words before a comment, whatever spacing is between them.
    pub fn of(line: &'a [u8]) -> Words<'a> {
        let text = line.split(|&byte| byte == b'#').next().unwrap_or_default();
        let words = text.split(u8::is_ascii_whitespace);
        let words: Vec<&[u8]> = words.filter(|word| !word.is_empty()).collect();
        Words {
            rest: words.into_iter(),
        }
    }

    pub fn take(&mut self) -> Option<&'a [u8]> {
        self.rest.next()
    }

    pub fn is_at_end(&self) -> bool {
        self.rest.as_slice().is_empty()
    }

    pub fn end(&mut self) -> Result<(), String> {
        match self.take() {
            None => Ok(()),
            word => Err(expected(word, "the end of the line")),
        }
    }

    /// A number that fits its bytes.
    pub fn number(&mut self, what: &str, range: RangeInclusive<i32>) -> Result<i32, String> {
        let word = self.take();
        let number = word.and_then(number_of);
        number
            .filter(|number| range.contains(number))
            .ok_or_else(|| {
                let (least, most) = range.into_inner();
                expected(word, &format!("{what}, a number from {least} to {most}"))
            })
    }

    /// One of several things by its letter.
    pub fn letter<T: Copy>(
        &mut self,
        things: &[T],
        letter: fn(T) -> char,
        what: &str,
    ) -> Result<T, String> {
        let word = self.take();
        let is_told = |thing: &&T| word == Some(letter(**thing).to_string().as_bytes());
        let thing = things.iter().find(is_told);
        thing.copied().ok_or_else(|| expected(word, what))
    }

    pub fn byte(&mut self, what: &str) -> Result<u8, String> {
        let number = self.number(what, 0..=i32::from(u8::MAX))?;
        Ok(number as u8)
    }
}

/// A decimal number, with no sign but a minus.
pub fn number_of(word: &[u8]) -> Option<i32> {
    let digits = word.strip_prefix(b"-").unwrap_or(word);
    if !digits.iter().all(u8::is_ascii_digit) {
        return None;
    }
    std::str::from_utf8(word).ok()?.parse().ok()
}

pub fn expected(word: Option<&[u8]>, what: &str) -> String {
    match word {
        Some(word) => format!("found {}, expected {what}", quoted(word)),
        None => format!("found the end of the line, expected {what}"),
    }
}

/// A word as it can be printed: no control bytes, and not too long.
pub fn quoted(word: &[u8]) -> String {
    let text = String::from_utf8_lossy(word);
    let mut shown = String::new();
    for letter in text.chars().take(LONGEST_QUOTE) {
        if letter.is_control() {
            shown.extend(letter.escape_default());
        } else {
            shown.push(letter);
        }
    }
    let more = text.chars().nth(LONGEST_QUOTE).map_or("", |_| "..");
    format!("`{shown}{more}`")
}
