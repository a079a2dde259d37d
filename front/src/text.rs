//! The text form, a field for each line, read into the bytes of a circuit file.
//! It does not judge the circuit: order, ranges and counts are left to the grader.

use second::bodies::value_of;
use second::circuit::{Channel, Kind};
use second::format::Tag;
use second::write::{bytes_of, LooseField};

use crate::words::{expected, number_of, Words};

/// What is wrong in a line. Lines count from 1.
#[derive(Clone, Debug, PartialEq, Eq)]
pub struct Slip {
    pub line: usize,
    pub message: String,
}

/// The circuit file, or every line that cannot be read.
pub fn make(text: &[u8]) -> Result<Vec<u8>, Vec<Slip>> {
    if let Some(place) = text.iter().position(|&byte| byte == 0) {
        return Err(vec![no_text(&text[..place])]);
    }
    let mut counts = Counts::default();
    let mut fields = Vec::new();
    let mut slips = Vec::new();
    for (index, line) in text.split(|&byte| byte == b'\n').enumerate() {
        match counts.field_of(Words::of(line)) {
            Ok(field) => fields.extend(field),
            Err(message) => slips.push(Slip {
                line: index + 1,
                message,
            }),
        }
    }
    if slips.is_empty() {
        Ok(bytes_of(&fields))
    } else {
        Err(slips)
    }
}

/// The number of the latest type, instance and vector.
#[derive(Default)]
struct Counts {
    types: i32,
    instances: i32,
    vectors: i32,
}

impl Counts {
    /// The field of a line; a line without words has none.
    fn field_of(&mut self, mut words: Words) -> Result<Option<LooseField>, String> {
        let Some(word) = words.take() else {
            return Ok(None);
        };
        let tag = Tag::of_word(word).ok_or_else(|| no_such_line(word))?;
        let body = match tag {
            Tag::Inputs => inputs(&mut words)?,
            Tag::Type => self.module(&mut words)?,
            Tag::Edge => edge(&mut words)?,
            Tag::Bridge => bridge(&mut words)?,
            Tag::Instance => self.instance(&mut words)?,
            Tag::Vector => self.vector(&mut words)?,
            Tag::Pass => pass(&mut words)?,
        };
        words.end()?;
        if body.len() > usize::from(u16::MAX) {
            let length = body.len();
            return Err(format!(
                "found a field of {length} bytes, expected at most 65535"
            ));
        }
        Ok(Some(LooseField::new(tag, body)))
    }

    fn module(&mut self, words: &mut Words) -> Result<Vec<u8>, String> {
        next_number(words, &mut self.types, Tag::Type)?;
        Ok(vec![
            words.byte("the highest node h")?,
            words.byte("the output node o")?,
            words.byte("the number of labels k")?,
        ])
    }

    fn instance(&mut self, words: &mut Words) -> Result<Vec<u8>, String> {
        next_number(words, &mut self.instances, Tag::Instance)?;
        let module = words.byte("the number of a type")?;
        let choice = words.number("the list choice", -128..=127)?;
        let mut body = vec![module, choice as i8 as u8];
        loop {
            let reference = words.number("a reference", -32768..=32767)?;
            body.extend_from_slice(&(reference as i16).to_be_bytes());
            if words.is_at_end() {
                return Ok(body);
            }
        }
    }

    /// The letters may stand apart, for vectors of many inputs.
    fn vector(&mut self, words: &mut Words) -> Result<Vec<u8>, String> {
        next_number(words, &mut self.vectors, Tag::Vector)?;
        let mut body = Vec::new();
        loop {
            let word = words.take();
            let letters = word.filter(|word| word.iter().all(|&letter| value_of(letter).is_some()));
            let what = "letters `0`, `1` or `X`, one for each input";
            body.extend_from_slice(letters.ok_or_else(|| expected(word, what))?);
            if words.is_at_end() {
                return Ok(body);
            }
        }
    }
}

/// Takes the number of a line that is numbered. A wrong one is told once: those
/// after it are counted from it.
fn next_number(words: &mut Words, latest: &mut i32, tag: Tag) -> Result<(), String> {
    let next = latest.saturating_add(1);
    let word = words.take();
    let number = word.and_then(number_of);
    *latest = number.unwrap_or(next);
    if number == Some(next) {
        return Ok(());
    }
    let what = format!("`{next}`, the number of the next {}", tag.word());
    Err(expected(word, &what))
}

fn inputs(words: &mut Words) -> Result<Vec<u8>, String> {
    let count = words.number("the number of primary inputs", 0..=65535)?;
    Ok((count as u16).to_be_bytes().to_vec())
}

/// Several labels are several edges in one field, as in old files.
fn edge(words: &mut Words) -> Result<Vec<u8>, String> {
    let mut body = vec![words.byte("a node")?, words.byte("a second node")?];
    loop {
        body.push(words.byte("a label")?);
        if words.is_at_end() {
            return Ok(body);
        }
    }
}

fn pass(words: &mut Words) -> Result<Vec<u8>, String> {
    let (first, second) = (words.byte("a node")?, words.byte("a second node")?);
    let what = "the channel, `n` or `p`";
    let channel = words.letter(&Channel::ALL, Channel::letter, what)?;
    let label = words.byte("a label")?;
    Ok(vec![first, second, channel.byte(), label])
}

fn bridge(words: &mut Words) -> Result<Vec<u8>, String> {
    let list = words.byte("the number of a list")?;
    let what = "`n` for two nodes or `i` for a node and a label";
    let kind = words.letter(&Kind::ALL, Kind::letter, what)?;
    let first = words.byte("a node")?;
    let second = words.byte(match kind {
        Kind::Nodes => "a second node",
        Kind::Label => "a label",
    })?;
    Ok(vec![list, kind.byte(), first, second])
}

/// Every circuit file has a byte 0, and no text does.
fn no_text(before: &[u8]) -> Slip {
    let message = "found a byte 0, expected text (circuit files are for `grade` and `show`)";
    Slip {
        line: before.split(|&byte| byte == b'\n').count(),
        message: message.to_string(),
    }
}

fn no_such_line(word: &[u8]) -> String {
    let words = Tag::ALL.map(|tag| format!("`{}`", tag.word()));
    let names = match &words[..] {
        [most @ .., last] => format!("{} or {last}", most.join(", ")),
        [] => String::new(),
    };
    let hint = match word {
        b"refused" => " (`show` ends a refused file so: the text is no whole circuit)",
        b"==>" => " (`make` reads the text of one file)",
        _ => "",
    };
    expected(Some(word), &names) + hint
}
