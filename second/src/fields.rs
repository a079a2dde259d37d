//! Cutting the bytes of a file into fields: a tag byte, a two-byte length with
//! its high byte first, then the body. A field cut short is refusal 2.

use crate::format::HEAD;
use crate::refusal::{refuse_if, Refusal};

#[derive(Clone, Copy, Debug)]
pub struct Field<'a> {
    pub place: usize,
    pub tag: u8,
    pub body: &'a [u8],
}

impl Field<'_> {
    pub fn end(&self) -> usize {
        self.place + HEAD + self.body.len()
    }
}

pub fn cut(bytes: &[u8], place: usize) -> Result<Field<'_>, Refusal> {
    let left = bytes.len() - place;
    refuse_if(left < HEAD, 2, place)?;
    let length = usize::from(u16::from_be_bytes([bytes[place + 1], bytes[place + 2]]));
    refuse_if(left - HEAD < length, 2, place)?;
    let body = place + HEAD;
    Ok(Field {
        place,
        tag: bytes[place],
        body: &bytes[body..body + length],
    })
}
