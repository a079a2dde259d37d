//! Every byte as the one byte of a vector, and as the last of 64.

use super::{named, NamedFile};
use crate::builder::FileBuilder;

pub fn files() -> Vec<NamedFile> {
    let mut files = Vec::new();
    for byte in 0..=255 {
        let file = of_vector(&[byte]);
        files.push(named(format!("vector-byte-{byte}"), file));
        let mut long = [b'0'; 64];
        long[63] = byte;
        let name = format!("vector-byte-{byte}-last-of-64");
        files.push(named(name, of_vector(&long)));
    }
    files
}

/// The instance takes the last input.
fn of_vector(vector: &[u8]) -> FileBuilder {
    let inputs = vector.len() as u16;
    FileBuilder::inputs(inputs)
        .inverter()
        .instance(1, -1, &[inputs as i16])
        .field(6, vector)
}
