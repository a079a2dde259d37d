//! A series of every length from either rail: its edges in both orders under each letter,
//! and the one vector that turns it on in the first, the last and neighbouring places.

use super::{named, output_of, with_chain, NamedFile, Rail, LONGEST, ORDERS, RAILS};
use crate::builder::FileBuilder;

/// The place of the vector, and of how many.
const PLACES: [[usize; 2]; 5] = [[1, 256], [64, 64], [64, 65], [65, 65], [256, 256]];

pub fn files() -> Vec<NamedFile> {
    let mut files = Vec::new();
    for rail in RAILS {
        for length in 1..=LONGEST {
            files.extend(under_each_letter(rail, length));
            files.extend(PLACES.map(|[place, count]| in_place(rail, length, place, count)));
        }
    }
    files
}

fn chain_name(rail: Rail, length: u8) -> String {
    format!("rounds-chain-{length}-from-{}", rail.name)
}

fn under_each_letter(rail: Rail, length: u8) -> Vec<NamedFile> {
    let mut files = Vec::new();
    for order in ORDERS {
        for letter in ["0", "1", "X"] {
            let file = with_chain(FileBuilder::inputs(1), rail, length, order);
            let file = file.instance(1, -1, &[1]).vectors(&[letter]);
            let (name, letter) = (chain_name(rail, length), letter.to_lowercase());
            files.push(named(format!("{name}-{order}-under-{letter}"), file));
        }
    }
    files
}

/// The other vectors are in turn not known and the one that turns on the other rail's edge.
fn in_place(rail: Rail, length: u8, place: usize, count: usize) -> NamedFile {
    let other = RAILS[usize::from(1 - rail.node)].on;
    let letter = |at: usize| match at % 2 {
        _ if at == place => rail.on,
        0 => "X",
        _ => other,
    };
    let vectors: Vec<&str> = (1..=count).map(letter).collect();
    let file = with_chain(FileBuilder::inputs(1), rail, length, "outward")
        .bridge(1, 0, 0, output_of(rail, length))
        .instance(1, 1, &[1])
        .vectors(&vectors);
    let name = chain_name(rail, length);
    named(format!("{name}-in-place-{place}-of-{count}"), file)
}
