//! Files of 57,344 bytes, of one more, and far longer; accepted files around 32,768
//! bytes, which once was the limit, and up to the longest there can be. No accepted
//! file has 57,344 bytes, so at the limit another number is given.

use super::{named, NamedFile};
use crate::builder::{FileBuilder, N, P};
use crate::starts::inverter_file;

/// 65,578 is 42 more than two bytes hold, as the inverter's file is long.
const LENGTHS: [usize; 12] = [
    32_767, 32_768, 32_769, 57_343, 57_344, 57_345, 57_346, 65_535, 65_536, 65_578, 131_114,
    1_000_000,
];

const GOOD_LENGTHS: [usize; 6] = [32_767, 32_768, 32_769, 32_770, 40_000, 47_000];

/// The labels in each edge field of a type.
type Sizes<'a> = &'a [usize];

pub fn files() -> Vec<NamedFile> {
    let mut files = vec![
        named("bytes-51429-fullest", fullest()),
        named("bytes-47333-fullest-by-1", filled(&[&[1; 256][..]; 16])),
        named("bytes-31973-fullest-by-4", filled(&[&[4; 64][..]; 16])),
    ];
    for length in GOOD_LENGTHS {
        let name = format!("bytes-{length}-fewer-edges");
        files.push(named(name, with_fewer_edges(length)));
    }
    for length in LENGTHS {
        let zeros = inverter_file().resized(length);
        let junk = FileBuilder::default().raw(&vec![255; length]);
        files.push(named(format!("bytes-{length}-inverter-then-zeros"), zeros));
        files.push(named(format!("bytes-{length}-all-255"), junk));
    }
    for length in 57_343..=57_346 {
        let name = format!("bytes-{length}-fullest-then-long-vector");
        files.push(named(name, with_long_vector(length, 0)));
        let name = format!("bytes-{length}-fullest-then-cut-vector");
        files.push(named(name, with_long_vector(length, 1)));
    }
    files
}

/// After the types, as much as there may be.
fn with_rest(types: FileBuilder) -> FileBuilder {
    let vector = "10X1".repeat(16);
    types
        .times(256, |file| file.bridge(1, 0, 0, 1))
        .times(128, |file| file.instance(16, 0, &[64; 12]))
        .times(256, |file| file.vectors(&[vector.as_str()]))
}

/// All but the edges at the limit. Those of a type lead from supply and to ground in turn.
fn filled(types: &[Sizes]) -> FileBuilder {
    let types = types.iter().copied();
    with_rest(types.fold(FileBuilder::inputs(64), with_type))
}

fn with_type(file: FileBuilder, sizes: Sizes) -> FileBuilder {
    let ends = [[1, 31], [31, 0]].into_iter().cycle();
    let edges = sizes.iter().zip(ends);
    edges.fold(file.field(2, &[31, 31, 12]), |file, (&size, ends)| {
        file.field(3, &[&ends[..], &vec![0; size]].concat())
    })
}

/// The fullest file that the other limits allow: 51,429 bytes. A pass transistor takes 7
/// bytes, more than an edge of tag 3 can.
fn fullest() -> FileBuilder {
    let with_passes = |file: FileBuilder| {
        let file = file.field(2, &[31, 31, 12]);
        file.times(128, |file| file.pass(1, 31, P, 11).pass(31, 0, N, 11))
    };
    with_rest(FileBuilder::inputs(64).times(16, with_passes))
}

/// A field of one label takes 6 bytes, one of two labels 7.
fn with_fewer_edges(length: usize) -> FileBuilder {
    let bytes = length - filled(&[&[][..]; 16]).end();
    let mut sizes = vec![1; bytes / 6];
    sizes[..bytes % 6].fill(2);
    let types: Vec<Sizes> = sizes.chunks(sizes.len().div_ceil(16)).collect();
    filled(&types)
}

/// One vector to the end of the file, which states `missing` bytes more.
fn with_long_vector(length: usize, missing: usize) -> FileBuilder {
    let body = length - fullest().end() - 3;
    let stated = ((body + missing) as u16).to_be_bytes();
    let head = [6, stated[0], stated[1]];
    fullest().raw(&head).raw(&vec![b'0'; body])
}
