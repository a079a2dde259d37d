//! Wires with wrong numbers, or pairs of them packed too tightly, as slips that the
//! files with neighbouring wires are laid for: each shows in the class numbers.

use std::collections::BTreeMap;

use second::circuit::{Circuit, Kind};
use second::grade::Row;

use crate::support::wires::{wires_of, Wire};
use crate::wires::{files, File};

/// A number for a wire, in which all differ.
fn number(wire: Wire) -> usize {
    match wire {
        Wire::Ground => 0,
        Wire::Supply => 1,
        Wire::Input(input) => 1 + input as usize,
        Wire::Output(instance) => 65 + instance,
        Wire::Inner(instance, node) => 162 + 30 * instance + usize::from(node),
    }
}

/// A row told by numbers of its wires, packed into one.
type Packing = fn(&Circuit, &Row) -> usize;

fn packed(circuit: &Circuit, row: &Row, number: fn(Wire) -> usize, times: usize) -> usize {
    let wires = wires_of(circuit, row).into_iter();
    wires.fold(0, |sum, wire| sum * times + number(wire))
}

const MUCH: usize = 1 << 20;

/// Each takes some wires, or pairs of them, for one, or one pair for two.
const WRONG: &[(&str, Packing)] = &[
    ("output 1 as input 64", |circuit, row| {
        let number = |wire| match wire {
            Wire::Output(instance) => 64 + instance,
            _ => number(wire),
        };
        packed(circuit, row, number, MUCH)
    }),
    ("inputs in 6 bits", |circuit, row| {
        let number = |wire| match wire {
            Wire::Input(input) => 1 + input as usize % 64,
            _ => number(wire),
        };
        packed(circuit, row, number, MUCH)
    }),
    ("outputs in 7 bits", |circuit, row| {
        let number = |wire| match wire {
            Wire::Output(instance) => 65 + instance % 128,
            _ => number(wire),
        };
        packed(circuit, row, number, MUCH)
    }),
    ("29 nodes in an instance", |circuit, row| {
        let number = |wire| match wire {
            Wire::Inner(instance, node) => 200 + 29 * instance + usize::from(node),
            _ => number(wire),
        };
        packed(circuit, row, number, MUCH)
    }),
    ("nodes from the last output on", |circuit, row| {
        let number = |wire| match wire {
            Wire::Inner(..) => number(wire) - 1,
            _ => number(wire),
        };
        packed(circuit, row, number, MUCH)
    }),
    ("wires in 11 bits", |circuit, row| {
        packed(circuit, row, |wire| number(wire) % 2_048, MUCH)
    }),
    ("pairs by 11 bits", |circuit, row| {
        packed(circuit, row, number, 2_048)
    }),
    ("pairs in 24 bits", |circuit, row| {
        packed(circuit, row, number, 8_192) % (1 << 24)
    }),
    ("sums", |circuit, row| packed(circuit, row, number, 1)),
    ("kinds apart", |circuit, row| {
        let is_label = row.bridge.kind == Kind::Label;
        2 * packed(circuit, row, number, MUCH) + usize::from(is_label)
    }),
    ("instances apart", |circuit, row| {
        256 * packed(circuit, row, number, MUCH) + row.instance
    }),
];

/// Whether the rows have the classes that this packing would give.
fn agrees(file: &File, packing: Packing) -> bool {
    let mut numbers = BTreeMap::new();
    file.graded.rows.iter().all(|row| {
        let next = numbers.len() + 1;
        let key = packing(&file.circuit, row);
        usize::from(row.class) == *numbers.entry(key).or_insert(next)
    })
}

#[test]
fn wrong_numbers_of_wires_show() {
    let files = files();
    let right = |circuit: &Circuit, row: &Row| packed(circuit, row, number, MUCH);
    assert!(files.iter().all(|file| agrees(file, right)));
    for &(name, packing) in WRONG {
        assert!(!files.iter().all(|file| agrees(file, packing)), "{name}");
    }
}
