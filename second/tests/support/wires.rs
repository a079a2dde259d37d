//! The wires that rows join, by their names: ground, supply, an input, an output, an
//! inner node. The program ties points and names no wire, so this is another way to
//! the same classes.

use std::collections::{BTreeMap, BTreeSet};

use second::circuit::{Circuit, Kind};
use second::grade::{Graded, Row};

/// Inputs and instances are numbered from 1.
#[derive(Clone, Copy, Debug, PartialEq, Eq, PartialOrd, Ord)]
pub enum Wire {
    Ground,
    Supply,
    Input(i16),
    Output(usize),
    Inner(usize, u8),
}

/// One wire, if both ends are on it, or two.
pub fn wires_of(circuit: &Circuit, row: &Row) -> BTreeSet<Wire> {
    let instance = &circuit.instances[row.instance - 1];
    let output = circuit.type_of(instance).output;
    let of_node = |node: u8| match node {
        0 => Wire::Ground,
        1 => Wire::Supply,
        _ if node == output => Wire::Output(row.instance),
        _ => Wire::Inner(row.instance, node),
    };
    let of_label = |label: u8| match instance.references[usize::from(label)] {
        input @ 1.. => Wire::Input(input),
        driver => Wire::Output(usize::from(driver.unsigned_abs())),
    };
    let second = match row.bridge.kind {
        Kind::Nodes => of_node(row.bridge.second),
        Kind::Label => of_label(row.bridge.second),
    };
    BTreeSet::from([of_node(row.bridge.first), second])
}

/// The rows of each class, in class order.
pub fn rows_by_class(graded: &Graded) -> Vec<Vec<&Row>> {
    let mut classes = vec![Vec::new(); usize::from(graded.classes)];
    for row in &graded.rows {
        classes[usize::from(row.class) - 1].push(row);
    }
    classes
}

/// The class numbers are those of the wires by name, numbered at their first rows.
/// A bridge joins two wires, not one with itself: no label of an instance is on the
/// wire of a node of it.
pub fn check_classes(circuit: &Circuit, graded: &Graded) {
    let mut numbers = BTreeMap::new();
    for row in &graded.rows {
        let wires = wires_of(circuit, row);
        assert_eq!(wires.len(), 2, "{row:?}");
        let next = numbers.len() + 1;
        let number = *numbers.entry(wires).or_insert(next);
        assert_eq!(usize::from(row.class), number, "{row:?}");
    }
    assert_eq!(usize::from(graded.classes), numbers.len());
    for rows in rows_by_class(graded) {
        check_class(&wires_of(circuit, rows[0]), &rows);
    }
}

/// The rows of one class have equal marks. If they are of two instances, a rail is
/// one of the wires. Those of kind 0 are of one instance and before the others,
/// since a driver comes before what it feeds; only 0-1 is in any instance.
fn check_class(wires: &BTreeSet<Wire>, rows: &[&Row]) {
    let first = rows[0];
    assert!(rows.iter().all(|row| row.marks == first.marks), "{rows:?}");
    let rails = wires.iter().filter(|&&wire| wire <= Wire::Supply).count();
    let is_of_first = |row: &&Row| row.instance == first.instance;
    assert!(rails > 0 || rows.iter().all(is_of_first), "{rows:?}");
    assert!(
        rows.is_sorted_by_key(|row| row.bridge.kind.byte()),
        "{rows:?}"
    );
    let mut of_nodes = rows.iter().filter(|row| row.bridge.kind == Kind::Nodes);
    assert!(rails == 2 || of_nodes.all(is_of_first), "{rows:?}");
}
