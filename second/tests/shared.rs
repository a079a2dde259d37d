//! Classes over made circuits: they are those of the wires by name, laws of shared
//! wires hold, and many made circuits have wires that instances share.

mod support;

use std::collections::{BTreeMap, BTreeSet};

use second::circuit::{Circuit, Kind};
use second::conduction::SUPPLY;
use second::grade::{Graded, Row};
use second::make::made_circuit;
use second::write::{bytes_of, fields_of};
use support::answer;
use support::wires::{check_classes, rows_by_class};

const SEED: u64 = 20;
const MADE: u64 = 320;

fn made() -> impl Iterator<Item = (Circuit, Graded)> {
    (0..MADE).map(|index| {
        let circuit = made_circuit(SEED, index);
        let graded = answer(&bytes_of(&fields_of(&circuit)));
        (circuit, graded.expect("made circuits are accepted"))
    })
}

#[test]
fn classes_are_those_of_the_wires() {
    for (circuit, graded) in made() {
        check_classes(&circuit, &graded);
    }
}

/// The row as its instance alone tells it apart: the kind, and the two nodes in
/// either order or the node and the label's reference.
fn seen_from_its_instance(circuit: &Circuit, row: &Row) -> (usize, char, BTreeSet<i16>, i16) {
    let references = &circuit.instances[row.instance - 1].references;
    let [first, second] = [row.bridge.first, row.bridge.second].map(i16::from);
    let (nodes, reference) = match row.bridge.kind {
        Kind::Nodes => (BTreeSet::from([first, second]), 0),
        Kind::Label => (BTreeSet::from([first]), references[second as usize]),
    };
    (row.instance, row.bridge.kind.letter(), nodes, reference)
}

/// What is one short already inside an instance is one class, and so there are no
/// more classes than such shorts.
#[test]
fn shorts_inside_an_instance_are_not_parted() {
    let mut fewer = 0;
    for (circuit, graded) in made() {
        let mut classes = BTreeMap::new();
        for row in &graded.rows {
            let seen = seen_from_its_instance(&circuit, row);
            assert_eq!(*classes.entry(seen).or_insert(row.class), row.class);
        }
        let count = usize::from(graded.classes);
        assert!(count <= classes.len());
        fewer += u64::from(count < classes.len());
    }
    assert!(fewer > MADE / 2, "{fewer}");
}

fn is_of_two_instances(rows: &[&Row]) -> bool {
    rows.iter().any(|row| row.instance != rows[0].instance)
}

fn is_of_both_kinds(rows: &[&Row]) -> bool {
    let kind = rows[0].bridge.kind;
    rows.iter().any(|row| row.bridge.kind != kind)
}

/// Of two instances, neither of which is the driver.
fn is_at_labels_alone(rows: &[&Row]) -> bool {
    let is_label = |row: &&Row| row.bridge.kind == Kind::Label;
    is_of_two_instances(rows) && rows.iter().all(is_label)
}

fn is_found_in_both_kinds(rows: &[&Row]) -> bool {
    is_of_both_kinds(rows) && rows[0].marks.contains(&true)
}

/// Where too few circuits have such classes, a comparison would be blind to them.
#[test]
fn many_made_circuits_share_wires() {
    let sought: [fn(&[&Row]) -> bool; 4] = [
        is_of_two_instances,
        is_of_both_kinds,
        is_at_labels_alone,
        is_found_in_both_kinds,
    ];
    let mut counts = [0; 4];
    for (_, graded) in made() {
        let classes = rows_by_class(&graded);
        for (count, holds) in counts.iter_mut().zip(sought) {
            *count += u64::from(classes.iter().any(|rows| holds(rows)));
        }
    }
    assert!(counts[0] > MADE / 2, "{counts:?}");
    assert!(
        counts[1..].iter().all(|&count| count > MADE / 3),
        "{counts:?}"
    );
}

/// docs/REPORT.md says so: a class with rows of two instances is a short to a rail,
/// and one with rows of both kinds joins a rail to the output of an instance.
#[test]
fn shared_shorts_are_to_a_rail() {
    for (circuit, graded) in made() {
        let output = |row: &Row| circuit.type_of(&circuit.instances[row.instance - 1]).output;
        let ends = |row: &Row| BTreeSet::from([row.bridge.first, row.bridge.second]);
        for rows in rows_by_class(&graded) {
            let is_to_rail = |row: &&Row| match row.bridge.kind {
                Kind::Nodes => ends(row).iter().any(|&node| node <= SUPPLY),
                Kind::Label => row.bridge.first <= SUPPLY,
            };
            assert!(!is_of_two_instances(&rows) || rows.iter().all(is_to_rail));
            let is_at_output = |row: &&Row| match row.bridge.kind {
                Kind::Nodes => ends(row).contains(&output(row)),
                Kind::Label => true,
            };
            assert!(!is_of_both_kinds(&rows) || is_of_two_instances(&rows));
            assert!(!is_of_both_kinds(&rows) || rows.iter().all(is_at_output));
        }
    }
}
