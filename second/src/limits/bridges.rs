//! The numbers of a bridge around the ends of their ranges, in a list that is
//! chosen by the largest type, and bridges that just fit or do not fit a type.

use super::{named, NamedFile};
use crate::builder::FileBuilder;

const LISTS: [u8; 11] = [0, 1, 2, 63, 64, 126, 127, 128, 129, 254, 255];
const KINDS: [u8; 8] = [0, 1, 2, 3, 48, 127, 128, 255];
const NODES: [u8; 10] = [0, 1, 2, 30, 31, 32, 33, 127, 128, 255];
const LABELS: [u8; 11] = [0, 1, 2, 10, 11, 12, 13, 31, 32, 128, 255];

pub fn files() -> Vec<NamedFile> {
    let mut files = Vec::new();
    for list in LISTS {
        let file = chosen(31, 12, [list, 0, 0, 1]);
        files.push(named(format!("bridge-list-{list}"), file));
    }
    for kind in KINDS {
        let file = chosen(31, 12, [1, kind, 0, 1]);
        files.push(named(format!("bridge-kind-{kind}"), file));
    }
    for first in NODES {
        for second in NODES {
            let name = format!("bridge-nodes-{first}-{second}");
            files.push(named(name, chosen(31, 12, [1, 0, first, second])));
        }
        for label in LABELS {
            let name = format!("bridge-node-{first}-label-{label}");
            files.push(named(name, chosen(31, 12, [1, 1, first, label])));
        }
    }
    files.extend(fitting_files());
    files.extend(misfit_places());
    files
}

/// The bridge's list is the choice of the one instance, if there can be such a
/// list. Types up to the highest node, with the output in it.
fn chosen(highest: u8, labels: u8, bridge: [u8; 4]) -> FileBuilder {
    let choice = i8::try_from(bridge[0]).unwrap_or(0);
    let references = vec![1; usize::from(labels)];
    FileBuilder::inputs(1)
        .module(
            highest,
            highest,
            labels,
            &[(1, highest, &[0]), (highest, 0, &[0])],
        )
        .field(4, &bridge)
        .instance(1, choice, &references)
        .vectors(&["0", "1", "X"])
}

/// Nodes at and past the highest node 5, labels below and at the 3 labels.
fn fitting_files() -> Vec<NamedFile> {
    let mut files = Vec::new();
    for first in [0, 4, 5, 6, 31] {
        for second in [1, 3, 5, 6, 30] {
            if first != second {
                let name = format!("chosen-nodes-{first}-{second}-in-h5");
                files.push(named(name, chosen(5, 3, [7, 0, first, second])));
            }
        }
        for label in [0, 2, 3, 11] {
            let name = format!("chosen-node-{first}-label-{label}-in-h5-k3");
            files.push(named(name, chosen(5, 3, [7, 1, first, label])));
        }
    }
    files
}

/// A bridge that does not fit counts wherever it stands in the list, but only in
/// the chosen list and for the type that chose it.
fn misfit_places() -> Vec<NamedFile> {
    let with_lists = |lists: [u8; 4], misfit: usize| {
        let bridge = |file: FileBuilder, place: usize| {
            file.bridge(lists[place], 0, 0, if place == misfit { 3 } else { 2 })
        };
        (0..4).fold(FileBuilder::inputs(1).inverter().nand(), bridge)
    };
    let of_inverter = |file: FileBuilder| file.instance(1, 1, &[1]).vectors(&["0", "1"]);
    let mut files: Vec<NamedFile> = (0..4)
        .map(|misfit| {
            let name = format!("misfit-in-place-{}-of-4", misfit + 1);
            named(name, of_inverter(with_lists([1; 4], misfit)))
        })
        .collect();
    let other_list = with_lists([1, 2, 1, 1], 1);
    files.push(named("misfit-in-another-list", of_inverter(other_list)));
    let larger_first = with_lists([1; 4], 2).instance(2, 1, &[1, 1]);
    files.push(named(
        "misfit-for-the-second-instance",
        of_inverter(larger_first),
    ));
    files
}
