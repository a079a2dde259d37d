//! An old file's grouped field is one edge for each label, in order: the file with a
//! field for each edge is the same circuit, with the same marks, classes and counts.

use second::builder::{FileBuilder, NOR};
use second::limits::limit_files;
use second::make::made_file;
use second::read::read;
use second::report::report_of;
use second::samples::sample_files;
use second::show::show_of;
use second::starts::nand_under;
use second::write::{bytes_of, fields_of};

/// The file with each grouped field as fields of one label.
fn ungrouped(bytes: &[u8]) -> Vec<u8> {
    let mut single = Vec::new();
    let mut rest = bytes;
    while let [tag, high, low, ..] = *rest {
        let length = 256 * usize::from(high) + usize::from(low);
        let (field, after) = rest.split_at(3 + length);
        if tag == 3 {
            for &label in &field[5..] {
                single.extend([3, 0, 3, field[3], field[4], label]);
            }
        } else {
            single.extend(field);
        }
        rest = after;
    }
    single
}

#[test]
fn a_nand_by_one_field_or_by_two() {
    let single = nand_under(&["00", "01", "10", "11", "0X", "1X", "XX"]);
    let grouped = FileBuilder::inputs(2)
        .field(2, &[3, 2, 2])
        .field(3, &[1, 2, 0, 1])
        .field(3, &[2, 3, 0])
        .field(3, &[3, 0, 1])
        .instance(1, -1, &[1, 2])
        .vectors(&["00", "01", "10", "11", "0X", "1X", "XX"]);
    assert_eq!(single.end(), grouped.end() + 5);
    assert_eq!(read(&single.bytes), read(&grouped.bytes));
    assert_eq!(report_of(&single.bytes), report_of(&grouped.bytes));
}

/// A repeated label is an edge each time. The type is an inverter of label 0, which
/// opens and closes nodes 1 to 3 at once.
#[test]
fn edges_in_the_order_of_the_labels() {
    let file = FileBuilder::inputs(1)
        .module(3, 3, 3, &[NOR[0], (2, 3, &[2, 0, 1, 0]), (3, 0, &[0])])
        .instance(1, 0, &[1, 1, 1])
        .vectors(&["0"]);
    let edges = read(&file.bytes).map(|circuit| circuit.types[0].edges.clone());
    let told: Vec<([u8; 2], u8)> = edges
        .expect("the type is complementary")
        .iter()
        .map(|edge| (edge.ends, edge.label))
        .collect();
    let between = [2, 0, 1, 0].map(|label| ([2, 3], label));
    let wanted = [&[([1, 2], 0)][..], &between, &[([3, 0], 0)]].concat();
    assert_eq!(told, wanted);
}

/// Each label is an edge of its own in a refused file's listing too.
#[test]
fn listed_up_to_a_refusal() {
    let file = FileBuilder::inputs(2).grouped_nand().raw(&[9]);
    let shown = "inputs 2\ntype 1 3 2 2\nedge 1 2 0\nedge 1 2 1\nedge 2 3 0\nedge 3 0 1\n";
    assert_eq!(show_of(&file.bytes), format!("{shown}refused 2 at 30\n"));
}

/// The circuit, its listing and its report are those of the file without groups, which
/// is also what is written of the circuit: each edge under its tag.
#[test]
fn accepted_files_with_and_without_groups() {
    let limits = limit_files().into_iter().map(|file| file.bytes);
    let accepted = limits.filter(|bytes| read(bytes).is_ok());
    let samples = sample_files().into_iter().map(|file| file.bytes);
    let made = (0..200).map(|index| made_file(11, index));
    let mut grouped = 0;
    for bytes in accepted.chain(samples).chain(made) {
        let single = ungrouped(&bytes);
        let circuit = read(&bytes).expect("these files are accepted");
        assert!(bytes_of(&fields_of(&circuit)) == single);
        if single != bytes {
            assert_eq!(read(&single), read(&bytes));
            assert_eq!(show_of(&single), show_of(&bytes));
            assert_eq!(report_of(&single), report_of(&bytes));
            grouped += 1;
        }
    }
    assert!(grouped > 200, "{grouped}");
}
