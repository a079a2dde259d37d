//! Each limit of the paper, at it and one past it, in the files that `limits`
//! lays for it.

mod support;

use second::builder::FileBuilder;
use second::grade::grade;
use second::refusal::Refusal;
use support::{limit_file, refusal, Accepted};

/// The file is accepted with the limit's count, and refused at its last part with one more.
fn check(name: &str, most: usize, number: u8, place: usize) {
    let refusal_with = |count: usize| refusal(&limit_file(&format!("{name}-{count}.cir")));
    assert_eq!(refusal_with(most - 1), None, "{name}");
    assert_eq!(refusal_with(most), None, "{name}");
    assert_eq!(refusal_with(most + 1), Some((number, place)), "{name}");
}

/// Counted by label, in fields of one label or of more. The single ones stand before
/// the groups, the last of which is refused as a whole.
#[test]
fn edges_256() {
    for group in 1..=4 {
        let refusal_with = |count: usize| {
            let name = format!("edges-{count}-by-{group}.cir");
            refusal(&limit_file(&name))
        };
        for count in [64, 65, 255, 256] {
            assert_eq!(refusal_with(count), None, "{count} by {group}");
        }
        let (singles, groups) = (257 % group, 257 / group - 1);
        let place = 11 + 6 * singles + (5 + group) * groups;
        assert_eq!(refusal_with(257), Some((6, place)), "257 by {group}");
    }
}

#[test]
fn types_16() {
    check("types", 16, 6, 5 + 16 * 18);
}

#[test]
fn bridges_256() {
    check("bridges", 256, 6, 23 + 256 * 7);
}

#[test]
fn instances_128() {
    check("instances", 128, 6, 23 + 128 * 7);
}

#[test]
fn vectors_256() {
    check("vectors", 256, 6, 30 + 256 * 4);
}

#[test]
fn faults_2048() {
    check("faults", 2_048, 13, 23 + 161 * 7 + 4 * 29);
    check("faults-exhaustive-last", 2_048, 13, 23 + 256 * 7 + 11 * 7);
    let file = limit_file("faults-2048.cir");
    let ask = |words: usize, classes: usize| grade(&file, words, classes).map(|_| ());
    let refused = |number: u8, place: usize| Err(Refusal { number, place });
    assert_eq!(ask(8_192, 2_048), Ok(()));
    assert_eq!(ask(8_191, 2_048), refused(15, 8_192));
    assert_eq!(ask(8_192, 2_047), refused(22, 2_048));
}

/// An accepted file cannot reach 57,344 bytes, so at the limit another number is
/// given, and one past it number 1.
#[test]
fn bytes_57344() {
    let file = limit_file("bytes-51429-fullest.cir");
    assert_eq!(file.len(), 51_429);
    assert_eq!(refusal(&file), None);
    let mut longer = file;
    longer.extend([6, 23, 24]);
    longer.resize(57_344, b'0');
    assert_eq!(refusal(&longer), Some((5, 51_429)));
    longer.push(b'0');
    assert_eq!(refusal(&longer), Some((1, 0)));
}

/// Around the limit that there once was, and further on.
#[test]
fn accepted_files_of_more_than_32768_bytes() {
    for length in [32_767, 32_768, 32_769, 32_770, 40_000, 47_000] {
        let file = limit_file(&format!("bytes-{length}-fewer-edges.cir"));
        assert_eq!((file.len(), refusal(&file)), (length, None));
    }
}

#[test]
fn inputs_64_and_nodes_31_and_labels_12() {
    let edges = [(1, 31, &[11u8][..]), (31, 0, &[11])];
    let file = FileBuilder::inputs(64).module(31, 31, 12, &edges);
    let graded = file
        .instance(1, -1, &[64; 12])
        .vectors(&["X".repeat(64).as_str()])
        .graded();
    assert_eq!(graded.rows.len(), 32 * 31 / 2 + 32 * 12);
}
