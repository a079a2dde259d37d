//! What `show` prints: the inverter byte for byte, a file with every kind of
//! line, and refused files up to their refusal.

use second::builder::FileBuilder;
use second::make::made_file;
use second::report::report_of;
use second::show::show_of;
use second::starts::{every_kind_file, inverter_file, with_type};

const INVERTER_SHOWN: &str = "\
inputs 1
type 1 2 2 1
edge 1 2 0
edge 0 2 0
instance 1 1 -1 1
vector 1 0
vector 2 1
vector 3 X
";

const EVERY_KIND_SHOWN: &str = "\
inputs 3
type 1 2 2 1
edge 1 2 0
edge 0 2 0
type 2 3 2 2
edge 1 2 0
edge 1 2 1
edge 1 2 0
edge 2 3 0
edge 3 0 1
type 3 5 3 4
edge 1 2 0
edge 1 2 1
edge 2 3 2
edge 2 3 3
edge 2 3 2
edge 2 3 2
edge 3 4 0
edge 4 0 1
pass 0 5 n 2
pass 2 1 p 0
edge 5 3 3
bridge 127 n 5 0
bridge 1 i 3 1
bridge 127 i 4 3
bridge 1 n 2 3
instance 1 1 -1 1
instance 2 2 1 -1 3
instance 3 3 127 2 -2 -1 2
instance 4 1 0 -3
vector 1 0X1
vector 2 10X
vector 3 111
";

#[test]
fn inverter() {
    let file = inverter_file();
    assert_eq!(file.end(), 42);
    assert_eq!(show_of(&file.bytes), INVERTER_SHOWN);
}

#[test]
fn every_kind_of_line() {
    assert_eq!(show_of(&every_kind_file().bytes), EVERY_KIND_SHOWN);
}

/// The largest numbers there are, and types one after another without edges
/// between them.
#[test]
fn largest_numbers() {
    let file = FileBuilder::inputs(64)
        .times(16, FileBuilder::inverter)
        .times(127, |file| file.instance(16, 0, &[64]))
        .instance(16, 0, &[-127])
        .vectors(&["X".repeat(64).as_str()]);
    let shown = show_of(&file.bytes);
    assert!(shown.starts_with("inputs 64\ntype 1 2 2 1\n"));
    assert!(shown.contains("\ntype 16 2 2 1\nedge 1 2 0\nedge 0 2 0\ninstance 1 16 0 64\n"));
    let vector = "X".repeat(64);
    let end = format!("\ninstance 128 16 0 -127\nvector 1 {vector}\n");
    assert!(shown.ends_with(&end), "{shown}");
}

#[test]
fn refused_files() {
    assert_eq!(show_of(&[]), "refused 14 at 0\n");
    assert_eq!(show_of(&[1]), "refused 2 at 0\n");
    assert_eq!(show_of(&[1; 57_345]), "refused 1 at 0\n");
    let misfit = with_type().bridge(1, 0, 0, 3).instance(1, 1, &[1]);
    let before = "inputs 2\ntype 1 2 2 1\nedge 1 2 0\nedge 0 2 0\nbridge 1 n 0 3\n";
    assert_eq!(
        show_of(&misfit.bytes),
        format!("{before}refused 11 at 30\n")
    );
    for length in 0..every_kind_file().end() {
        let cut = every_kind_file().resized(length);
        let (shown, report) = (show_of(&cut.bytes), report_of(&cut.bytes));
        // Cut between two vectors the file is accepted, with fewer of them.
        let refusal = if [173, 179].contains(&length) {
            ""
        } else {
            assert!(report.starts_with("refused "), "{length}");
            &report
        };
        let before = shown.strip_suffix(refusal).expect("the refusal is last");
        assert!(EVERY_KIND_SHOWN.starts_with(before), "{length}: {shown}");
    }
}

/// A type is listed when no edge of it is refused and it is complementary.
#[test]
fn unfinished_types() {
    let finished = "inputs 2\ntype 1 2 2 1\nedge 1 2 0\nedge 0 2 0\n";
    // An edge with a label that the type does not have, of the first type and of a second one.
    let edge = with_type().field(3, &[0, 2, 1]);
    assert_eq!(show_of(&edge.bytes), "inputs 2\nrefused 7 at 23\n");
    let second = with_type().module(2, 2, 1, &[(0, 2, &[1])]);
    assert_eq!(
        show_of(&second.bytes),
        format!("{finished}refused 7 at 29\n")
    );
    // A type without a path to supply, before an instance, a byte of a field, a tag that there is not, and the end.
    let open = || with_type().module(2, 2, 1, &[(0, 2, &[0])]);
    let refused = |number, place| format!("{finished}refused {number} at {place}\n");
    let instance = open().instance(1, -1, &[1]);
    assert_eq!(show_of(&instance.bytes), refused(9, 23));
    let byte = open().resized(36);
    assert_eq!(show_of(&byte.bytes), refused(2, 35));
    let tag = open().field(8, &[]);
    assert_eq!(show_of(&tag.bytes), refused(3, 35));
    assert_eq!(show_of(&open().bytes), refused(9, 23));
    // The same where the type is complementary.
    let whole = with_type().resized(24);
    assert_eq!(show_of(&whole.bytes), refused(2, 23));
    let tag = with_type().field(8, &[]);
    assert_eq!(show_of(&tag.bytes), refused(3, 23));
    assert_eq!(show_of(&with_type().bytes), refused(14, 23));
}

/// Each field of the file has a line, its word for the field's tag. An edge field has
/// one for each of its labels.
#[test]
fn lines_for_each_field_of_a_made_file() {
    for index in 0..40 {
        let bytes = made_file(11, index);
        let shown = show_of(&bytes);
        let mut lines = shown.lines();
        let mut place = 0;
        while place < bytes.len() {
            let length = 256 * usize::from(bytes[place + 1]) + usize::from(bytes[place + 2]);
            let count = if bytes[place] == 3 { length - 2 } else { 1 };
            let tags = [
                "inputs", "type", "edge", "bridge", "instance", "vector", "pass",
            ];
            let word = tags[usize::from(bytes[place]) - 1];
            for line in lines.by_ref().take(count) {
                assert_eq!(line.split(' ').next(), Some(word));
            }
            place += 3 + length;
        }
        assert_eq!((place, lines.next()), (bytes.len(), None));
    }
}
