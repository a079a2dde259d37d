//! Pass transistors: edges with a channel of their own, between any two nodes. Reports
//! by hand, the rules that tag 3 has and tag 7 has not, and the same circuit by both tags.

mod support;

use second::builder::{FileBuilder, N, P};
use second::circuit::{Channel, Edge, Kind};
use second::conduction::channel;
use second::limits::limit_files;
use second::make::made_file;
use second::read::read;
use second::report::report_of;
use second::samples::sample_files;
use second::show::show_of;
use second::starts::{nand_under, two_inputs, with_type};
use second::write::{bytes_of, fields_of};
use support::{digits, refusal, Accepted};

/// Where the input is 1 the output is at supply, so it never differs from its label.
const FOLLOWER_REPORT: &str = "\
vectors 3 faults 6 classes 6 found 5
1 n 0 1 1 111 3 1
1 n 0 2 2 010 1 2
1 n 1 2 3 100 1 1
1 i 0 0 4 010 1 2
1 i 1 0 5 100 1 1
1 i 2 0 6 000 0 0
rounds 1
";

#[test]
fn a_follower() {
    let file = FileBuilder::inputs(1)
        .field(2, &[2, 2, 1])
        .pass(1, 2, N, 0)
        .pass(0, 2, P, 0)
        .instance(1, -1, &[1])
        .vectors(&["0", "1", "X"]);
    assert_eq!(report_of(&file.bytes), FOLLOWER_REPORT);
}

/// The bytes of a field are the nodes, then the channel, then the label.
#[test]
fn the_record_of_a_pass_transistor() {
    let file = FileBuilder::inputs(1)
        .inverter()
        .field(2, &[4, 3, 2])
        .raw(&[7, 0, 4, 3, 1, 1, 0])
        .raw(&[7, 0, 4, 0, 3, 0, 0])
        .raw(&[3, 0, 3, 4, 3, 1])
        .instance(2, 0, &[1, 1])
        .vectors(&["0"]);
    let circuit = read(&file.bytes).expect("the types are complementary");
    let edge = |ends, channel, label, is_pass| Edge {
        ends,
        channel,
        label,
        is_pass,
    };
    let wanted = [
        edge([3, 1], Channel::P, 0, true),
        edge([0, 3], Channel::N, 0, true),
        edge([4, 3], Channel::N, 1, false),
    ];
    assert_eq!(circuit.types[1].edges, wanted);
    assert_eq!(bytes_of(&fields_of(&circuit)), file.bytes);
    assert!(show_of(&file.bytes).contains("\npass 3 1 p 0\npass 0 3 n 0\nedge 4 3 1\n"));
}

/// Node 2 is not a. The transistors between nodes 2 and 3 are both at label 1, so one of
/// them is on whatever it is, unless it is X; and so with label 0 behind them.
#[test]
fn gates_that_are_always_on() {
    let graded = FileBuilder::inputs(2)
        .field(2, &[4, 4, 2])
        .field(3, &[1, 2, 0])
        .pass(0, 2, N, 0)
        .pass(2, 3, N, 1)
        .pass(3, 2, P, 1)
        .pass(3, 4, N, 0)
        .pass(3, 4, P, 0)
        .instance(1, -1, &[1, 2])
        .vectors(&["00", "01", "10", "11", "0X", "X0"])
        .graded();
    let rows = [
        (0, 2, "110010"),
        (0, 3, "110000"),
        (0, 4, "110000"),
        (1, 2, "001100"),
        (1, 3, "001100"),
        (1, 4, "001100"),
        (2, 3, "000000"),
        (2, 4, "000000"),
        (3, 4, "000000"),
    ];
    for (first, second, marks) in rows {
        let found = digits(&graded, 1, Kind::Nodes, first, second);
        assert_eq!(found, marks, "{first}-{second}");
    }
}

/// An inverter with nodes 0 to 4 and output 3: node 2 is a p node, node 4 an n node.
fn inverter_with(tag: u8, body: &[u8]) -> FileBuilder {
    FileBuilder::inputs(1)
        .module(4, 3, 1, &[(1, 3, &[0]), (0, 3, &[0])])
        .field(tag, body)
        .instance(1, -1, &[1])
        .vectors(&["0", "1"])
}

/// Ends that break the rule of tag 3, a channel with which the type stays complementary,
/// and the marks of both rails with the inner node, the first end.
#[test]
fn ends_that_tag_3_has_not() {
    let cases = [
        ([2, 0], N, "00", "01"),
        ([4, 1], P, "10", "00"),
        ([2, 4], N, "00", "00"),
        ([4, 2], P, "00", "00"),
    ];
    for ([a, b], channel, with_ground, with_supply) in cases {
        let edge = inverter_with(3, &[a, b, 0]);
        assert_eq!(refusal(&edge.bytes), Some((8, 23)), "{a}-{b}");
        let graded = inverter_with(7, &[a, b, channel, 0]).graded();
        assert_eq!(digits(&graded, 1, Kind::Nodes, 0, a), with_ground);
        assert_eq!(digits(&graded, 1, Kind::Nodes, 1, a), with_supply);
    }
    for channel in [N, P] {
        let rails = inverter_with(7, &[0, 1, channel, 0]);
        assert_eq!(refusal(&rails.bytes), Some((9, 5)));
    }
}

/// What is 8 with tag 3 is 7 with tag 7, and never 8.
#[test]
fn equal_ends() {
    for node in 0..=4 {
        let edge = inverter_with(3, &[node, node, 0]);
        assert_eq!(refusal(&edge.bytes), Some((8, 23)));
        for channel in [N, P] {
            let pass = inverter_with(7, &[node, node, channel, 0]);
            assert_eq!(refusal(&pass.bytes), Some((7, 23)));
        }
    }
}

#[test]
fn ranges_and_lengths() {
    let cases: [(&[u8], u8); 11] = [
        (&[], 5),
        (&[2, 3, 1], 5),
        (&[2, 3, 1, 0, 0], 5),
        (&[9, 9, 9, 9, 9], 5),
        (&[5, 3, 1, 0], 7),
        (&[3, 5, 1, 0], 7),
        (&[5, 5, 1, 0], 7),
        (&[2, 3, 2, 0], 7),
        (&[2, 3, 255, 0], 7),
        (&[2, 3, 1, 1], 7),
        (&[0, 1, 1, 1], 7),
    ];
    for (body, number) in cases {
        let file = inverter_with(7, body);
        assert_eq!(refusal(&file.bytes), Some((number, 23)), "{body:?}");
    }
}

/// From supply to ground through nodes 3 and 4, where labels 0 to 2 are 0, 1 and 0; no
/// other setting fails. If label 0 is at both ends, it is never on.
#[test]
fn rails_joined_under_one_setting() {
    let through = |channel: u8, label: u8| {
        FileBuilder::inputs(3)
            .module(4, 2, 3, &[(1, 2, &[0]), (0, 2, &[0])])
            .pass(1, 3, P, 0)
            .pass(3, 4, N, 1)
            .pass(4, 0, channel, label)
            .instance(1, 0, &[1, 2, 3])
            .vectors(&["000"])
    };
    assert_eq!(refusal(&through(P, 2).bytes), Some((9, 5)));
    assert_eq!(refusal(&through(N, 0).bytes), None);
}

/// The multiplexer of the samples up to the transistors at its output, with so many labels.
fn mux_start(labels: u8) -> FileBuilder {
    FileBuilder::inputs(4)
        .field(2, &[4, 4, labels])
        .field(3, &[1, 2, 0])
        .pass(0, 2, N, 0)
        .pass(1, 3, N, 1)
        .pass(0, 3, P, 1)
}

/// The output of a multiplexer with the same channel twice floats, or is joined to both.
#[test]
fn a_multiplexer_needs_both_channels() {
    let mux = |first: u8, second: u8| {
        let file = mux_start(3)
            .pass(2, 4, first, 2)
            .pass(3, 4, second, 2)
            .instance(1, -1, &[1, 2, 3])
            .vectors(&["0000"]);
        refusal(&file.bytes)
    };
    assert_eq!((mux(N, P), mux(P, N)), (None, None));
    assert_eq!((mux(N, N), mux(P, P)), (Some((9, 5)), Some((9, 5))));
}

/// Two gates of both channels each, with the select as label 2 and its complement as label
/// 3, are refused: nothing says that the labels differ, and where they are equal both
/// gates conduct.
#[test]
fn a_complement_is_no_label_of_its_own() {
    let file = mux_start(4)
        .pass(2, 4, N, 2)
        .pass(2, 4, P, 3)
        .pass(3, 4, N, 3)
        .pass(3, 4, P, 2)
        .instance(1, -1, &[1, 2, 3, 4])
        .vectors(&["0001"]);
    assert_eq!(refusal(&file.bytes), Some((9, 5)));
}

/// A type is not judged at a pass transistor, which may complete or break it.
#[test]
fn a_type_is_judged_behind_its_last_edge() {
    let half = || two_inputs().field(2, &[2, 2, 1]).field(3, &[1, 2, 0]);
    let whole = |file: FileBuilder| refusal(&file.instance(1, 0, &[1]).vectors(&["00"]).bytes);
    assert_eq!(whole(half().pass(0, 2, N, 0)), None);
    assert_eq!(whole(half().pass(0, 2, P, 0)), Some((9, 5)));
    assert_eq!(whole(with_type().pass(1, 2, N, 0)), Some((9, 5)));
    assert_eq!(whole(half().field(7, &[0, 2, 0])), Some((5, 17)));
    assert_eq!(whole(half().pass(0, 2, 2, 0)), Some((7, 17)));
    assert_eq!(whole(half().field(8, &[0, 2, 0, 0])), Some((3, 17)));
}

const NAND_SHOWN: &str = "\
inputs 2
type 1 3 2 2
edge 1 2 0
pass 1 2 p 1
pass 2 3 n 0
edge 3 0 1
instance 1 1 -1 1 2
vector 1 01
vector 2 1X
";

#[test]
fn a_nand_by_both_tags() {
    let vectors = ["01", "1X"];
    let file = FileBuilder::inputs(2)
        .field(2, &[3, 2, 2])
        .field(3, &[1, 2, 0])
        .pass(1, 2, P, 1)
        .pass(2, 3, N, 0)
        .field(3, &[3, 0, 1])
        .instance(1, -1, &[1, 2])
        .vectors(&vectors);
    assert_eq!(show_of(&file.bytes), NAND_SHOWN);
    let by_tag_3 = nand_under(&vectors);
    assert_eq!(report_of(&file.bytes), report_of(&by_tag_3.bytes));
}

/// The file with each edge under tag 7, those of tag 3 with the channel of their ends.
fn as_passes(bytes: &[u8]) -> Vec<u8> {
    let mut passes = Vec::new();
    let mut output = 0;
    let mut rest = bytes;
    while let [tag, high, low, ..] = *rest {
        let length = 256 * usize::from(high) + usize::from(low);
        let (field, after) = rest.split_at(3 + length);
        match tag {
            3 => {
                let is_p = field[3..5].iter().all(|end| (1..=output).contains(end));
                for &label in &field[5..] {
                    passes.extend([7, 0, 4, field[3], field[4], u8::from(is_p), label]);
                }
            }
            _ => passes.extend(field),
        }
        if tag == 2 {
            output = field[4];
        }
        rest = after;
    }
    passes
}

/// Nothing but its listing and its bytes tells an edge of tag 3 from one of tag 7.
#[test]
fn any_edge_may_come_under_tag_7() {
    let limits = limit_files().into_iter().map(|file| file.bytes);
    let accepted = limits.filter(|bytes| read(bytes).is_ok());
    let samples = sample_files().into_iter().map(|file| file.bytes);
    let made = (0..200).map(|index| made_file(11, index));
    let mut changed = 0;
    for bytes in accepted.chain(samples).chain(made) {
        let passes = as_passes(&bytes);
        if passes != bytes {
            assert!(report_of(&passes) == report_of(&bytes));
            let circuit = read(&passes).expect("it is the same circuit");
            assert!(bytes_of(&fields_of(&circuit)) == passes);
            assert!(!show_of(&passes).contains("\nedge "));
            changed += 1;
        }
    }
    assert!(changed > 1_000, "{changed}");
}

/// Pass transistors between nodes that tag 3 may not join, against the channel that it
/// would give them, along with it, and of both channels between the same two nodes.
#[test]
fn made_files_use_what_tag_7_allows() {
    let [mut breaking, mut against, mut along, mut both] = [0; 4];
    for index in 0..200 {
        let circuit = read(&made_file(11, index)).expect("made files are accepted");
        for module in &circuit.types {
            let passes = module.edges.iter().filter(|edge| edge.is_pass);
            for pass in passes {
                match channel(module.output, pass.ends) {
                    None => breaking += 1,
                    Some(channel) if channel != pass.channel => against += 1,
                    Some(_) => along += 1,
                }
            }
            let is_both = |edge: &Edge| module.edges.iter().any(|other| is_gate(edge, other));
            both += usize::from(module.edges.iter().any(is_both));
        }
    }
    let counts = [breaking, against, along, both];
    assert!(counts.iter().all(|&count| count > 20), "{counts:?}");
}

/// Whether two edges of both channels join the same two nodes.
fn is_gate(one: &Edge, other: &Edge) -> bool {
    let [a, b] = one.ends;
    one.channel != other.channel && [[a, b], [b, a]].contains(&other.ends)
}
