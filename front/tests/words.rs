//! Refusals in words: an example of each way to be refused, its field and what it
//! says was read; and every damaged or limit file has words or is accepted.

use front::explain::explain;
use second::builder::{FileBuilder, INVERTER, N, P};
use second::damage::damaged_file;
use second::limits::limit_files;
use second::read::read;

fn one_input() -> FileBuilder {
    FileBuilder::inputs(1)
}

fn inverter() -> FileBuilder {
    one_input().inverter()
}

/// The first and the last line: number, place and field, and what was read.
fn check(file: FileBuilder, first: &str, here: &str) {
    let explanation = explain(&file.bytes).expect(first);
    let [field, rule, read] = explanation.lines();
    assert_eq!((field.as_str(), read.as_str()), (first, here));
    assert!(rule.starts_with("rule: ") && rule.ends_with('.'), "{rule}");
}

#[test]
fn an_accepted_file_has_no_words() {
    let file = inverter().instance(1, -1, &[1]).vectors(&["0"]);
    assert_eq!(explain(&file.bytes), None);
}

#[test]
fn the_frame_of_a_file() {
    check(
        FileBuilder::default().resized(57_345),
        "refused 1 at 0: the whole file",
        "here: it has more than that.",
    );
    check(
        one_input().raw(&[2, 0]),
        "refused 2 at 5: field 2, bytes 5 to 6",
        "here: 2 bytes are left in the file, but a tag with its length takes 3.",
    );
    check(
        FileBuilder::default().raw(&[1]),
        "refused 2 at 0: field 1, byte 0",
        "here: 1 byte is left in the file, but a tag with its length takes 3.",
    );
    check(
        one_input().raw(&[9, 0, 4]),
        "refused 2 at 5: field 2, bytes 5 to 7",
        "here: the tag is 9, the length says 4 bytes, but 0 bytes are left in the file.",
    );
    check(
        one_input().field(8, b""),
        "refused 3 at 5: field 2, bytes 5 to 7",
        "here: the tag is 8.",
    );
    check(
        FileBuilder::default().field(6, b"0"),
        "refused 4 at 0: field 1, bytes 0 to 3",
        "here: it begins with a vector (tag 6).",
    );
    check(
        inverter().field(1, &[0, 1]),
        "refused 4 at 23: field 5, bytes 23 to 27",
        "here: the number of inputs (tag 1) comes after an edge (tag 3).",
    );
    check(
        inverter().bridge(1, 0, 0, 1).field(3, &[1, 2, 0]),
        "refused 4 at 30: field 6, bytes 30 to 35",
        "here: an edge (tag 3) comes after a bridge (tag 4).",
    );
    check(
        one_input(),
        "refused 14 at 5: the end of the file",
        "here: the file ends with no instance and no vector.",
    );
    check(
        inverter().instance(1, 0, &[1]),
        "refused 14 at 30: the end of the file",
        "here: the file ends with no vector.",
    );
    check(
        one_input().vectors(&["0"]),
        "refused 14 at 9: the end of the file",
        "here: the file ends with no instance.",
    );
    check(
        FileBuilder::default(),
        "refused 14 at 0: the end of the file",
        "here: the file is empty.",
    );
}

#[test]
fn lengths_and_counts() {
    check(
        FileBuilder::default().field(1, &[0]),
        "refused 5 at 0: the number of inputs, bytes 0 to 3",
        "here: its length says 1 byte.",
    );
    check(
        one_input().field(2, b""),
        "refused 5 at 5: type 1, bytes 5 to 7",
        "here: its length says 0 bytes.",
    );
    check(
        inverter().instance(1, 0, &[1]).vectors(&["01"]),
        "refused 5 at 30: vector 1, bytes 30 to 34",
        "here: its length says 2 bytes.",
    );
    check(
        one_input().times(17, |file| file.inverter()),
        "refused 6 at 293: type 17, bytes 293 to 298",
        "here: this is type 17.",
    );
    let edges = |count: usize| inverter().times(count - 2, |file| file.field(3, &[1, 2, 0]));
    check(
        edges(257),
        "refused 6 at 1547: edge 257 of type 1, bytes 1547 to 1552",
        "here: this is edge 257 of type 1.",
    );
    check(
        edges(255).field(3, &[1, 2, 0, 0]),
        "refused 6 at 1541: edges 256 and 257 of type 1, bytes 1541 to 1547",
        "here: these are edges 256 and 257 of type 1.",
    );
    check(
        edges(256).field(3, &[1, 2, 0, 0, 0, 0]),
        "refused 6 at 1547: edges 257 to 260 of type 1, bytes 1547 to 1555",
        "here: these are edges 257 to 260 of type 1.",
    );
    check(
        inverter().field(3, &[1, 2, 0, 0, 0, 0, 0]),
        "refused 5 at 23: edge 3 of type 1, bytes 23 to 32",
        "here: its length says 7 bytes.",
    );
    let bridges = inverter().times(257, |file| file.bridge(1, 0, 0, 1));
    check(
        bridges,
        "refused 6 at 1815: bridge 257, bytes 1815 to 1821",
        "here: this is bridge 257.",
    );
}

/// The second line, where the rule has a limit that files meet by their edges.
#[test]
fn rules_of_lengths_and_edges() {
    let rules = [
        (
            FileBuilder::default().resized(57_345),
            "rule: a circuit file has at most 57344 bytes.",
        ),
        (
            inverter().field(3, &[1, 2]),
            "rule: an edge field takes 3 to 6 bytes: two nodes and 1 to 4 labels, each label an edge.",
        ),
        (
            inverter().times(64, |file| file.field(3, &[1, 2, 0, 0, 0, 0])),
            "rule: a type has at most 256 edges, counted by label, pass transistors among them.",
        ),
        (
            inverter().field(3, &[1, 2, 1]),
            "rule: an edge has two nodes and a label of its type; type 1 has nodes 0 to 2 and label 0.",
        ),
    ];
    for (file, rule) in rules {
        let explanation = explain(&file.bytes).expect(rule);
        assert_eq!(explanation.lines()[1], rule);
    }
}

#[test]
fn pass_transistors() {
    check(
        inverter().bridge(1, 0, 0, 1).pass(1, 2, P, 0),
        "refused 4 at 30: field 6, bytes 30 to 36",
        "here: a pass transistor (tag 7) comes after a bridge (tag 4).",
    );
    check(
        FileBuilder::default().pass(1, 2, P, 0),
        "refused 4 at 0: field 1, bytes 0 to 6",
        "here: it begins with a pass transistor (tag 7).",
    );
    check(
        inverter().pass(1, 2, P, 0).field(1, &[0, 1]),
        "refused 4 at 30: field 6, bytes 30 to 34",
        "here: the number of inputs (tag 1) comes after a pass transistor (tag 7).",
    );
    check(
        inverter().raw(&[7, 0, 4, 1]),
        "refused 2 at 23: field 5, bytes 23 to 26",
        "here: the tag is 7 (a pass transistor), the length says 4 bytes, but 1 byte is left in the file.",
    );
    let third = "edge 3 of type 1 (a pass transistor)";
    check(
        inverter().field(7, &[1, 2, 0]),
        &format!("refused 5 at 23: {third}, bytes 23 to 28"),
        "here: its length says 3 bytes.",
    );
    check(
        inverter().pass(3, 4, 2, 1),
        &format!("refused 7 at 23: {third}, bytes 23 to 29"),
        "here: the first node is 3; the second node is 4; the channel is 2; the label is 1.",
    );
    check(
        inverter().pass(2, 2, N, 0),
        &format!("refused 7 at 23: {third}, bytes 23 to 29"),
        "here: both ends are node 2.",
    );
    check(
        inverter().times(255, |file| file.pass(1, 2, P, 0)),
        "refused 6 at 1801: edge 257 of type 1 (a pass transistor), bytes 1801 to 1807",
        "here: this is edge 257 of type 1 (a pass transistor).",
    );
    check(
        inverter().pass(1, 2, P, 0).field(3, &[2, 2, 0]),
        "refused 8 at 30: edge 4 of type 1, bytes 30 to 35",
        "here: both ends are node 2.",
    );
    check(
        inverter().pass(1, 2, N, 0),
        "refused 9 at 5: type 1, bytes 5 to 10, with 3 edges up to byte 29",
        "here: with label 0 at 1 the output, node 2, is joined to both supply (by 1-2) and ground (by 0-2).",
    );
}

#[test]
fn rules_of_pass_transistors() {
    let rules = [
        (
            FileBuilder::default().field(8, b""),
            "rule: a field begins with its tag: 1 the number of inputs, 2 a type, 3 an edge, 4 a bridge, 5 an instance, 6 a vector, 7 a pass transistor.",
        ),
        (
            one_input().pass(1, 2, P, 0),
            "rule: a pass transistor stands right after its type or after another edge of that type.",
        ),
        (
            inverter().field(7, b""),
            "rule: a pass transistor takes 4 bytes: two nodes, its channel, its label.",
        ),
        (
            inverter().times(255, |file| file.pass(1, 2, P, 0)),
            "rule: a type has at most 256 edges, counted by label, pass transistors among them.",
        ),
        (
            inverter().pass(2, 2, N, 0),
            "rule: a pass transistor has two different nodes and a label of its type, and a channel of 0 (n) or 1 (p); type 1 has nodes 0 to 2 and label 0.",
        ),
        (
            inverter().field(3, &[0, 1, 0]),
            "rule: an edge of tag 3 joins two different nodes, both p nodes or both n nodes (in type 1 the p nodes are 1 to 2 and the n nodes 0 and 2); one that states its channel (tag 7) may join any two.",
        ),
    ];
    for (file, rule) in rules {
        let explanation = explain(&file.bytes).expect(rule);
        assert_eq!(explanation.lines()[1], rule);
    }
}

#[test]
fn numbers_and_letters() {
    check(
        FileBuilder::inputs(65),
        "refused 7 at 0: the number of inputs, bytes 0 to 4",
        "here: it is 65.",
    );
    check(
        one_input().field(2, &[32, 2, 0]),
        "refused 7 at 5: type 1, bytes 5 to 10",
        "here: the highest node is 32; the number of labels is 0.",
    );
    check(
        one_input().field(2, &[3, 4, 1]),
        "refused 7 at 5: type 1, bytes 5 to 10",
        "here: the output node is 4 where the highest node is 3.",
    );
    check(
        inverter().field(3, &[3, 2, 0, 1]),
        "refused 7 at 23: edges 3 and 4 of type 1, bytes 23 to 29",
        "here: the first node is 3; edge 4 has label 1.",
    );
    check(
        inverter().bridge(0, 2, 32, 99),
        "refused 7 at 23: bridge 1, bytes 23 to 29",
        "here: the list is 0; the kind is 2; the first node is 32.",
    );
    check(
        inverter().bridge(1, 0, 2, 2),
        "refused 7 at 23: bridge 1, bytes 23 to 29",
        "here: both ends are node 2.",
    );
    check(
        inverter().bridge(1, 1, 2, 12),
        "refused 7 at 23: bridge 1, bytes 23 to 29",
        "here: the label is 12.",
    );
    check(
        one_input().instance(1, -2, &[1]),
        "refused 7 at 5: instance 1, bytes 5 to 11",
        "here: the file has no type; the list choice is -2.",
    );
    check(
        inverter().instance(2, 0, &[1]),
        "refused 7 at 23: instance 1, bytes 23 to 29",
        "here: the type is 2.",
    );
    let two = FileBuilder::inputs(2).inverter().instance(1, 0, &[1]);
    check(
        two.vectors(&["x\n"]),
        "refused 7 at 30: vector 1, bytes 30 to 34",
        "here: primary input 1 has `x` (byte 120); primary input 2 has byte 10.",
    );
    let many = FileBuilder::inputs(9).inverter().instance(1, 0, &[1]);
    let here = "here: primary input 1 has `2` (byte 50); primary input 2 has `2` (byte 50); primary input 3 has `2` (byte 50); primary input 4 has `2` (byte 50); 5 more like that.";
    check(
        many.vectors(&["222222222"]),
        "refused 7 at 30: vector 1, bytes 30 to 41",
        here,
    );
}

#[test]
fn edges_and_types() {
    let six = || one_input().field(2, &[6, 4, 1]);
    check(
        six().field(3, &[2, 2, 0]),
        "refused 8 at 11: edge 1 of type 1, bytes 11 to 16",
        "here: both ends are node 2.",
    );
    check(
        six().field(3, &[3, 5, 0]),
        "refused 8 at 11: edge 1 of type 1, bytes 11 to 16",
        "here: it joins node 3, a p node only, and node 5, an n node only.",
    );
    check(
        six().field(3, &[0, 1, 0]),
        "refused 8 at 11: edge 1 of type 1, bytes 11 to 16",
        "here: it joins node 0, an n node only, and node 1, a p node only.",
    );
    check(
        six(),
        "refused 9 at 5: type 1, bytes 5 to 10, without edges",
        "here: with label 0 at 0 the output, node 4, is joined to neither supply nor ground.",
    );
    let half = inverter()
        .module(2, 2, 1, &INVERTER[..1])
        .instance(1, 0, &[1]);
    check(
        half,
        "refused 9 at 23: type 2, bytes 23 to 28, with 1 edge up to byte 34",
        "here: with label 0 at 1 the output, node 2, is joined to neither supply nor ground.",
    );
    let shorted = one_input().module(3, 2, 2, &[(1, 2, &[0, 1]), (2, 3, &[0]), (3, 0, &[0, 1])]);
    check(shorted, "refused 9 at 5: type 1, bytes 5 to 10, with 5 edges up to byte 30", "here: with label 0 at 1 and label 1 at 0 the output, node 2, is joined to both supply (by 1-2) and ground (by 0-3-2).");
}

#[test]
fn references_and_lists() {
    let at_30 = "instance 2, bytes 30 to 36";
    let first = || inverter().instance(1, 0, &[1]);
    check(
        first().instance(1, 0, &[0]),
        &format!("refused 10 at 30: {at_30}"),
        "here: label 0 is tied to 0, which means nothing.",
    );
    check(
        first().instance(1, 0, &[2]),
        &format!("refused 10 at 30: {at_30}"),
        "here: label 0 is tied to 2, but there is no such input.",
    );
    check(
        first().instance(1, 0, &[-2]),
        &format!("refused 10 at 30: {at_30}"),
        "here: label 0 is tied to -2, its own instance.",
    );
    check(
        first().instance(1, 0, &[-3]),
        &format!("refused 10 at 30: {at_30}"),
        "here: label 0 is tied to -3, which is not earlier.",
    );
    check(
        first().instance(1, 0, &[1, 1]),
        "refused 10 at 30: instance 2, bytes 30 to 38",
        "here: type 1 has 1 label, but 2 references are given.",
    );
    check(
        one_input().nand().instance(1, 0, &[1]),
        "refused 10 at 35: instance 1, bytes 35 to 41",
        "here: type 1 has 2 labels, but 1 reference is given.",
    );
    let listed = || {
        inverter()
            .bridge(7, 0, 0, 2)
            .bridge(7, 0, 0, 3)
            .bridge(8, 1, 2, 1)
    };
    check(
        listed().instance(1, 7, &[1]),
        "refused 11 at 44: instance 1, bytes 44 to 50",
        "here: list 7 has bridge 2 (bytes 30 to 36), between node 0 and node 3.",
    );
    check(
        listed().instance(1, 8, &[1]),
        "refused 11 at 44: instance 1, bytes 44 to 50",
        "here: list 8 has bridge 3 (bytes 37 to 43), between node 2 and label 1.",
    );
    check(
        listed().instance(1, 9, &[1]),
        "refused 12 at 44: instance 1, bytes 44 to 50",
        "here: it chooses list 9, and the file has bridges of lists 7 and 8 only.",
    );
    check(
        first().instance(1, 9, &[1]),
        &format!("refused 12 at 30: {at_30}"),
        "here: it chooses list 9, and the file has no bridges.",
    );
    let large = one_input()
        .module(31, 2, 1, INVERTER)
        .times(4, |file| file.instance(1, -1, &[1]));
    check(
        large,
        "refused 13 at 44: instance 4, bytes 44 to 50",
        "here: this instance has 528, those before it 1584, together 2112.",
    );
}

#[test]
fn every_refused_file_has_words() {
    let limits = limit_files().into_iter().map(|file| file.bytes);
    let damaged = (0..1000).map(|index| damaged_file(14, index));
    for file in limits.chain(damaged) {
        let words = explain(&file);
        assert_eq!(words.as_ref().map(|words| words.refusal), read(&file).err());
        for line in words.iter().flat_map(|words| words.lines()) {
            assert!(line.is_ascii() && !line.contains(['\n', '\r']), "{line}");
            assert!(!line.contains("  ") && !line.contains(": ."), "{line}");
        }
    }
}
