//! Text into circuit files: there and back, free spacing, and lines that are wrong.

use front::text::{make, Slip};
use second::builder::FileBuilder;
use second::fields::cut;
use second::make::made_file;
use second::random::Random;
use second::read::read;
use second::samples::sample_files;
use second::show::show_of;

const NAND: &str = "inputs 2
type 1 3 2 2
edge 1 2 0
edge 1 2 1
edge 2 3 0
edge 3 0 1
bridge 1 n 2 3
bridge 1 i 3 0
instance 1 1 1 1 2
instance 2 1 -1 -1 2
vector 1 0X
vector 2 11
";

fn nand_file() -> Vec<u8> {
    let file = FileBuilder::inputs(2).nand();
    let file = file.bridge(1, 0, 2, 3).bridge(1, 1, 3, 0);
    let file = file.instance(1, 1, &[1, 2]).instance(1, -1, &[-1, 2]);
    file.vectors(&["0X", "11"]).bytes
}

#[test]
fn a_text_is_its_file() {
    assert_eq!(make(NAND.as_bytes()), Ok(nand_file()));
}

const MUX: &str = "inputs 3
type 1 4 4 3
edge 1 2 0
pass 0 2 n 0
pass 1 3 n 1
pass 0 3 p 1
pass 2 4 n 2
pass 3 4 p 2
instance 1 1 -1 1 2 3
vector 1 000
vector 2 001
vector 3 010
vector 4 011
vector 5 100
vector 6 101
vector 7 110
vector 8 111
vector 9 0X1
vector 10 00X
";

/// A pass transistor is a field of tag 7: two nodes, the channel, the label.
#[test]
fn a_text_with_pass_transistors() {
    let samples = sample_files();
    let mux = samples.iter().find(|file| file.name == "mux");
    let mux = mux.expect("the sample is there");
    assert_eq!(make(MUX.as_bytes()), Ok(mux.bytes.clone()));
    let line = make(b"pass 255 0 p 12").expect("a circuit is not judged");
    assert_eq!(line, [7, 0, 4, 255, 0, 1, 12]);
}

/// Several labels on one line are one field, as in old files.
#[test]
fn a_line_with_several_labels() {
    let grouped = NAND.replace("edge 1 2 0\nedge 1 2 1\n", "edge 1 2 0 1\n");
    let made = make(grouped.as_bytes()).expect("a line may have several labels");
    assert_eq!(made.len() + 5, nand_file().len());
    assert_eq!(read(&made), read(&nand_file()));
}

/// Whether an edge field has several labels, as in old files.
fn has_group(file: &[u8]) -> bool {
    let mut place = 0;
    while place < file.len() {
        let field = cut(file, place).expect("an accepted file is whole");
        if field.tag == 3 && field.body.len() > 3 {
            return true;
        }
        place = field.end();
    }
    false
}

/// What is shown has a line for each edge. So a file comes back byte for byte if it has
/// a field for each, and else as the file of the same circuit that does.
#[test]
fn samples_and_made_files_come_back() {
    let made = (0..1000).map(|index| made_file(14, index));
    let samples = sample_files().into_iter().map(|file| file.bytes);
    let mut grouped = 0;
    for file in samples.chain(made) {
        let back = make(show_of(&file).as_bytes()).expect("what is shown is text");
        assert_eq!(read(&back), read(&file));
        assert!(!has_group(&back));
        if has_group(&file) {
            grouped += 1;
        } else {
            assert_eq!(back, file);
        }
    }
    assert!((300..700).contains(&grouped), "{grouped}");
}

#[test]
fn spacing_and_comments_are_free() {
    let spaced = NAND
        .replace(' ', " \t  ")
        .replace('\n', "  # why\r\n\n\t# more \u{fc}\n");
    assert_eq!(make(spaced.as_bytes()), Ok(nand_file()));
    assert_eq!(make(NAND.trim_end().as_bytes()), Ok(nand_file()));
    let indented = NAND
        .replace("edge", "    edge")
        .replace("vector 1 0X", "vector 01 0 X#");
    assert_eq!(make(indented.as_bytes()), Ok(nand_file()));
    let bytes = [b"#\xff\xfe\n".as_slice(), NAND.as_bytes()].concat();
    assert_eq!(make(&bytes), Ok(nand_file()));
    for nothing in ["", "\n", "# nothing\n"] {
        assert_eq!(make(nothing.as_bytes()), Ok(vec![]));
    }
}

/// What the grader refuses can be made, as far as numbers fit their bytes.
#[test]
fn a_circuit_is_not_judged() {
    let refused = [
        ("vector 1 0", 4),
        ("inputs 1\nedge 1 2 0", 4),
        ("inputs 1\ntype 1 2 2 1\nedge 1 2 0 0 0 0 0", 5),
        ("inputs 65535", 7),
        ("inputs 1\ntype 1 255 255 255", 7),
        ("inputs 1\nbridge 255 n 0 0", 7),
        ("inputs 1\ninstance 1 0 -128 -32768", 7),
        ("inputs 1\npass 1 2 p 0", 4),
        ("inputs 1\ntype 1 2 2 1\npass 2 2 n 0", 7),
        ("inputs 1\ntype 1 2 2 1\npass 1 2 n 255", 7),
        ("inputs 1\ntype 1 2 2 1\npass 0 1 n 0", 9),
        ("inputs 1\ntype 1 2 2 1\nedge 0 1 0", 8),
        ("inputs 1\ntype 1 2 2 1", 9),
        ("", 14),
    ];
    for (text, number) in refused {
        let file = make(text.as_bytes()).expect(text);
        assert_eq!(
            read(&file).map_err(|refusal| refusal.number),
            Err(number),
            "{text}"
        );
    }
}

fn check_slip(text: &str, line: usize, message: &str) {
    let slip = Slip {
        line,
        message: message.to_string(),
    };
    assert_eq!(make(text.as_bytes()), Err(vec![slip]), "{text:?}");
}

#[test]
fn a_word_that_begins_no_line() {
    let names = "expected `inputs`, `type`, `edge`, `bridge`, `instance`, `vector` or `pass`";
    let cases = [
        ("# NAND\n\nnode 3\n", 3, format!("found `node`, {names}")),
        ("Inputs 1", 1, format!("found `Inputs`, {names}")),
        (
            "\u{1}\u{2}",
            1,
            format!("found `\\u{{1}}\\u{{2}}`, {names}"),
        ),
        (
            "inputs 1\nrefused 9 at 5",
            2,
            format!("found `refused`, {names} (`show` ends a refused file so: the text is no whole circuit)"),
        ),
        (
            "==> a <==",
            1,
            format!("found `==>`, {names} (`make` reads the text of one file)"),
        ),
    ];
    for (text, line, message) in cases {
        check_slip(text, line, &message);
    }
    let long = "x".repeat(100);
    let quoted = "x".repeat(32);
    check_slip(&long, 1, &format!("found `{quoted}..`, {names}"));
}

#[test]
fn numbers_that_are_none_or_do_not_fit() {
    let cases = [
        ("inputs", "found the end of the line, expected the number of primary inputs, a number from 0 to 65535"),
        ("inputs 65536", "found `65536`, expected the number of primary inputs, a number from 0 to 65535"),
        ("inputs -1", "found `-1`, expected the number of primary inputs, a number from 0 to 65535"),
        ("type 1 256 2 1", "found `256`, expected the highest node h, a number from 0 to 255"),
        ("type 1 2 o 1", "found `o`, expected the output node o, a number from 0 to 255"),
        ("type 1 2 2", "found the end of the line, expected the number of labels k, a number from 0 to 255"),
        ("edge +1 2 0", "found `+1`, expected a node, a number from 0 to 255"),
        ("edge 1 0x2 0", "found `0x2`, expected a second node, a number from 0 to 255"),
        ("edge 1 2", "found the end of the line, expected a label, a number from 0 to 255"),
        ("edge 1 2 0 a", "found `a`, expected a label, a number from 0 to 255"),
        ("pass x 2 n 0", "found `x`, expected a node, a number from 0 to 255"),
        ("pass 1 256 n 0", "found `256`, expected a second node, a number from 0 to 255"),
        ("pass 1 2 p", "found the end of the line, expected a label, a number from 0 to 255"),
        ("pass 1 2 p -1", "found `-1`, expected a label, a number from 0 to 255"),
        ("bridge - n 0 1", "found `-`, expected the number of a list, a number from 0 to 255"),
        ("bridge 1 n 0 ", "found the end of the line, expected a second node, a number from 0 to 255"),
        ("bridge 1 i 0 999999999999", "found `999999999999`, expected a label, a number from 0 to 255"),
        ("instance 1 x 0 1", "found `x`, expected the number of a type, a number from 0 to 255"),
        ("instance 1 1 128 1", "found `128`, expected the list choice, a number from -128 to 127"),
        ("instance 1 1 0", "found the end of the line, expected a reference, a number from -32768 to 32767"),
        ("instance 1 1 0 1 32768", "found `32768`, expected a reference, a number from -32768 to 32767"),
        ("instance 1 1 \u{2212}1 1", "found `\u{2212}1`, expected the list choice, a number from -128 to 127"),
    ];
    for (text, message) in cases {
        check_slip(text, 1, message);
    }
}

#[test]
fn kinds_letters_and_words_too_many() {
    let kind = "expected `n` for two nodes or `i` for a node and a label";
    let channel = "expected the channel, `n` or `p`";
    let letters = "expected letters `0`, `1` or `X`, one for each input";
    let cases = [
        ("bridge 1 0 2 3", format!("found `0`, {kind}")),
        ("bridge 1", format!("found the end of the line, {kind}")),
        ("pass 1 2", format!("found the end of the line, {channel}")),
        ("pass 1 2 0", format!("found `0`, {channel}")),
        ("pass 1 2 N 0", format!("found `N`, {channel}")),
        ("pass 1 2 np 0", format!("found `np`, {channel}")),
        (
            "pass 1 2 p 0 1",
            "found `1`, expected the end of the line".to_string(),
        ),
        ("vector 1 0x", format!("found `0x`, {letters}")),
        ("vector 1", format!("found the end of the line, {letters}")),
        ("vector 1 01 2", format!("found `2`, {letters}")),
        (
            "inputs 1 2",
            "found `2`, expected the end of the line".to_string(),
        ),
        (
            "type 1 2 2 1 0",
            "found `0`, expected the end of the line".to_string(),
        ),
        (
            "bridge 1 n 0 1 2",
            "found `2`, expected the end of the line".to_string(),
        ),
    ];
    for (text, message) in cases {
        check_slip(text, 1, &message);
    }
    let long = format!("vector 1 {}", "0".repeat(65_536));
    check_slip(
        &long,
        1,
        "found a field of 65536 bytes, expected at most 65535",
    );
}

/// A number out of order is told once, and the next ones are counted from it.
#[test]
fn numbers_out_of_order() {
    check_slip(
        "type 2 2 2 1\ntype 3 2 2 1",
        1,
        "found `2`, expected `1`, the number of the next type",
    );
    check_slip(
        "vector 1 0\nvector 1 1\nvector 2 0",
        2,
        "found `1`, expected `2`, the number of the next vector",
    );
    check_slip(
        "vector 1 0\nvector X\nvector 3 0",
        2,
        "found `X`, expected `2`, the number of the next vector",
    );
    check_slip(
        "instance",
        1,
        "found the end of the line, expected `1`, the number of the next instance",
    );
    check_slip(
        "instance 2147483647 1 0 1",
        1,
        "found `2147483647`, expected `1`, the number of the next instance",
    );
}

#[test]
fn a_circuit_file_is_no_text() {
    let message = "found a byte 0, expected text (circuit files are for `grade` and `show`)";
    for file in sample_files() {
        let text = String::from_utf8_lossy(&file.bytes).into_owned();
        check_slip(&text, 1, message);
    }
    check_slip("inputs 1\nedges\nvector \0", 3, message);
}

#[test]
fn every_wrong_line_is_told() {
    let slips = make(b"inputs\nedge 1 2 0\nedges\nvector 1 2\nvector 2 0\n").unwrap_err();
    let lines: Vec<usize> = slips.iter().map(|slip| slip.line).collect();
    assert_eq!(lines, [1, 3, 4]);
}

/// Whatever the bytes are, they are made or a line of them is told.
#[test]
fn damaged_texts_are_made_or_told() {
    let mut random = Random::for_file(14, 4);
    let (mut made, mut told) = (0, 0);
    for _ in 0..20_000 {
        let mut text = random.pick(&[NAND, MUX]).as_bytes().to_vec();
        for _ in 0..random.between(1, 3) {
            let place = random.below(text.len());
            let byte = random.pick(b"\x00\xff\n\t #-019npXe");
            match random.below(3) {
                0 => text[place] = byte,
                1 => text.insert(place, byte),
                _ => drop(text.remove(place)),
            }
        }
        let lines = text.split(|&byte| byte == b'\n').count();
        match make(&text) {
            Ok(_) => made += 1,
            Err(slips) => {
                told += 1;
                assert!(slips.iter().all(|slip| (1..=lines).contains(&slip.line)));
                assert!(slips.windows(2).all(|pair| pair[0].line < pair[1].line));
                let messages = slips.iter().map(|slip| slip.message.as_str());
                assert!(messages
                    .into_iter()
                    .all(|message| !message.contains(char::is_control)));
            }
        }
    }
    assert!(made > 1000 && told > 1000, "{made} made, {told} told");
}
