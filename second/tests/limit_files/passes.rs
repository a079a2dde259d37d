//! The files with pass transistors: rules of the paper for whole families, and the marks
//! of small types by what their nodes are joined to.

use std::collections::BTreeMap;

use second::circuit::Kind;
use second::grade::{Graded, Row};
use second::limits::limit_files;

use crate::families::check;
use crate::support::{answer, refusal};

/// The inverter's label is the pass transistor's too. Where it is 0, supply and output are
/// joined and a p-channel one is on; where it is 1, ground and output and an n-channel one.
fn breaks_an_inverter([a, b]: [usize; 2], is_p: bool, output: usize) -> bool {
    let joins = |one: usize, others: [usize; 2]| {
        a == one && others.contains(&b) || b == one && others.contains(&a)
    };
    match is_p {
        true => joins(0, [1, output]),
        false => joins(1, [0, output]),
    }
}

#[test]
fn ends() {
    let rule = |rest: &str, numbers: &[usize]| {
        let [a, b, h, o] = *numbers else {
            panic!("the name has four numbers");
        };
        if a > h || b > h || a == b {
            7
        } else if breaks_an_inverter([a, b], rest.contains("-p-"), o) {
            9
        } else {
            0
        }
    };
    let both = 2 * (25 + 49 + 49 + 121 + 121);
    assert_eq!(check("pass-ends-", rule), both);
    assert_eq!(check("pass-equal-", |_, _| 7), 2 * (4 + 8 + 33));
}

#[test]
fn channels_and_labels() {
    let channels = |_: &str, numbers: &[usize]| match numbers[0] {
        0 | 1 => 0,
        _ => 7,
    };
    assert_eq!(check("pass-channel-", channels), 256);
    let labels = |_: &str, numbers: &[usize]| 7 * u8::from(numbers[0] >= numbers[1]);
    assert_eq!(check("pass-label-", labels), 2 * (7 + 8 + 6));
    let lengths = |_: &str, numbers: &[usize]| match numbers[0] {
        4 => 9,
        _ => 5,
    };
    assert_eq!(check("pass-as-edge-", lengths), 4);
}

/// Edges and bytes of each field of a file of runs, in order.
fn fields(name: &str) -> Vec<(usize, usize)> {
    let mut fields = Vec::new();
    let mut words = name.split('-');
    while let Some(count) = words.next() {
        let number = |word: &str| word.parse::<usize>().expect("a run has numbers");
        let field = match words.next() {
            Some("passes") => (1, 7),
            _ => {
                let labels = words.next().map_or(0, number);
                (labels, 5 + labels)
            }
        };
        fields.extend(vec![field; number(count)]);
    }
    fields
}

/// Both tags are counted together, and the field that passes 256 is refused as a whole.
#[test]
fn runs() {
    let (mut count, mut refused) = (0, 0);
    for file in limit_files() {
        let name = file.name.strip_prefix("pass-runs-");
        let Some(name) = name.and_then(|name| name.strip_suffix(".cir")) else {
            continue;
        };
        let (mut edges, mut place) = (0, 11);
        let mut expected = None;
        for (more, bytes) in fields(name) {
            edges += more;
            if edges > 256 && expected.is_none() {
                expected = Some((6, place));
            }
            place += bytes;
        }
        assert_eq!(refusal(&file.bytes), expected, "{}", file.name);
        count += 1;
        refused += usize::from(expected.is_some());
    }
    assert_eq!((count, refused), (30 + 20, 14 + 10));
}

#[test]
fn turns() {
    let rule = |rest: &str, numbers: &[usize]| match numbers[0] {
        _ if rest.contains("then") => 6,
        0..=256 if rest.ends_with("breaks") => 9,
        0..=256 => 0,
        _ => 6,
    };
    assert_eq!(check("pass-turns-", rule), 5 + 2 * 7 + 3);
}

#[derive(Clone, Copy, PartialEq, Eq)]
enum Level {
    Supply,
    Ground,
    Floating,
}

/// What each node is joined to while the label is 0, or 1; none if both rails are joined.
/// The second of two inner nodes of one side is on no rail of its own.
fn levels(h: usize, o: usize, ends: [usize; 2], is_p: bool, label: char) -> Option<Vec<Level>> {
    let is_p_node = |node: &usize| (2..o).contains(node);
    let is_n_node = |node: &usize| *node > o;
    let are_of_one_side = ends.iter().all(is_p_node) || ends.iter().all(is_n_node);
    let level = |node: usize| match (node, label) {
        (0, _) => Level::Ground,
        (1, _) => Level::Supply,
        _ if are_of_one_side && node == ends[1] => Level::Floating,
        (_, '0') if node <= o => Level::Supply,
        (_, '1') if node >= o => Level::Ground,
        _ => Level::Floating,
    };
    let mut levels: Vec<Level> = (0..=h).map(level).collect();
    let is_on = label == if is_p { '0' } else { '1' };
    if is_on {
        let [a, b] = ends;
        match (levels[a], levels[b]) {
            (Level::Floating, other) => levels[a] = other,
            (other, Level::Floating) => levels[b] = other,
            (one, other) if one != other => return None,
            _ => {}
        }
    }
    Some(levels)
}

fn is_marked(levels: &[Level], label: char, row: &Row) -> bool {
    let first = levels[usize::from(row.bridge.first)];
    let second = match row.bridge.kind {
        Kind::Nodes => levels[usize::from(row.bridge.second)],
        Kind::Label if label == '1' => Level::Supply,
        Kind::Label => Level::Ground,
    };
    first != second && first != Level::Floating && second != Level::Floating
}

/// Ends, whether p-channel, highest node and output node, by the name.
fn shown(name: &str) -> Option<([usize; 2], bool, usize, usize)> {
    let name = name.strip_prefix("pass-shows-")?;
    let words = name.split(|c: char| !c.is_ascii_digit());
    let numbers: Vec<usize> = words.filter_map(|word| word.parse().ok()).collect();
    let [a, b, h, o] = numbers[..] else {
        panic!("{name} has four numbers");
    };
    Some(([a, b], name.contains("-p-"), h, o))
}

/// Refused by 9, or each row marked under 0 and 1 as the levels say; under X nothing is on
/// and 0-1 alone is marked.
#[test]
fn marks_are_those_of_the_channel() {
    let (mut accepted, mut refused) = (0, 0);
    for file in limit_files() {
        let Some((ends, is_p, h, o)) = shown(&file.name) else {
            continue;
        };
        let both = ['0', '1'].map(|label| levels(h, o, ends, is_p, label));
        let [Some(at_0), Some(at_1)] = both else {
            assert_eq!(refusal(&file.bytes), Some((9, 5)), "{}", file.name);
            refused += 1;
            continue;
        };
        for row in answer(&file.bytes).expect(&file.name).rows {
            let is_rails = row.bridge.kind == Kind::Nodes && row.bridge.second == 1;
            let marks = [
                is_marked(&at_0, '0', &row),
                is_marked(&at_1, '1', &row),
                is_rails && row.bridge.first == 0,
            ];
            assert_eq!(row.marks, marks, "{}: {row:?}", file.name);
        }
        accepted += 1;
    }
    assert_eq!(accepted + refused, 2 * (6 + 12 + 12 + 20 + 42));
}

/// With the other channel the answer is another one, but for supply with ground.
#[test]
fn the_other_channel_shows() {
    let mut answers: BTreeMap<_, Vec<Option<Graded>>> = BTreeMap::new();
    for file in limit_files() {
        if let Some((ends, _, h, o)) = shown(&file.name) {
            let answer = answer(&file.bytes).ok();
            answers.entry((ends, h, o)).or_default().push(answer);
        }
    }
    for (([a, b], h, o), answers) in answers {
        let [n, p] = &answers[..] else {
            panic!("{a}-{b} in h{h} o{o} has both channels");
        };
        let is_rails = a + b == 1;
        assert_eq!(n == p, is_rails, "{a}-{b} in h{h} o{o}");
    }
}
