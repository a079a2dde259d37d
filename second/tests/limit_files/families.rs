//! Rules of the paper for whole families of files, read from their names.

use second::limits::limit_files;

use crate::support::refusal;

/// Checks the number that a rule gives for the numbers in each name that starts
/// so, 0 for an accepted file; answers with how many files there were.
pub fn check(prefix: &str, rule: impl Fn(&str, &[usize]) -> u8) -> usize {
    let mut count = 0;
    for file in limit_files() {
        if let Some(rest) = file.name.strip_prefix(prefix) {
            let rest = rest.trim_end_matches(".cir");
            let words = rest.split(|c: char| !c.is_ascii_digit());
            let numbers: Vec<usize> = words.filter_map(|word| word.parse().ok()).collect();
            let number = refusal(&file.bytes).map_or(0, |(number, _)| number);
            assert_eq!(number, rule(rest, &numbers), "{}", file.name);
            count += 1;
        }
    }
    count
}

#[test]
fn vector_bytes() {
    let rule = |_: &str, numbers: &[usize]| match numbers[0] {
        48 | 49 | 88 => 0,
        _ => 7,
    };
    assert_eq!(check("vector-byte-", rule), 512);
}

#[test]
fn list_choices() {
    let rule = |rest: &str, numbers: &[usize]| match numbers[0] {
        0 | 255 if rest.ends_with("with-its-list") => 7,
        0 | 255 => 0,
        1..=127 if rest.ends_with("without-its-list") => 12,
        1..=127 => 0,
        _ => 7,
    };
    assert_eq!(check("choice-", rule), 3 * 256);
}

#[test]
fn field_lengths() {
    let good = |length: usize, allowed: &[usize]| if allowed.contains(&length) { 0 } else { 5 };
    for tag in [1, 2, 3, 4, 6, 7] {
        let rule = |_: &str, numbers: &[usize]| match (tag, numbers) {
            (1, [length]) => good(*length, &[2]),
            (2, [length]) => good(*length, &[3]),
            (3, [length]) => good(*length, &[3, 4, 5, 6]),
            (4 | 7, [length]) => good(*length, &[4]),
            (_, [length]) => good(*length, &[2]),
            (_, numbers) => good(numbers[0], &[64]),
        };
        let more = if tag == 6 { 8 } else { 0 };
        assert_eq!(check(&format!("length-tag{tag}-"), rule), 31 + 15 + more);
    }
}

#[test]
fn instance_lengths() {
    let rule = |_: &str, numbers: &[usize]| match numbers {
        [4] | [26, 12] => 0,
        [length, ..] if length % 2 == 1 || *length < 4 || *length > 26 => 5,
        _ => 10,
    };
    assert_eq!(check("length-tag5-", rule), 31 + 15 + 31);
}

#[test]
fn inputs_and_types() {
    let inputs = |_: &str, numbers: &[usize]| match numbers[0] {
        1..=64 => 0,
        _ => 7,
    };
    assert_eq!(check("inputs-", inputs), 18);
    let types = |_: &str, numbers: &[usize]| match *numbers {
        [h @ 2..=31, o, 1..=12] if (2..=h).contains(&o) => 0,
        _ => 7,
    };
    assert!(check("type-h", types) > 100);
    let type_numbers = |_: &str, numbers: &[usize]| match *numbers {
        [number, types] if (1..=types).contains(&number) => 0,
        _ => 7,
    };
    assert!(check("type-number-", type_numbers) > 20);
}

#[test]
fn edges() {
    let ends = |_: &str, numbers: &[usize]| {
        let [a, b, h, o] = *numbers else {
            panic!("the name has four numbers");
        };
        let p = |node: usize| 1 <= node && node <= o;
        let n = |node: usize| node >= o || node == 0;
        if a > h || b > h {
            7
        } else if a == b || !(p(a) && p(b) || n(a) && n(b)) {
            8
        } else {
            0
        }
    };
    assert_eq!(check("edge-ends-", ends), 25 + 49 + 49 + 121 + 121);
    let labels = |_: &str, numbers: &[usize]| {
        let (k, labels) = numbers.split_last().expect("the name ends in k");
        7 * u8::from(labels.iter().any(|label| label >= k))
    };
    assert!(check("edge-labels-", labels) > 100);
}

/// Labels count, not fields; a number behind `then` is of one field more.
#[test]
fn edge_counts() {
    let rule = |rest: &str, numbers: &[usize]| {
        let more = if rest.contains("then") { numbers[2] } else { 0 };
        match numbers[0] + more {
            0..=256 if rest.ends_with("breaks") => 9,
            0..=256 => 0,
            _ => 6,
        }
    };
    assert_eq!(check("edges-", rule), 4 * 10 + 2 * (20 + 14 + 2));
}

#[test]
fn bridges() {
    let nodes = |_: &str, numbers: &[usize]| {
        7 * u8::from(numbers[0] > 31 || numbers[1] > 31 || numbers[0] == numbers[1])
    };
    assert_eq!(check("bridge-nodes-", nodes), 100);
    let labels = |_: &str, numbers: &[usize]| 7 * u8::from(numbers[0] > 31 || numbers[1] > 11);
    assert_eq!(check("bridge-node-", labels), 110);
    let fit_nodes = |_: &str, numbers: &[usize]| 11 * u8::from(numbers[0] > 5 || numbers[1] > 5);
    assert_eq!(check("chosen-nodes-", fit_nodes), 23);
    let fit_labels = |_: &str, numbers: &[usize]| 11 * u8::from(numbers[0] > 5 || numbers[1] > 2);
    assert_eq!(check("chosen-node-", fit_labels), 20);
}

#[test]
fn references() {
    let counts = |_: &str, numbers: &[usize]| 10 * u8::from(numbers[0] != numbers[1]);
    assert_eq!(check("references-", counts), 144);
    let rule = |rest: &str, numbers: &[usize]| {
        let (inputs, earlier) = match numbers[1] {
            _ if rest.contains("label") => (3, 2),
            128 => (64, 127),
            instance => (3, instance - 1),
        };
        let most = if rest.starts_with("minus") {
            earlier
        } else {
            inputs
        };
        10 * u8::from(!(1..=most).contains(&numbers[0]))
    };
    assert_eq!(check("reference-", rule), 29 * 6 + 7);
}

/// The number for each tag, in a row for each tag before; 0 is accepted.
type TagPairs = [[u8; 9]; 9];

const IN_A_WHOLE_FILE: TagPairs = [
    [3, 3, 3, 3, 3, 3, 3, 3, 3],
    [3, 4, 0, 4, 7, 7, 14, 4, 3],
    [3, 4, 9, 0, 9, 9, 9, 0, 3],
    [3, 4, 0, 0, 0, 0, 14, 0, 3],
    [3, 4, 4, 4, 0, 0, 14, 4, 3],
    [3, 4, 4, 4, 4, 0, 0, 4, 3],
    [3, 4, 4, 4, 4, 4, 0, 4, 3],
    [3, 4, 0, 0, 0, 0, 14, 0, 3],
    [3, 3, 3, 3, 3, 3, 3, 3, 3],
];

const AFTER_THE_INPUTS_ALONE: TagPairs = [
    [3, 3, 3, 3, 3, 3, 3, 3, 3],
    [4, 4, 4, 4, 4, 4, 4, 4, 4],
    [3, 4, 9, 9, 9, 9, 9, 9, 3],
    [4, 4, 4, 4, 4, 4, 4, 4, 4],
    [3, 4, 4, 4, 14, 7, 14, 4, 3],
    [7, 7, 7, 7, 7, 7, 7, 7, 7],
    [3, 4, 4, 4, 4, 4, 14, 4, 3],
    [4, 4, 4, 4, 4, 4, 4, 4, 4],
    [3, 3, 3, 3, 3, 3, 3, 3, 3],
];

#[test]
fn pairs_of_tags() {
    for before in 0..9 {
        let rule = |rest: &str, numbers: &[usize]| match rest.ends_with("and-no-more") {
            true => AFTER_THE_INPUTS_ALONE[before][numbers[0]],
            false => IN_A_WHOLE_FILE[before][numbers[0]],
        };
        assert_eq!(check(&format!("tags-{before}-then-"), rule), 18);
    }
    let first = |_: &str, numbers: &[usize]| match numbers[0] {
        1 => 0,
        2..=7 => 4,
        _ => 3,
    };
    assert_eq!(check("tags-none-then-", first), 11);
}

/// Inside a field a cut is always 2; these are the numbers at the ends of fields.
#[test]
fn cuts() {
    let inverter = |_: &str, numbers: &[usize]| match numbers[0] {
        0 | 5 | 23 | 30 => 14,
        11 | 17 => 9,
        34 | 38 | 42 => 0,
        _ => 2,
    };
    assert_eq!(check("cut-inverter-", inverter), 43);
    let every_kind = |_: &str, numbers: &[usize]| match numbers[0] {
        0 | 5 | 23 | 49 | 103 | 110 | 117 | 124 | 131 | 138 | 147 | 160 | 167 => 14,
        11 | 17 | 29 | 37 | 43 | 55 | 62 | 71 | 77 | 83 | 90 | 97 => 9,
        173 | 179 | 185 => 0,
        _ => 2,
    };
    assert_eq!(check("cut-every-kind-", every_kind), 186);
    let mux = |_: &str, numbers: &[usize]| match numbers[0] {
        0 | 5 | 52 | 63 => 14,
        11 | 17 | 24 | 31 | 38 | 45 => 9,
        length @ 64.. if (length - 63) % 6 == 0 => 0,
        _ => 2,
    };
    assert_eq!(check("cut-mux-", mux), 124);
}
