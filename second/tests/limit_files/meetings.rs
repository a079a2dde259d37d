//! Files with two faults in one field: the name says which number comes first,
//! and the mended file shows the other one.

use std::collections::BTreeSet;

use second::limits::limit_files;

use crate::support::refusal;

/// The numbers that can meet in one field, by the first that is given.
const MEETINGS: [(u8, &[u8]); 13] = [
    (1, &[2, 3, 4, 5, 6, 7, 8, 9, 10, 11, 12, 13]),
    (2, &[3, 4, 5, 6, 7, 8, 9, 10, 11, 12, 13, 14]),
    (3, &[4, 5, 9, 14]),
    (4, &[5, 6, 7, 8, 9, 10, 11, 12, 13, 14]),
    (5, &[6, 7, 8, 9, 10, 11, 12, 13, 14]),
    (6, &[7, 8, 9, 10, 11, 12, 13, 14]),
    (7, &[8, 9, 10, 11, 12, 13, 14]),
    (8, &[9, 14]),
    (9, &[5, 6, 7, 10, 12, 14]),
    (10, &[11, 12, 13, 14]),
    (11, &[13, 14]),
    (12, &[14]),
    (13, &[14]),
];

/// The two numbers in a name of this family, and whether the file is mended.
fn meeting(name: &str) -> Option<(u8, u8, bool)> {
    let words: Vec<&str> = name.trim_end_matches(".cir").split('-').collect();
    let ["order", first, "before", second, what @ ..] = words.as_slice() else {
        return None;
    };
    let number = |word: &str| word.parse().expect("the name has two numbers");
    let mended = what.last() == Some(&"mended");
    Some((number(first), number(second), mended))
}

#[test]
fn the_first_number_is_given() {
    let mut met = BTreeSet::new();
    for file in limit_files() {
        let Some((first, second, mended)) = meeting(&file.name) else {
            continue;
        };
        let expected = if mended { second } else { first };
        let number = refusal(&file.bytes).map(|(number, _)| number);
        assert_eq!(number, Some(expected), "{}", file.name);
        met.insert((first, second));
    }
    let expected: BTreeSet<(u8, u8)> = MEETINGS
        .iter()
        .flat_map(|&(first, others)| others.iter().map(move |&second| (first, second)))
        .collect();
    assert_eq!(met, expected);
}

#[test]
fn each_comes_with_its_mended_file() {
    let files = limit_files();
    let names: BTreeSet<&str> = files.iter().map(|file| file.name.as_str()).collect();
    let mut count = 0;
    for name in &names {
        if let Some((_, _, false)) = meeting(name) {
            let mended = name.replace(".cir", "-mended.cir");
            assert!(names.contains(mended.as_str()), "{mended}");
            count += 1;
        }
    }
    let orders = names.iter().filter(|name| name.starts_with("order-"));
    assert_eq!(orders.count(), 2 * count);
}
