//! Files with series of every length: the greatest distance from a rail by rules for whole
//! families, read from their names, and by another way; and slips that show in them.

use std::sync::OnceLock;

use second::builder::NamedFile;
use second::circuit::Circuit;
use second::limits::limit_files;
use second::read::read;

use crate::support::answer;
use crate::support::distances::{depths, greatest, slipped, SLIPS};

/// A file of these families, by its name without `rounds-` and `.cir`.
struct File {
    name: String,
    circuit: Circuit,
    rounds: usize,
}

/// Graded once for all tests.
fn files() -> &'static [File] {
    static ALL: OnceLock<Vec<File>> = OnceLock::new();
    ALL.get_or_init(|| {
        let mut all = Vec::new();
        for file in limit_files() {
            let name = file.name.strip_prefix("rounds-");
            if let Some(name) = name.and_then(|name| name.strip_suffix(".cir")) {
                all.push(File {
                    name: name.to_string(),
                    circuit: read(&file.bytes).expect(name),
                    rounds: answer(&file.bytes).expect(name).rounds,
                });
            }
        }
        all
    })
}

/// Checks the rule for each name with this first word; answers with how many there were.
fn check(word: &str, rule: impl Fn(&[&str]) -> usize) -> usize {
    let mut count = 0;
    for File { name, rounds, .. } in files() {
        let words: Vec<&str> = name.split('-').collect();
        if words[0] == word {
            assert_eq!(*rounds, rule(&words[1..]), "{name}");
            count += 1;
        }
    }
    count
}

fn number(word: &str) -> usize {
    word.parse().expect("the word is a number")
}

/// What the letters do to the channel of a rail's side: turn it on, off, or neither is known.
#[derive(Clone, Copy, PartialEq, Eq)]
enum Turn {
    On,
    Off,
    Unknown,
}

use Turn::{Off, On, Unknown};

fn turns(rail: &str, letters: &str) -> Vec<Turn> {
    let on = if rail == "ground" { '1' } else { '0' };
    let turn = |letter: char| match letter {
        'x' => Unknown,
        _ if letter == on => On,
        _ => Off,
    };
    letters.chars().map(turn).collect()
}

/// A series with one label, beside the edge from the other rail.
fn of_chain(length: usize, turn: Turn) -> usize {
    match turn {
        On => length,
        Off => 1,
        Unknown => 0,
    }
}

#[test]
fn chains() {
    let rule = |words: &[&str]| match *words {
        [length, "from", rail, "outward" | "inward", "under", letter] => {
            of_chain(number(length), turns(rail, letter)[0])
        }
        [length, "from", _, "in", "place", _, "of", _] => number(length),
        _ => panic!("{words:?}"),
    };
    assert_eq!(check("chain", rule), 2 * 30 * (2 * 3 + 5));
}

#[test]
fn the_longest_of_several() {
    assert_eq!(check("longest", |_| 30), 2 * 8 * 3 * 2);
    let lengths = |words: &[&str]| match words.contains(&"not") {
        true => 29,
        false => 30,
    };
    assert_eq!(check("lengths", lengths), 2 * 2 * 2);
}

/// What a NAND turns on behind it, and how far its own nodes are.
fn nand(letters: &str) -> (char, usize) {
    match letters {
        "00" | "01" | "0x" | "x0" => ('1', 1),
        "10" => ('1', 2),
        "11" => ('0', 2),
        "x1" => ('x', 1),
        _ => ('x', 0),
    }
}

#[test]
fn behind_others() {
    let rule = |words: &[&str]| match *words {
        ["a", "nand", "from", rail, "under", letters] => {
            let (output, own) = nand(letters);
            of_chain(30, turns(rail, &output.to_string())[0]).max(own)
        }
        [count, "inverters", "from", rail, "under", letter] => {
            let turn = match (turns(rail, letter)[0], number(count) % 2) {
                (On, 1) => Off,
                (Off, 1) => On,
                (turn, _) => turn,
            };
            of_chain(30, turn)
        }
        _ => panic!("{words:?}"),
    };
    assert_eq!(check("behind", rule), 2 * (9 + 3 * 3));
}

/// The nodes before the one that the shortcut leads to are reached from both sides, those
/// behind it from there on.
#[test]
fn shortcuts() {
    let rule = |words: &[&str]| {
        let ["to", to, "from", rail, "under", letters] = *words else {
            panic!("{words:?}");
        };
        let to = number(to);
        match turns(rail, letters)[..] {
            [On, On] => to.div_ceil(2).max(1 + 30 - to),
            [Unknown, On] => 1,
            [chain, _] => of_chain(30, chain),
            _ => panic!("{words:?}"),
        }
    };
    assert_eq!(check("shortcut", rule), 2 * (28 + 8));
}

/// With both labels on, the series before the output is a ring with the edge beside it.
/// Behind the output it goes on where label 1 is off, and to the other rail where label 0
/// is off as well.
#[test]
fn across_the_output() {
    let rule = |words: &[&str]| {
        let [before, "from", rail, "under", letters] = *words else {
            panic!("{words:?}");
        };
        let before = number(before);
        match turns(rail, letters)[..] {
            [On, On] => before.div_ceil(2),
            [On, Off] => 30,
            [On, Unknown] => before,
            [Off, Off] => 1 + 30 - before,
            [Off, _] | [_, On] => 1,
            _ => 0,
        }
    };
    assert_eq!(check("across", rule), 2 * 9 * 9);
}

#[test]
fn pass_transistors() {
    assert_eq!(check("passes", |_| 30), 2 * 8 * 2);
}

#[test]
fn no_other_family() {
    assert_eq!(files().len(), 660 + 96 + 8 + 36 + 72 + 162 + 32);
}

/// Accepted files of other families too, but for long ones, which take long.
#[test]
fn by_another_way() {
    let is_short = |file: &NamedFile| file.bytes.len() < 20_000;
    for file in limit_files().into_iter().filter(is_short) {
        if let Ok(circuit) = read(&file.bytes) {
            let graded = answer(&file.bytes).expect(&file.name);
            assert_eq!(graded.rounds, greatest(&circuit), "{}", file.name);
        }
    }
}

/// Each slip by itself gives another number for some of these files.
#[test]
fn slips_show() {
    let mut shown = [0; SLIPS.len()];
    for File {
        circuit, rounds, ..
    } in files()
    {
        let depths = depths(circuit);
        for (count, (_, slip)) in shown.iter_mut().zip(SLIPS) {
            *count += usize::from(slipped(circuit, &depths, slip) != *rounds);
        }
    }
    for ((name, _), count) in SLIPS.iter().zip(shown) {
        assert!(count >= 20, "{name}: {count}");
    }
}
