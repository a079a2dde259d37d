//! When a type with pass transistors is judged: not at one of them, which may complete
//! or break it, but at the field behind them or at the end.

use super::{named, NamedFile};
use crate::builder::{FileBuilder, N, P};
use crate::limits::frame::good_body;
use crate::starts::{broken_type, two_inputs, with_type};

pub fn files() -> Vec<NamedFile> {
    [completed(), then_a_field(), of_the_second_type()].concat()
}

/// A type with an edge from supply alone is half an inverter.
fn completed() -> Vec<NamedFile> {
    let bare = || two_inputs().field(2, &[2, 2, 1]);
    let cases = [
        ("bare-then-both", bare().pass(1, 2, P, 0).pass(0, 2, N, 0)),
        ("bare-then-one", bare().pass(1, 2, P, 0)),
        ("half-then-its-other", broken_type().pass(0, 2, N, 0)),
        ("half-then-the-same", broken_type().pass(1, 2, P, 0)),
        ("half-then-a-short", broken_type().pass(0, 2, P, 0)),
        ("half-then-an-opposite", broken_type().pass(1, 2, N, 0)),
        ("whole-then-the-same", with_type().pass(1, 2, P, 0)),
        ("whole-then-a-short", with_type().pass(0, 2, P, 0)),
        ("whole-then-an-opposite", with_type().pass(1, 2, N, 0)),
        ("whole-then-the-rails", with_type().pass(1, 0, N, 0)),
    ];
    let file = |(what, file): (&str, FileBuilder)| {
        let file = file.instance(1, -1, &[1]).vectors(&["00", "1X"]);
        named(format!("pass-judged-{what}"), file)
    };
    cases.into_iter().map(file).collect()
}

/// Behind a pass transistor of a broken type a field of each tag, whole or cut.
fn then_a_field() -> Vec<NamedFile> {
    let broken = broken_type().pass(1, 2, P, 0);
    let mut files = vec![named("pass-judged-broken-then-the-end", broken.clone())];
    for tag in 0..=8 {
        let file = broken.clone().field(tag, good_body(tag));
        let cut = file.clone().resized(broken.end() + 2);
        files.push(named(format!("pass-judged-broken-then-tag-{tag}"), file));
        let name = format!("pass-judged-broken-then-tag-{tag}-cut");
        files.push(named(name, cut));
    }
    files
}

fn of_the_second_type() -> Vec<NamedFile> {
    let second = with_type().field(2, &[2, 2, 1]).pass(1, 2, P, 0);
    let whole = |file: FileBuilder| file.instance(2, -1, &[1]).vectors(&["00", "1X"]);
    vec![
        named("pass-judged-second-broken", whole(second.clone())),
        named("pass-judged-second-whole", whole(second.pass(2, 0, N, 0))),
    ]
}
