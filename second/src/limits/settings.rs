//! Types that fail under some settings of their labels only: under one, such as the
//! first, the last or one at an end of a block of 64, under a run of them, or under
//! one in every block. Setting s gives label l the bit of s at l. Types of the same
//! shape that do not fail are among them, so a wrong refusal shows as well.

use std::ops::Range;

use super::{named, NamedFile};
use crate::builder::{EdgeRow, FileBuilder};

/// How many labels, and settings of them.
pub const SINGLES: [(u8, &[u16]); 6] = [
    (1, &[0, 1]),
    (2, &[0, 1, 2, 3]),
    (5, &[0, 1, 15, 16, 30, 31]),
    (6, &[0, 1, 31, 32, 62, 63]),
    (7, &[0, 62, 63, 64, 65, 127]),
    (
        12,
        &[0, 63, 64, 127, 128, 2_047, 2_048, 4_031, 4_032, 4_095],
    ),
];

/// How many labels, the first setting of a run, and how many low labels have any
/// value in it.
const RUNS: [(u8, u16, u8); 12] = [
    (7, 0, 6),
    (7, 32, 5),
    (7, 64, 5),
    (7, 64, 6),
    (12, 0, 6),
    (12, 0, 11),
    (12, 32, 5),
    (12, 1_984, 6),
    (12, 2_048, 6),
    (12, 2_048, 11),
    (12, 4_032, 5),
    (12, 4_032, 6),
];

/// Places in every block of 64.
const PLACES: [u16; 3] = [0, 1, 63];

/// What the output is joined to under the settings: whether ground, whether supply.
pub const JOINED: [(&str, bool, bool); 4] = [
    ("both", true, true),
    ("neither", false, false),
    ("ground", true, false),
    ("supply", false, true),
];

pub fn files() -> Vec<NamedFile> {
    let all = [singles(), runs(), places()].concat();
    all.iter().flat_map(Settings::files).collect()
}

fn singles() -> Vec<Settings> {
    let mut all = Vec::new();
    for (labels, settings) in SINGLES {
        for &first in settings {
            let name = format!("setting-{first}-of-k{labels}");
            all.push(Settings::new(name, labels, 0..labels, first));
        }
    }
    all
}

fn runs() -> Vec<Settings> {
    let run = |(labels, first, free): (u8, u16, u8)| {
        let last = first + (1 << free) - 1;
        let name = format!("settings-{first}-to-{last}-of-k{labels}");
        Settings::new(name, labels, free..labels, first)
    };
    RUNS.map(run).to_vec()
}

fn places() -> Vec<Settings> {
    let mut all = Vec::new();
    for labels in [7, 12] {
        for place in PLACES {
            let name = format!("settings-{place}-of-each-64-of-k{labels}");
            all.push(Settings::new(name, labels, 0..6, place));
        }
    }
    all
}

/// The settings that are as the first of them at the fixed labels. Of these, `ones`
/// are 1 and `zeros` are 0.
#[derive(Clone)]
struct Settings {
    name: String,
    labels: u8,
    first: u16,
    ones: Vec<u8>,
    zeros: Vec<u8>,
}

impl Settings {
    fn new(name: String, labels: u8, fixed: Range<u8>, first: u16) -> Settings {
        let (ones, zeros) = fixed.partition(|label| first >> label & 1 == 1);
        Settings {
            name,
            labels,
            first,
            ones,
            zeros,
        }
    }

    /// With all labels at 0 no n-channel edge is on, with all at 1 no p-channel one,
    /// so not every rail can be had.
    fn files(&self) -> Vec<NamedFile> {
        let can_be = |&&(_, ground, supply): &&(&str, bool, bool)| {
            !(ground && self.ones.is_empty() || supply && self.zeros.is_empty())
        };
        let file = |&(word, ground, supply): &(&str, bool, bool)| {
            named(format!("{}-{word}", self.name), self.file(ground, supply))
        };
        JOINED.iter().filter(can_be).map(file).collect()
    }

    /// The one vector is the first of the settings.
    fn file(&self, ground: bool, supply: bool) -> FileBuilder {
        let references: Vec<i16> = (1..=i16::from(self.labels)).collect();
        let digit = |label: u8| b'0' + (self.first >> label & 1) as u8;
        let vector: Vec<u8> = (0..self.labels).map(digit).collect();
        self.with_type(ground, supply)
            .instance(1, -1, &references)
            .field(6, &vector)
    }

    /// Under any other setting exactly one rail is joined: supply while one of `ones`
    /// is 0, and else ground, since one of `zeros` is 1. The rest depends on what is
    /// asked for. To join supply, a series of all `zeros` is added to the p network.
    /// To join ground, the n network does without `zeros`.
    fn with_type(&self, ground: bool, supply: bool) -> FileBuilder {
        let (ones, zeros) = (&self.ones[..], &self.zeros[..]);
        let output = 1 + zeros.len().max(1) as u8;
        let (in_series, last) = match ground {
            true => ones.split_at(ones.len() - 1),
            false => (ones, zeros),
        };
        let highest = output + in_series.len() as u8;
        let added = if supply { zeros } else { &[] };
        let edges = [
            parallel(1, output, ones),
            series(1, added),
            series(output, in_series),
            parallel(highest, 0, last),
        ];
        FileBuilder::inputs(u16::from(self.labels)).module(
            highest,
            output,
            self.labels,
            &edges.concat(),
        )
    }
}

/// An edge for each label, from node to next node.
fn series(from: u8, labels: &[u8]) -> Vec<EdgeRow<'_>> {
    let nodes = from..;
    nodes
        .zip(labels.chunks(1))
        .map(|(node, label)| (node, node + 1, label))
        .collect()
}

/// As few fields as hold all labels.
fn parallel(a: u8, b: u8, labels: &[u8]) -> Vec<EdgeRow<'_>> {
    labels.chunks(4).map(|some| (a, b, some)).collect()
}
