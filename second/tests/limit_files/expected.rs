//! Files of every family by name, with the number and place that the paper gives,
//! or none for an accepted file. The places are counted by hand: inputs take 5
//! bytes, an inverter 18, a bridge 7, an instance of it 7.

use std::collections::BTreeMap;

use second::limits::limit_files;

use crate::support::refusal;

type Expected = (&'static str, Option<(u8, usize)>);

const COUNTS: &[Expected] = &[
    ("types-16", None),
    ("types-17", Some((6, 293))),
    ("bridges-256", None),
    ("bridges-257", Some((6, 1_815))),
    ("instances-128", None),
    ("instances-129", Some((6, 919))),
    ("vectors-1", None),
    ("vectors-64", None),
    ("vectors-65", None),
    ("vectors-256", None),
    ("vectors-257", Some((6, 1_054))),
    ("faults-0", None),
    ("faults-2048", None),
    ("faults-2049", Some((13, 1_266))),
    ("faults-exhaustive-last-2048", None),
    ("faults-exhaustive-last-2049", Some((13, 1_892))),
    ("faults-2048-then-none", None),
    ("faults-2048-in-128-instances", None),
    ("faults-2064-in-129-instances", Some((6, 1_031))),
    ("faults-32768-in-lists", Some((13, 1_871))),
    ("faults-112640-exhaustive", Some((13, 81))),
];

/// By one label to four, the 257th edge is in field 257, 129, 87 and 65. There are as
/// many single fields before the groups as the count leaves over.
const EDGES: &[Expected] = &[
    ("edges-65-by-1", None),
    ("edges-65-by-4", None),
    ("edges-256-by-1", None),
    ("edges-257-by-1", Some((6, 11 + 256 * 6))),
    ("edges-256-by-2", None),
    ("edges-257-by-2", Some((6, 11 + 6 + 127 * 7))),
    ("edges-258-by-2", Some((6, 11 + 128 * 7))),
    ("edges-256-by-3", None),
    ("edges-258-by-3", Some((6, 11 + 85 * 8))),
    ("edges-256-by-4", None),
    ("edges-257-by-4", Some((6, 11 + 6 + 63 * 9))),
    ("edges-260-by-4", Some((6, 11 + 64 * 9))),
    ("edges-254-by-1-then-2", None),
    ("edges-255-by-1-then-2", Some((6, 11 + 255 * 6))),
    ("edges-252-by-4-then-4", None),
    ("edges-253-by-4-then-4", Some((6, 11 + 6 + 63 * 9))),
    ("edges-256-by-4-then-1", Some((6, 11 + 64 * 9))),
    ("edges-256-by-1-of-which-256-breaks", Some((9, 5))),
    ("edges-256-by-1-of-which-256-is-needed", None),
    ("edges-256-by-4-of-which-64-breaks", Some((9, 5))),
    ("edges-256-by-4-of-which-65-is-needed", None),
    ("edges-256-by-1-in-each-of-16-types", None),
    (
        "edges-256-by-1-then-1-in-type-16",
        Some((6, 5 + 16 * (6 + 256 * 6))),
    ),
    ("edges-256-by-4-in-each-of-16-types", None),
    (
        "edges-256-by-4-then-1-in-type-16",
        Some((6, 5 + 16 * (6 + 64 * 9))),
    ),
];

const BYTES_AND_CUTS: &[Expected] = &[
    ("bytes-31973-fullest-by-4", None),
    ("bytes-32768-fewer-edges", None),
    ("bytes-32769-fewer-edges", None),
    ("bytes-32769-inverter-then-zeros", Some((3, 42))),
    ("bytes-47000-fewer-edges", None),
    ("bytes-47333-fullest-by-1", None),
    ("bytes-51429-fullest", None),
    ("bytes-57344-inverter-then-zeros", Some((3, 42))),
    ("bytes-57345-inverter-then-zeros", Some((1, 0))),
    ("bytes-57344-all-255", Some((2, 0))),
    ("bytes-57345-all-255", Some((1, 0))),
    ("bytes-57344-fullest-then-long-vector", Some((5, 51_429))),
    ("bytes-57344-fullest-then-cut-vector", Some((2, 51_429))),
    ("bytes-65578-inverter-then-zeros", Some((1, 0))),
    ("bytes-1000000-all-255", Some((1, 0))),
    ("cut-inverter-0-of-42", Some((14, 0))),
    ("cut-inverter-1-of-42", Some((2, 0))),
    ("cut-inverter-5-of-42", Some((14, 5))),
    ("cut-inverter-11-of-42", Some((9, 5))),
    ("cut-inverter-17-of-42", Some((9, 5))),
    ("cut-inverter-23-of-42", Some((14, 23))),
    ("cut-inverter-30-of-42", Some((14, 30))),
    ("cut-inverter-34-of-42", None),
    ("cut-inverter-41-of-42", Some((2, 38))),
    ("cut-inverter-42-of-42", None),
    ("cut-every-kind-89-of-185", Some((2, 83))),
    ("cut-every-kind-90-of-185", Some((9, 49))),
    ("cut-every-kind-184-of-185", Some((2, 179))),
    ("cut-every-kind-185-of-185", None),
    ("cut-mux-18-of-123", Some((2, 17))),
    ("cut-mux-23-of-123", Some((2, 17))),
    ("cut-mux-24-of-123", Some((9, 5))),
    ("cut-mux-51-of-123", Some((2, 45))),
    ("cut-mux-52-of-123", Some((14, 52))),
    ("cut-mux-123-of-123", None),
];

const LENGTHS: &[Expected] = &[
    ("length-tag1-1", Some((5, 0))),
    ("length-tag1-2", None),
    ("length-tag1-258", Some((5, 0))),
    ("length-tag2-2", Some((5, 5))),
    ("length-tag2-3", None),
    ("length-tag3-2", Some((5, 23))),
    ("length-tag3-3", None),
    ("length-tag3-6", None),
    ("length-tag3-7", Some((5, 23))),
    ("length-tag4-4", None),
    ("length-tag4-7", Some((5, 23))),
    ("length-tag5-3", Some((5, 51))),
    ("length-tag5-4", None),
    ("length-tag5-26", Some((10, 51))),
    ("length-tag5-28", Some((5, 51))),
    ("length-tag5-24-for-12-labels", Some((10, 23))),
    ("length-tag5-26-for-12-labels", None),
    ("length-tag5-28-for-12-labels", Some((5, 23))),
    ("length-tag6-2", None),
    ("length-tag6-3", Some((5, 58))),
    ("length-tag6-64-for-64-inputs", None),
    ("length-tag6-65-for-64-inputs", Some((5, 30))),
    ("length-tag7-0", Some((5, 23))),
    ("length-tag7-3", Some((5, 23))),
    ("length-tag7-4", None),
    ("length-tag7-5", Some((5, 23))),
    ("length-tag7-260", Some((5, 23))),
];

const TYPES_AND_EDGES: &[Expected] = &[
    ("inputs-0", Some((7, 0))),
    ("inputs-1", None),
    ("inputs-64", None),
    ("inputs-65", Some((7, 0))),
    ("inputs-257", Some((7, 0))),
    ("type-h1-o2-k1", Some((7, 5))),
    ("type-h2-o2-k1", None),
    ("type-h31-o31-k1", None),
    ("type-h32-o31-k1", Some((7, 5))),
    ("type-h4-o1-k1", Some((7, 5))),
    ("type-h4-o5-k1", Some((7, 5))),
    ("type-h2-o2-k0", Some((7, 5))),
    ("type-h2-o2-k12", None),
    ("type-h2-o2-k13", Some((7, 5))),
    ("edge-ends-1-4-in-h6-o4", None),
    ("edge-ends-6-0-in-h6-o4", None),
    ("edge-ends-1-5-in-h6-o4", Some((8, 23))),
    ("edge-ends-0-0-in-h6-o4", Some((8, 23))),
    ("edge-ends-7-1-in-h6-o4", Some((7, 23))),
    ("edge-ends-7-7-in-h6-o4", Some((7, 23))),
    ("edge-labels-11-of-k12", None),
    ("edge-labels-0-0-0-12-of-k12", Some((7, 23))),
];

/// Behind an inverter of 12 bytes of edges, at 23, but for what is judged at its type.
const PASSES: &[Expected] = &[
    ("pass-ends-1-4-p-in-h6-o4", None),
    ("pass-ends-1-4-n-in-h6-o4", Some((9, 5))),
    ("pass-ends-0-4-p-in-h6-o4", Some((9, 5))),
    ("pass-ends-5-1-p-in-h6-o4", None),
    ("pass-ends-0-1-n-in-h6-o4", Some((9, 5))),
    ("pass-ends-0-0-n-in-h6-o4", Some((7, 23))),
    ("pass-ends-7-1-p-in-h6-o4", Some((7, 23))),
    ("pass-ends-1-7-p-in-h6-o4", Some((7, 23))),
    ("pass-ends-30-2-n-in-h31-o17", None),
    ("pass-ends-32-2-n-in-h31-o17", Some((7, 23))),
    ("pass-equal-4-p-in-h6-o4", Some((7, 23))),
    ("pass-equal-32-n-in-h31-o31", Some((7, 23))),
    ("pass-channel-0", None),
    ("pass-channel-1", None),
    ("pass-channel-2", Some((7, 23))),
    ("pass-channel-128", Some((7, 23))),
    ("pass-channel-255", Some((7, 23))),
    ("pass-label-11-n-of-k12", None),
    ("pass-label-12-n-of-k12", Some((7, 23))),
    ("pass-as-edge-3", Some((5, 23))),
    ("pass-as-edge-4", Some((9, 5))),
    ("pass-runs-256-passes", None),
    ("pass-runs-257-passes", Some((6, 11 + 256 * 7))),
    ("pass-runs-256-by-1-1-passes", Some((6, 11 + 256 * 6))),
    ("pass-runs-256-passes-1-by-1", Some((6, 11 + 256 * 7))),
    (
        "pass-runs-253-by-1-1-passes-1-by-4",
        Some((6, 11 + 253 * 6 + 7)),
    ),
    ("pass-runs-251-by-1-1-passes-1-by-4", None),
    ("pass-turns-256", None),
    ("pass-turns-257", Some((6, 11 + 128 * 6 + 128 * 7))),
    ("pass-turns-256-of-which-256-breaks", Some((9, 5))),
    ("pass-turns-256-of-which-65-is-needed", None),
    ("pass-turns-256-in-each-of-16-types", None),
    (
        "pass-turns-256-then-a-pass-in-type-16",
        Some((6, 5 + 16 * (6 + 128 * 13))),
    ),
    ("pass-setting-0-of-k1-both-else-supply", Some((9, 5))),
    ("pass-setting-63-of-k6-neither-else-ground", Some((9, 5))),
    ("pass-setting-64-of-k7-ground-else-supply", None),
    ("pass-setting-4095-of-k12-both-by-the-rails", Some((9, 5))),
    ("pass-setting-4095-of-k12-supply-else-supply", None),
    ("pass-shows-0-2-n-in-h4-o3", None),
    ("pass-shows-0-2-p-in-h4-o3", Some((9, 5))),
];

/// Half a type takes 12 bytes and begins at 5; a pass transistor takes 7 behind it.
const JUDGED: &[Expected] = &[
    ("pass-judged-bare-then-both", None),
    ("pass-judged-bare-then-one", Some((9, 5))),
    ("pass-judged-half-then-its-other", None),
    ("pass-judged-half-then-the-same", Some((9, 5))),
    ("pass-judged-half-then-a-short", Some((9, 5))),
    ("pass-judged-half-then-an-opposite", None),
    ("pass-judged-whole-then-the-same", None),
    ("pass-judged-whole-then-a-short", Some((9, 5))),
    ("pass-judged-whole-then-an-opposite", Some((9, 5))),
    ("pass-judged-whole-then-the-rails", Some((9, 5))),
    ("pass-judged-broken-then-the-end", Some((9, 5))),
    ("pass-judged-broken-then-tag-0", Some((3, 24))),
    ("pass-judged-broken-then-tag-1", Some((4, 24))),
    ("pass-judged-broken-then-tag-2", Some((9, 5))),
    ("pass-judged-broken-then-tag-3", Some((9, 5))),
    ("pass-judged-broken-then-tag-4", Some((9, 5))),
    ("pass-judged-broken-then-tag-5", Some((9, 5))),
    ("pass-judged-broken-then-tag-6", Some((9, 5))),
    ("pass-judged-broken-then-tag-7", Some((9, 5))),
    ("pass-judged-broken-then-tag-8", Some((3, 24))),
    ("pass-judged-broken-then-tag-4-cut", Some((2, 24))),
    ("pass-judged-broken-then-tag-7-cut", Some((2, 24))),
    ("pass-judged-second-broken", Some((9, 23))),
    ("pass-judged-second-whole", None),
];

const SETTINGS: &[Expected] = &[
    ("setting-0-of-k1-neither", Some((9, 5))),
    ("setting-0-of-k1-supply", None),
    ("setting-1-of-k1-neither", Some((9, 5))),
    ("setting-1-of-k2-both", Some((9, 5))),
    ("setting-31-of-k5-neither", Some((9, 5))),
    ("setting-0-of-k6-neither", Some((9, 5))),
    ("setting-62-of-k6-both", Some((9, 5))),
    ("setting-63-of-k6-neither", Some((9, 5))),
    ("setting-63-of-k6-ground", None),
    ("setting-63-of-k7-both", Some((9, 5))),
    ("setting-64-of-k7-both", Some((9, 5))),
    ("setting-64-of-k7-supply", None),
    ("setting-2047-of-k12-both", Some((9, 5))),
    ("setting-2047-of-k12-ground", None),
    ("setting-4095-of-k12-neither", Some((9, 5))),
    ("setting-4095-of-k12-ground", None),
    ("settings-0-to-63-of-k7-neither", Some((9, 5))),
    ("settings-0-to-63-of-k12-neither", Some((9, 5))),
    ("settings-1984-to-2047-of-k12-both", Some((9, 5))),
    ("settings-4032-to-4095-of-k12-neither", Some((9, 5))),
    ("settings-4032-to-4095-of-k12-ground", None),
    ("settings-1-of-each-64-of-k12-both", Some((9, 5))),
    ("settings-63-of-each-64-of-k12-ground", None),
];

const BRIDGES_AND_CHOICES: &[Expected] = &[
    ("bridge-list-0", Some((7, 23))),
    ("bridge-list-1", None),
    ("bridge-list-127", None),
    ("bridge-list-128", Some((7, 23))),
    ("bridge-kind-1", None),
    ("bridge-kind-2", Some((7, 23))),
    ("bridge-nodes-31-30", None),
    ("bridge-nodes-31-31", Some((7, 23))),
    ("bridge-nodes-0-32", Some((7, 23))),
    ("bridge-node-31-label-11", None),
    ("bridge-node-31-label-12", Some((7, 23))),
    ("chosen-nodes-5-3-in-h5", None),
    ("chosen-nodes-6-1-in-h5", Some((11, 30))),
    ("chosen-node-5-label-3-in-h5-k3", Some((11, 30))),
    ("misfit-in-place-4-of-4", Some((11, 81))),
    ("misfit-in-another-list", None),
    ("misfit-for-the-second-instance", Some((11, 90))),
    ("choice-0-without-its-list", None),
    ("choice-127-with-its-list", None),
    ("choice-127-without-its-list", Some((12, 30))),
    ("choice-128-with-its-list", Some((7, 23))),
    ("choice-128-with-every-list", Some((7, 912))),
    ("choice-254-without-its-list", Some((7, 30))),
    ("choice-255-without-its-list", None),
];

const INSTANCES_AND_VECTORS: &[Expected] = &[
    ("type-number-1-of-0", Some((7, 5))),
    ("type-number-0-of-1", Some((7, 23))),
    ("type-number-16-of-16", None),
    ("type-number-17-of-16", Some((7, 293))),
    ("reference-0-in-instance-1", Some((10, 23))),
    ("reference-3-in-instance-1", None),
    ("reference-4-in-instance-1", Some((10, 23))),
    ("reference-minus-1-in-instance-1", Some((10, 23))),
    ("reference-minus-2-in-instance-3", None),
    ("reference-minus-3-in-instance-3", Some((10, 37))),
    ("reference-minus-4-in-instance-3", Some((10, 37))),
    ("reference-minus-32768-in-instance-3", Some((10, 37))),
    ("reference-minus-127-in-instance-128", None),
    ("reference-minus-128-in-instance-128", Some((10, 912))),
    ("references-12-for-k12", None),
    ("references-11-for-k12", Some((10, 23))),
    ("wires-inverters-on-one-each", None),
    ("wires-o31-all-in-instances-127-and-128", None),
    ("vector-byte-48", None),
    ("vector-byte-120", Some((7, 30))),
    ("vector-byte-88-last-of-64", None),
    ("vector-byte-0-last-of-64", Some((7, 30))),
];

const TAGS_AND_ORDERS: &[Expected] = &[
    ("tags-none-then-2", Some((4, 0))),
    ("tags-none-then-1", None),
    ("tags-3-then-4", None),
    ("tags-2-then-4", Some((9, 5))),
    ("tags-5-then-4", Some((4, 58))),
    ("tags-none-then-7", Some((4, 0))),
    ("tags-1-then-7", Some((4, 5))),
    ("tags-2-then-7", None),
    ("tags-3-then-7", None),
    ("tags-7-then-3", None),
    ("tags-7-then-7", None),
    ("tags-4-then-7", Some((4, 30))),
    ("tags-5-then-7", Some((4, 58))),
    ("tags-6-then-7", Some((4, 63))),
    ("tags-7-then-8", Some((3, 30))),
    ("order-2-before-9-head", Some((2, 17))),
    ("order-9-before-5-tag4", Some((9, 5))),
    ("order-9-before-5-tag4-mended", Some((5, 23))),
    ("order-5-before-6-tag3-five", Some((5, 11 + 253 * 6))),
    ("order-6-before-7-pair-first-label", Some((6, 23 + 253 * 6))),
    ("order-6-before-8-four-channel", Some((6, 23 + 251 * 6))),
    ("order-5-before-7-pass-equal", Some((5, 23))),
    ("order-5-before-7-pass-equal-mended", Some((7, 23))),
    ("order-6-before-7-pass-channel", Some((6, 23 + 254 * 7))),
    ("order-7-before-9-pass-equal", Some((7, 17))),
    ("order-6-before-13", Some((6, 2_711))),
    ("order-6-before-13-mended", Some((13, 2_704))),
    ("order-11-before-13", Some((11, 1_899))),
    ("order-9-before-14", Some((9, 5))),
];

fn check(table: &[Expected]) {
    let files: BTreeMap<String, Vec<u8>> = limit_files()
        .into_iter()
        .map(|file| (file.name, file.bytes))
        .collect();
    for (name, expected) in table {
        let bytes = &files[&format!("{name}.cir")];
        assert_eq!(refusal(bytes), *expected, "{name}");
    }
}

#[test]
fn counts() {
    check(COUNTS);
}

#[test]
fn edges() {
    check(EDGES);
}

#[test]
fn bytes_and_cuts() {
    check(BYTES_AND_CUTS);
}

#[test]
fn lengths() {
    check(LENGTHS);
}

#[test]
fn types_and_edges() {
    check(TYPES_AND_EDGES);
}

#[test]
fn passes() {
    check(PASSES);
    check(JUDGED);
}

#[test]
fn settings() {
    check(SETTINGS);
}

#[test]
fn bridges_and_choices() {
    check(BRIDGES_AND_CHOICES);
}

#[test]
fn instances_and_vectors() {
    check(INSTANCES_AND_VECTORS);
}

#[test]
fn tags_and_orders() {
    check(TAGS_AND_ORDERS);
}
