//! The samples for newcomers: each is accepted, has the first line that is quoted
//! of it, and shows what it is there for.

mod support;

use second::circuit::{Bridge, Circuit, Instance, Kind, ListedBridge, ModuleType, Value};
use second::conduction::{is_on, output_value, Graph, GROUND, SUPPLY};
use second::grade::{Graded, Row};
use second::read::read;
use second::report::report_of;
use second::samples::sample_files;
use second::show::show_of;
use second::starts::nand_under;
use second::write::{bytes_of, fields_of};
use support::distances::{depths, greatest, slipped, SLIPS};
use support::{answer, digits, sample_file, Accepted};

fn first_line(name: &str) -> String {
    let report = report_of(&sample_file(name));
    report.lines().next().unwrap_or_default().to_string()
}

fn graded(name: &str) -> Graded {
    answer(&sample_file(name)).expect("samples are accepted")
}

fn circuit(name: &str) -> Circuit {
    read(&sample_file(name)).expect("samples are accepted")
}

/// The greatest distance of a node from its rail, by hand; the full-size sample is too
/// large for that. Of a NAND it is 2 under 10, where node 3 is behind the output, and
/// under 11, where the output is behind node 3; else it is 1, or 0 under 1X and XX, where
/// nothing is joined to a rail. The labels in `reconvergent` are 10 where the input is 1.
///
/// In the multiplexer the output is behind node 2 or node 3. In `series` the NAND's output
/// is behind nodes 5, 4 and 3 under 1111. In the adder it is the sum under 000: supply,
/// nodes 2 to 5, then node 6 since the carry's complement is 1.
const ROUNDS: [(&str, usize); 17] = [
    ("inverter", 1),
    ("nand", 2),
    ("grouped", 2),
    ("reconvergent", 2),
    ("both_ends", 2),
    ("floating", 2),
    ("tied", 2),
    ("driven", 2),
    ("unfixed", 1),
    ("guessed", 2),
    ("outputs", 2),
    ("nor", 2),
    ("repeated", 2),
    ("fillings", 2),
    ("mux", 2),
    ("series", 4),
    ("adder", 5),
];

#[test]
fn rounds() {
    for (name, rounds) in ROUNDS {
        assert_eq!(graded(name).rounds, rounds, "{name}");
    }
    assert_eq!(graded("full").rounds, greatest(&circuit("full")));
    assert_eq!(sample_files().len(), ROUNDS.len() + 1);
}

fn document(name: &str) -> String {
    let path = format!("{}/../docs/{name}", env!("CARGO_MANIFEST_DIR"));
    std::fs::read_to_string(path).expect("the document is there")
}

#[test]
fn inverter() {
    assert_eq!(sample_file("inverter").len(), 42);
    let line = "vectors 3 faults 6 classes 6 found 6";
    assert_eq!(first_line("inverter"), line);
}

#[test]
fn nand() {
    let line = "vectors 7 faults 14 classes 14 found 14";
    assert_eq!(first_line("nand"), line);
}

/// The only sample with a grouped field; it is the circuit of `nand`, so all that is
/// printed of it is the same.
#[test]
fn grouped() {
    let nand = sample_file("nand");
    assert_eq!(sample_file("grouped").len() + 5, nand.len());
    assert_eq!(circuit("grouped"), circuit("nand"));
    assert_eq!(report_of(&sample_file("grouped")), report_of(&nand));
    assert_eq!(show_of(&sample_file("grouped")), show_of(&nand));
    for file in sample_files() {
        let is_single = file.bytes == bytes_of(&fields_of(&circuit(&file.name)));
        assert_eq!(is_single, file.name != "grouped", "{}", file.name);
    }
}

#[test]
fn reconvergent() {
    let line = "vectors 3 faults 14 classes 14 found 12";
    assert_eq!(first_line("reconvergent"), line);
    let graded = graded("reconvergent");
    assert_eq!(digits(&graded, 2, Kind::Nodes, 0, 2), "110");
}

/// Rows with a mark over rows is more than found classes over classes.
#[test]
fn both_ends() {
    let line = "vectors 3 faults 3 classes 2 found 1";
    assert_eq!(first_line("both_ends"), line);
    let rows = graded("both_ends").rows;
    let is_marked = |row: &&Row| row.marks.contains(&true);
    assert_eq!(rows.iter().filter(is_marked).count(), 2);
}

/// Node 3 is joined to supply, then to neither rail, then to ground, then to
/// neither: only the vectors that join it mark its bridges.
#[test]
fn floating() {
    let line = "vectors 4 faults 3 classes 3 found 3";
    assert_eq!(first_line("floating"), line);
    let graded = graded("floating");
    assert_eq!(digits(&graded, 1, Kind::Nodes, 0, 3), "1000");
    assert_eq!(digits(&graded, 1, Kind::Nodes, 2, 3), "0010");
    assert_eq!(digits(&graded, 1, Kind::Nodes, 1, 3), "0010");
    assert_eq!(held_marks("floating", 0, 3), "1100");
    assert_eq!(held_marks("floating", 2, 3), "0011");
    assert_eq!(held_marks("floating", 1, 3), "0011");
}

/// What a grader marks that lets a floating node keep its last value.
fn held_marks(name: &str, first: u8, second: u8) -> String {
    let circuit = circuit(name);
    let module = &circuit.types[0];
    let mut held = [Value::X; 32];
    let mut digits = String::new();
    for vector in &circuit.vectors {
        let graph = Graph::of_on_edges(module, vector);
        for (node, level) in (0..).zip(&mut held) {
            if graph.joined(node, SUPPLY) {
                *level = Value::One;
            } else if graph.joined(node, GROUND) {
                *level = Value::Zero;
            }
        }
        let levels = [first, second].map(|node| held[usize::from(node)]);
        let is_marked = levels[0] != levels[1] && !levels.contains(&Value::X);
        digits.push(if is_marked { '1' } else { '0' });
    }
    digits
}

/// X marks nothing that the guess does not, and four of the classes are found by
/// the guess alone; two of these are lost if both inputs turn out to be 1.
#[test]
fn unfixed_and_guessed() {
    let line = "vectors 2 faults 14 classes 14 found 5";
    assert_eq!(first_line("unfixed"), line);
    let line = "vectors 2 faults 14 classes 14 found 9";
    assert_eq!(first_line("guessed"), line);
    let by_x = graded("unfixed").rows;
    let by_guess = graded("guessed").rows;
    let put_zero = |byte| if byte == b'X' { b'0' } else { byte };
    let zeroed: Vec<u8> = sample_file("unfixed").into_iter().map(put_zero).collect();
    assert_eq!(zeroed, sample_file("guessed"));
    let stands = |(x, guess): (&bool, &bool)| !x || *guess;
    for (x, guess) in by_x.iter().zip(&by_guess) {
        assert!(x.marks.iter().zip(&guess.marks).all(stands));
    }
    let by_ones = nand_under(&["01", "11"]).graded().rows;
    let is_lost =
        |(guess, ones): (&Row, &Row)| guess.marks.contains(&true) && !ones.marks.contains(&true);
    let lost = by_guess.iter().zip(&by_ones).filter(|&pair| is_lost(pair));
    let lost: Vec<Bridge> = lost.map(|(guess, _)| guess.bridge).collect();
    let bridge = |kind, first, second| Bridge {
        kind,
        first,
        second,
    };
    assert_eq!(lost, [bridge(Kind::Nodes, 0, 3), bridge(Kind::Label, 1, 1)]);
}

/// Labels 0 and 1 are one class with each of the four nodes.
#[test]
fn tied() {
    let line = "vectors 3 faults 14 classes 10 found 8";
    assert_eq!(first_line("tied"), line);
}

/// Row 3 is row 1 once more, in another instance and of the other kind. Kept apart they
/// would be two of three; they are one of two.
#[test]
fn driven() {
    let line = "vectors 3 faults 3 classes 2 found 1";
    assert_eq!(first_line("driven"), line);
    let rows = graded("driven").rows;
    let told: Vec<(usize, Kind, u16)> = rows
        .iter()
        .map(|row| (row.instance, row.bridge.kind, row.class))
        .collect();
    let wanted = [
        (1, Kind::Nodes, 1),
        (1, Kind::Nodes, 2),
        (2, Kind::Label, 1),
    ];
    assert_eq!(told, wanted);
    assert_eq!(rows[0].marks, rows[2].marks);
    let is_marked = |row: &&Row| row.marks.contains(&true);
    assert_eq!(rows.iter().filter(is_marked).count(), 2);
}

/// Each value that the output has with the short closed, by paths that pass no rail.
fn outputs_with(module: &ModuleType, labels: &[Value], short: [u8; 2]) -> Vec<Value> {
    let on_edges = module.edges.iter().filter(|edge| is_on(edge, labels));
    let mut wires: Vec<[u8; 2]> = on_edges.map(|edge| edge.ends).collect();
    wires.push(short);
    let mut reached = vec![module.output];
    for _ in 0..=module.highest {
        for [a, b] in wires.iter().flat_map(|&[a, b]| [[a, b], [b, a]]) {
            if a > SUPPLY && reached.contains(&a) && !reached.contains(&b) {
                reached.push(b);
            }
        }
    }
    let rails = [(SUPPLY, Value::One), (GROUND, Value::Zero)];
    let is_reached = |(rail, _): &(u8, Value)| reached.contains(rail);
    let values = rails.into_iter().filter(is_reached);
    values.map(|(_, value)| value).collect()
}

/// No output changes, and docs/LESSONS.md says so in its table: vector, output
/// without the short, output with it, leak.
#[test]
fn outputs() {
    let line = "vectors 3 faults 1 classes 1 found 1";
    assert_eq!(first_line("outputs"), line);
    let circuit = circuit("outputs");
    let module = &circuit.types[0];
    let marks = &graded("outputs").rows[0].marks;
    let document = document("LESSONS.md");
    for (vector, &mark) in circuit.vectors.iter().zip(marks) {
        let without = output_value(module, &Graph::of_on_edges(module, vector));
        assert_eq!(outputs_with(module, vector, [1, 3]), [without]);
        let letters: String = vector.iter().map(|value| value.letter()).collect();
        let output = without.letter();
        let leak = if mark { "**yes**" } else { "no" };
        let row = format!("\n| {letters} | {output} | {output} | {leak} |\n");
        assert!(document.contains(&row), "no row {row:?}");
    }
}

/// The first exercise: node 2 floats under 11, and 0-2 leaks under 01 without
/// a change of the output.
#[test]
fn nor() {
    let line = "vectors 4 faults 14 classes 14 found 14";
    assert_eq!(first_line("nor"), line);
    let circuit = circuit("nor");
    let module = &circuit.types[0];
    let floats = |labels: &Vec<Value>| {
        let graph = Graph::of_on_edges(module, labels);
        !graph.joined(2, SUPPLY) && !graph.joined(2, GROUND)
    };
    let floating: Vec<bool> = circuit.vectors.iter().map(floats).collect();
    assert_eq!(floating, [false, false, false, true]);
    let at = |vector: usize| outputs_with(module, &circuit.vectors[vector], [0, 2]);
    assert_eq!(at(0), [Value::One, Value::Zero]);
    assert_eq!(at(1), [Value::Zero]);
}

/// The second exercise: four of six rows, but two of four classes.
#[test]
fn repeated() {
    let line = "vectors 2 faults 6 classes 4 found 2";
    assert_eq!(first_line("repeated"), line);
    let rows = graded("repeated").rows;
    let is_marked = |row: &&Row| row.marks.contains(&true);
    assert_eq!(rows.iter().filter(is_marked).count(), 4);
}

/// Its last question: an inverter behind the NAND lists the NAND's output to ground
/// once more. The answer in docs/EXERCISES.md quotes the first line.
#[test]
fn repeated_behind() {
    let inverter = circuit("inverter").types.remove(0);
    let mut circuit = circuit("repeated");
    circuit.types.push(inverter);
    circuit.bridges.push(ListedBridge {
        list: 2,
        bridge: Bridge {
            kind: Kind::Label,
            first: 0,
            second: 0,
        },
    });
    circuit.instances.push(Instance {
        type_number: 2,
        choice: 2,
        references: vec![-1],
    });
    let report = report_of(&bytes_of(&fields_of(&circuit)));
    let line = report.lines().next().unwrap_or_default();
    assert_eq!(line, "vectors 2 faults 7 classes 4 found 2");
    assert!(document("EXERCISES.md").contains(&format!("\n4. `{line}`:")));
}

/// The third exercise: two rows leak under both fillings and not under X.
#[test]
fn fillings() {
    let line = "vectors 3 faults 14 classes 14 found 12";
    assert_eq!(first_line("fillings"), line);
    let rows = graded("fillings").rows;
    let is_silent = |row: &&Row| row.marks == [false, true, true];
    let silent: Vec<(u8, u8)> = rows
        .iter()
        .filter(is_silent)
        .map(|row| (row.bridge.first, row.bridge.second))
        .collect();
    assert_eq!(silent, [(2, 1), (3, 1)]);
}

/// By hand from what the nodes are joined to under 000 to 111, then 0X1 and 00X; `s` is
/// supply, `g` ground and `-` neither:
///
/// node 2, not a: `ssss gggg ss`; node 3, b: `ggss ggss -g`; node 4: `gsss ggsg s-`.
///
/// Under 0X1 nothing is known of node 3, which the output is not joined to. Under 00X the
/// output is joined to nothing that is known. Node 3 and label 1 are never apart, so one
/// class is not found.
const MUX_REPORT: &str = "\
vectors 10 faults 25 classes 25 found 24
1 n 0 1 1 1111111111 10 1
1 n 0 2 2 1111000011 6 1
1 n 0 3 3 0011001100 4 3
1 n 0 4 4 0111001010 5 2
1 n 1 2 5 0000111100 4 5
1 n 1 3 6 1100110001 5 1
1 n 1 4 7 1000110100 4 1
1 n 2 3 8 1100001101 5 1
1 n 2 4 9 1000001000 2 1
1 n 3 4 10 0100000100 2 2
1 i 0 0 11 0000111100 4 5
1 i 0 1 12 0011001100 4 3
1 i 0 2 13 0101010110 5 2
1 i 1 0 14 1111000011 6 1
1 i 1 1 15 1100110001 5 1
1 i 1 2 16 1010101000 4 1
1 i 2 0 17 1111111111 10 1
1 i 2 1 18 1100001101 5 1
1 i 2 2 19 1010010100 4 1
1 i 3 0 20 0011110000 4 3
1 i 3 1 21 0000000000 0 0
1 i 3 2 22 0110011000 4 2
1 i 4 0 23 0111110110 7 2
1 i 4 1 24 0100000100 2 2
1 i 4 2 25 0010011100 4 3
rounds 2
";

const MUX_SHOWN: &str = "\
inputs 3
type 1 4 4 3
edge 1 2 0
pass 0 2 n 0
pass 1 3 n 1
pass 0 3 p 1
pass 2 4 n 2
pass 3 4 p 2
instance 1 1 -1 1 2 3
vector 1 000
vector 2 001
vector 3 010
vector 4 011
vector 5 100
vector 6 101
vector 7 110
vector 8 111
vector 9 0X1
vector 10 00X
";

#[test]
fn mux() {
    assert_eq!(report_of(&sample_file("mux")), MUX_REPORT);
    assert_eq!(show_of(&sample_file("mux")), MUX_SHOWN);
    for vector in &circuit("mux").vectors[..8] {
        let [a, b, s] = vector[..] else {
            panic!("the mux has three inputs");
        };
        let module = &circuit("mux").types[0];
        let is_one = match s {
            Value::One => a == Value::Zero,
            _ => b == Value::One,
        };
        let output = output_value(module, &Graph::of_on_edges(module, vector));
        assert_eq!(output == Value::One, is_one, "{vector:?}");
    }
}

/// By hand. Under 1111 the NAND's output is at ground, so the inverter's is at supply, and
/// 0-2 leaks; under 0111 they are the other way round; under XXXX nothing is known.
///
/// Under 1111 nodes 5, 4, 3 and 2 of the NAND are 1, 2, 3 and 4 edges from ground. Under
/// 0111 node 2 is beside supply, and nodes 5, 4 and 3 are 1, 2 and 3 from ground. The
/// inverter's output is beside a rail, or under XXXX joined to none.
const SERIES_REPORT: &str = "\
vectors 3 faults 1 classes 1 found 1
2 n 0 2 1 100 1 1
rounds 4
";

#[test]
fn series() {
    assert_eq!(report_of(&sample_file("series")), SERIES_REPORT);
    let circuit = circuit("series");
    assert_eq!(circuit.instances[0].choice, 0);
    let of = |vector: usize, instance: usize| {
        let all = depths(&circuit);
        let these = all
            .iter()
            .filter(|depth| (depth.vector, depth.instance) == (vector, instance));
        these.map(|depth| depth.greatest).max()
    };
    let of_both = |vector| [of(vector, 0), of(vector, 1)].map(Option::unwrap);
    assert_eq!([0, 1, 2].map(of_both), [[4, 1], [3, 1], [0, 0]]);
}

/// docs/LESSONS.md has the node that each round joins to ground under 1111, and that the
/// fifth joins none.
#[test]
fn series_round_by_round() {
    let circuit = circuit("series");
    let graph = Graph::of_on_edges(&circuit.types[0], &circuit.vectors[0]);
    let distances = graph.distances(GROUND);
    let document = document("LESSONS.md");
    for round in 1..=5 {
        let nodes = (0..distances.len()).filter(|&node| distances[node] == Some(round));
        let names: Vec<String> = nodes.map(|node| format!("node {node}")).collect();
        let joined = if names.is_empty() {
            "none".to_string()
        } else {
            names.join(", ")
        };
        let row = format!("\n| {round} | {joined} |\n");
        assert!(document.contains(&row), "no row {row:?}");
    }
}

/// Sweeps that use at once what they add hang on the order of the edges, the rounds do not.
/// docs/LESSONS.md has both numbers for the order of the file and for its reverse.
#[test]
fn series_swept_in_place() {
    let (_, sweeps) = SLIPS
        .into_iter()
        .find(|slip| slip.0 == "sweeps")
        .expect("it is among the slips");
    let document = document("LESSONS.md");
    let mut circuit = circuit("series");
    for wanted in [4, 1] {
        let swept = slipped(&circuit, &depths(&circuit), sweeps);
        let graded = answer(&bytes_of(&fields_of(&circuit))).expect("any order is accepted");
        assert_eq!((swept, graded.rounds), (wanted, 4));
        let series = &mut circuit.types[0].edges[4..];
        let names: Vec<String> = series
            .iter()
            .map(|edge| format!("{}-{}", edge.ends[0], edge.ends[1]))
            .collect();
        let row = format!("\n| {} | {swept} | 4 |\n", names.join(", "));
        assert!(document.contains(&row), "no row {row:?}");
        series.reverse();
    }
}

/// Both instances list the bridge 0-1, and each rail with the three inputs and with
/// the carry's output.
#[test]
fn adder() {
    let line = "vectors 8 faults 114 classes 105 found 105";
    assert_eq!(first_line("adder"), line);
}

#[test]
fn full() {
    let line = "vectors 256 faults 2048 classes 1434 found 559";
    assert_eq!(first_line("full"), line);
    let circuit = circuit("full");
    assert_eq!((circuit.inputs, circuit.types.len()), (64, 16));
    assert_eq!((circuit.bridges.len(), circuit.instances.len()), (256, 128));
    assert!(circuit
        .vectors
        .iter()
        .flatten()
        .any(|&value| value == Value::X));
}
