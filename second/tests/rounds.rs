//! The last line of a report: the greatest distance of a node from a rail that it is
//! joined to, over all instances and vectors. Circuits by hand, laws over made circuits,
//! and how the numbers of made circuits spread.

mod support;

use std::collections::BTreeMap;
use std::sync::OnceLock;

use second::builder::{EdgeRow, FileBuilder, N, P};
use second::circuit::{Circuit, Value};
use second::conduction::{Graph, GROUND, SUPPLY};
use second::grade::{grade, Graded};
use second::limits::limit_files;
use second::make::made_circuit;
use second::random::Random;
use second::read::read;
use second::report::{report, report_of};
use second::starts::{inverter_file, nand_under, two_inputs};
use second::write::{bytes_of, fields_of};
use support::distances::{depths, greatest, slipped, SLIPS};
use support::{answer, Accepted};

const SEED: u64 = 20;
const MADE: u64 = 300;

/// Made circuits, graded once for all tests.
fn made() -> &'static [(Circuit, Graded)] {
    static ALL: OnceLock<Vec<(Circuit, Graded)>> = OnceLock::new();
    ALL.get_or_init(|| {
        let circuits = (0..MADE).map(|index| made_circuit(SEED, index));
        circuits
            .map(|circuit| (circuit.clone(), graded(&circuit)))
            .collect()
    })
}

fn graded(circuit: &Circuit) -> Graded {
    answer(&bytes_of(&fields_of(circuit))).expect("made circuits are accepted")
}

/// Checks the number under each vector by itself, and under all of them in one file.
fn check(file: &FileBuilder, cases: &[(&str, usize)]) {
    for &(vector, rounds) in cases {
        let graded = file.clone().vectors(&[vector]).graded();
        assert_eq!(graded.rounds, rounds, "{vector}");
    }
    let vectors: Vec<&str> = cases.iter().map(|case| case.0).collect();
    let rounds = cases.iter().map(|case| case.1).max();
    let graded = file.clone().vectors(&vectors).graded();
    assert_eq!(Some(graded.rounds), rounds);
}

#[test]
fn inverter() {
    let file = FileBuilder::inputs(1).inverter().instance(1, -1, &[1]);
    check(&file, &[("0", 1), ("1", 1), ("X", 0)]);
}

/// Where only one of both labels is 1, node 3 is beside ground, or it is behind the output,
/// which is beside supply. Under 1X it is joined to the output alone.
#[test]
fn nand() {
    let cases = [
        ("00", 1),
        ("01", 1),
        ("10", 2),
        ("11", 2),
        ("0X", 1),
        ("1X", 0),
        ("X0", 1),
        ("X1", 1),
        ("XX", 0),
    ];
    check(&nand_under(&[]), &cases);
}

/// Node 2 is beside supply where label 0 is 0, and behind the output, which is beside
/// ground, under 10.
#[test]
fn nor() {
    let cases = [
        ("00", 2),
        ("01", 1),
        ("10", 2),
        ("11", 1),
        ("0X", 1),
        ("1X", 1),
        ("X0", 0),
        ("X1", 1),
        ("XX", 0),
    ];
    check(&two_inputs().nor().instance(1, -1, &[1, 2]), &cases);
}

#[test]
fn distances_of_each_node() {
    let file = nand_under(&["10"]);
    let circuit = read(&file.bytes).expect("the NAND is accepted");
    let graph = Graph::of_on_edges(&circuit.types[0], &[Value::One, Value::Zero]);
    let from = |node: u8| graph.distances(node)[..4].to_vec();
    assert_eq!(from(GROUND), [Some(0), None, None, None]);
    assert_eq!(from(SUPPLY), [None, Some(0), Some(1), Some(2)]);
    assert_eq!(from(3), [None, Some(2), Some(1), Some(0)]);
    assert!(graph.distances(SUPPLY)[4..].iter().all(Option::is_none));
}

/// An inverter with a series of edges to ground through these nodes; the last is the
/// output.
fn chain(file: FileBuilder, nodes: &[u8]) -> FileBuilder {
    let edges = chain_edges(nodes);
    let highest = nodes.iter().max().expect("there are nodes");
    file.module(*highest, 2, 1, &edges)
}

fn chain_edges(nodes: &[u8]) -> Vec<EdgeRow<'static>> {
    assert_eq!((nodes[0], nodes[nodes.len() - 1]), (0, 2));
    let series = nodes.windows(2).map(|ends| (ends[0], ends[1], &[0][..]));
    series.chain([(1, 2, &[0][..])]).collect()
}

/// All nodes but supply in one path.
#[test]
fn as_far_as_a_node_can_be() {
    let nodes: Vec<u8> = [0].into_iter().chain((2..=31).rev()).collect();
    let file = chain(FileBuilder::inputs(1), &nodes).instance(1, -1, &[1]);
    check(&file, &[("0", 1), ("1", 30), ("X", 0)]);
}

/// From supply through nodes 2 to 5 to the output, node 6, then on behind it: node 7, at
/// label 1, is joined to ground where label 0 is 1 too.
#[test]
fn from_supply_and_behind_the_output() {
    let edges: &[EdgeRow] = &[
        (1, 2, &[0]),
        (2, 3, &[0]),
        (3, 4, &[0]),
        (4, 5, &[0]),
        (5, 6, &[0]),
        (1, 6, &[1]),
        (6, 7, &[1]),
        (7, 0, &[0]),
    ];
    let file = two_inputs().module(7, 6, 2, edges);
    let cases = [
        ("00", 3),
        ("01", 6),
        ("10", 1),
        ("11", 2),
        ("0X", 5),
        ("1X", 1),
        ("X0", 1),
        ("X1", 0),
        ("XX", 0),
    ];
    check(&file.instance(1, -1, &[1, 2]), &cases);
}

/// In the order of the path, where one sweep over the edges reaches every node, against
/// it, and in other orders and with other ends first.
#[test]
fn edges_in_any_order() {
    let mut edges = chain_edges(&[0, 7, 6, 5, 4, 3, 2]);
    let mut random = Random::for_file(SEED, 0);
    let check_order = |edges: &[EdgeRow]| {
        let file = FileBuilder::inputs(1).module(7, 2, 1, edges);
        check(&file.instance(1, -1, &[1]), &[("0", 1), ("1", 6)]);
    };
    check_order(&edges);
    edges.reverse();
    check_order(&edges);
    for _ in 0..50 {
        random.shuffle(&mut edges);
        let chosen = random.below(edges.len());
        let (a, b, label) = edges[chosen];
        edges[chosen] = (b, a, label);
        check_order(&edges);
    }
}

/// Six edges to the output at label 0, and at label 1 an edge from ground to node 4, the
/// fourth on the way. Where that is on, nodes 5 and 3 are two edges from ground and the
/// output three. So filling an X can make the number less.
#[test]
fn the_shortest_of_two_paths() {
    let mut edges = chain_edges(&[0, 7, 6, 5, 4, 3, 2]);
    edges.push((0, 4, &[1]));
    let file = two_inputs().module(7, 2, 2, &edges);
    let cases = [("10", 6), ("11", 3), ("1X", 6), ("01", 1), ("X1", 1)];
    check(&file.instance(1, -1, &[1, 2]), &cases);
}

/// Both ways round a ring of seven edges: the two nodes across are three edges away.
#[test]
fn round_a_ring() {
    let mut edges = chain_edges(&[0, 8, 7, 6, 5, 4, 3, 2]);
    edges.retain(|&(a, b, _)| (a, b) != (3, 2));
    edges.extend([(3, 0, &[0][..]), (0, 2, &[0])]);
    let file = FileBuilder::inputs(1).module(8, 2, 1, &edges);
    check(&file.instance(1, -1, &[1]), &[("0", 1), ("1", 3)]);
}

/// Node 5 is beside ground where label 1 is 1. Where it is 0 a path leads there through the
/// output and nodes 4 and 3, by both channels and against the order of the numbers.
#[test]
fn a_detour_by_pass_transistors() {
    let file = two_inputs()
        .field(2, &[5, 2, 2])
        .field(3, &[1, 2, 0])
        .field(3, &[0, 2, 0])
        .pass(5, 3, N, 0)
        .pass(4, 3, P, 1)
        .pass(2, 4, N, 0)
        .pass(0, 5, N, 1)
        .instance(1, -1, &[1, 2]);
    let cases = [
        ("00", 1),
        ("01", 1),
        ("10", 4),
        ("11", 2),
        ("0X", 1),
        ("1X", 2),
        ("X0", 0),
        ("X1", 1),
        ("XX", 0),
    ];
    check(&file, &cases);
}

const NAND_REPORT: &str = "\
vectors 1 faults 2 classes 2 found 1
1 n 2 3 1 0 0 0
1 i 3 0 2 1 1 1
rounds 2
";

/// Behind the last row, or behind the first line if there are no rows.
#[test]
fn the_last_line() {
    let listed = two_inputs()
        .nand()
        .bridge(1, 0, 2, 3)
        .bridge(1, 1, 3, 0)
        .instance(1, 1, &[1, 2])
        .vectors(&["11"]);
    assert_eq!(report_of(&listed.bytes), NAND_REPORT);
    let idle = two_inputs().nand().instance(1, 0, &[1, 2]).vectors(&["11"]);
    let expected = "vectors 1 faults 0 classes 0 found 0\nrounds 2\n";
    assert_eq!(report_of(&idle.bytes), expected);
}

#[test]
fn nothing_known() {
    let file = chain(two_inputs().nand().inverter(), &[0, 4, 3, 2])
        .instance(1, -1, &[1, 2])
        .instance(2, -1, &[-1])
        .instance(3, 0, &[-2])
        .vectors(&["XX"; 65]);
    assert!(report_of(&file.bytes).ends_with("\nrounds 0\n"));
}

const INVERTER_BESIDE_A_CHAIN: &str = "\
vectors 2 faults 6 classes 6 found 6
2 n 0 1 1 11 2 1
2 n 0 2 2 10 1 1
2 n 1 2 3 01 1 2
2 i 0 0 4 01 1 2
2 i 1 0 5 10 1 1
2 i 2 0 6 11 2 1
rounds 5
";

/// The series of five edges has no rows, and neither has a file without faults.
#[test]
fn instances_without_faults() {
    let start = || chain(FileBuilder::inputs(1).inverter(), &[0, 6, 5, 4, 3, 2]);
    let file = start().instance(2, 0, &[1]).instance(1, -1, &[1]);
    let beside = file.vectors(&["0", "1"]);
    assert_eq!(report_of(&beside.bytes), INVERTER_BESIDE_A_CHAIN);
    let file = start().instance(1, -1, &[1]).instance(2, 0, &[-1]);
    check(&file, &[("0", 5), ("1", 1), ("X", 0)]);
    let file = start().instance(1, 0, &[1]).instance(2, 0, &[1]);
    check(&file, &[("0", 1), ("1", 5), ("X", 0)]);
}

/// Every order of three numbers.
const ORDERS: [[usize; 3]; 6] = [
    [0, 1, 2],
    [0, 2, 1],
    [1, 0, 2],
    [1, 2, 0],
    [2, 0, 1],
    [2, 1, 0],
];

#[test]
fn the_deepest_instance_in_any_place() {
    for order in ORDERS {
        let file = chain(FileBuilder::inputs(1).inverter(), &[0, 4, 3, 2]);
        let file = chain(file, &[0, 6, 5, 4, 3, 2]);
        let instance = |file: FileBuilder, &number: &usize| {
            let choice = [-1, 0, 0][number];
            file.instance(number as u8 + 1, choice, &[1])
        };
        let file = order.iter().fold(file, instance);
        check(&file, &[("0", 1), ("1", 5), ("X", 0)]);
    }
}

#[test]
fn the_deepest_vector_in_any_place() {
    for order in ORDERS {
        let file = chain(FileBuilder::inputs(1), &[0, 5, 4, 3, 2]);
        let vectors = order.map(|number| ["0", "1", "X"][number]);
        let graded = file.instance(1, -1, &[1]).vectors(&vectors).graded();
        assert_eq!(graded.rounds, 4, "{vectors:?}");
    }
}

/// The one vector that turns the series on, around the ends of words of 64.
#[test]
fn the_deepest_vector_in_any_word() {
    for place in [1, 63, 64, 65, 66, 128, 129, 192, 193, 256] {
        for count in [place - 1, place, 256] {
            let letter = |at: usize| if at == place { "1" } else { "0" };
            let vectors: Vec<&str> = (1..=count.max(1)).map(letter).collect();
            let file = chain(FileBuilder::inputs(1), &[0, 4, 3, 2]);
            let graded = file.instance(1, 0, &[1]).vectors(&vectors).graded();
            let expected = if count.max(1) < place { 1 } else { 3 };
            assert_eq!(graded.rounds, expected, "{place} of {count}");
        }
    }
}

#[test]
fn a_refusal_has_no_rounds() {
    let mut refused = 0;
    for file in limit_files() {
        if let Err(refusal) = answer(&file.bytes) {
            assert_eq!(report_of(&file.bytes), refusal.line());
            refused += 1;
        }
    }
    assert!(refused > 4_000);
    let bytes = inverter_file().bytes;
    assert_eq!(report(&grade(&bytes, 23, 6)), "refused 15 at 24\n");
    assert_eq!(report(&grade(&bytes, 24, 5)), "refused 22 at 6\n");
}

/// One such line, at the end.
#[test]
fn every_report_ends_with_the_rounds() {
    for (_, graded) in made() {
        let report = report(&Ok(graded.clone()));
        assert_eq!(report.lines().count(), graded.rows.len() + 2);
        assert_eq!(report.matches("rounds").count(), 1);
        assert!(report.ends_with(&format!("\nrounds {}\n", graded.rounds)));
    }
}

#[test]
fn made_circuits_by_another_way() {
    for (circuit, graded) in made() {
        assert_eq!(graded.rounds, greatest(circuit));
    }
}

/// A shortest path takes in no node twice, nor the other rail.
#[test]
fn at_most_one_less_than_the_highest_node() {
    let mut reached = 0;
    for (circuit, graded) in made() {
        let highest = circuit.instances.iter();
        let highest = highest.map(|instance| circuit.type_of(instance).highest);
        let most = usize::from(highest.max().unwrap_or(2)) - 1;
        assert!(graded.rounds <= most);
        reached += usize::from(graded.rounds == most);
    }
    assert!(reached > 5, "{reached}");
}

/// The number of a file is the greatest of its vectors', whatever their order.
#[test]
fn vectors_by_themselves() {
    let few = made()
        .iter()
        .filter(|(circuit, _)| circuit.vectors.len() <= 20);
    for (circuit, whole) in few {
        let with = |vectors: Vec<Vec<Value>>| {
            graded(&Circuit {
                vectors,
                ..circuit.clone()
            })
        };
        let vectors = circuit.vectors.iter();
        let single = vectors.clone().map(|vector| with(vec![vector.clone()]));
        assert_eq!(single.map(|one| one.rounds).max(), Some(whole.rounds));
        let turned = with(vectors.rev().cloned().collect());
        assert_eq!(turned.rounds, whole.rounds);
    }
}

#[test]
fn the_same_without_faults() {
    for (circuit, whole) in made() {
        let mut circuit = circuit.clone();
        for instance in &mut circuit.instances {
            instance.choice = 0;
        }
        assert_eq!(graded(&circuit).rounds, whole.rounds);
    }
}

#[test]
fn numbers_of_made_circuits_spread() {
    let mut spread: BTreeMap<usize, usize> = BTreeMap::new();
    for (_, graded) in made() {
        *spread.entry(graded.rounds).or_default() += 1;
    }
    println!("{spread:?}");
    let count = |from: usize, to: usize| spread.range(from..=to).map(|one| one.1).sum::<usize>();
    assert!(spread.len() >= 20, "{spread:?}");
    assert!(count(0, 0) >= 5 && spread.contains_key(&30), "{spread:?}");
    assert!(count(11, 20) >= 10 && count(21, 30) >= 10, "{spread:?}");
}

/// Where too few circuits show a slip, a comparison would be blind to it.
#[test]
fn slips_show_in_made_circuits() {
    let mut shown = [0; SLIPS.len()];
    let small = made()
        .iter()
        .filter(|(circuit, _)| circuit.instances.len() < 100);
    for (circuit, graded) in small {
        let depths = depths(circuit);
        for (count, (_, slip)) in shown.iter_mut().zip(SLIPS) {
            *count += usize::from(slipped(circuit, &depths, slip) != graded.rounds);
        }
    }
    for ((name, _), count) in SLIPS.iter().zip(shown) {
        assert!(count >= 5, "{name}: {count}");
    }
}
