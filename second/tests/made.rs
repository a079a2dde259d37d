//! Made files are accepted and hold what they should; damaged files reach every
//! refusal number; and laws of marks hold over made circuits.

mod support;

use second::circuit::{Channel, Circuit, Edge, Kind, ModuleType, Value};
use second::damage::damaged_file;
use second::fields::cut;
use second::grade::{Graded, Row};
use second::make::{made_circuit, made_file};
use second::read::read;
use second::refusal::Refusal;
use second::write::{bytes_of, fields_of};
use support::answer;

const SEED: u64 = 20;
const MADE: u64 = 640;
const DAMAGED: u64 = 1_085;

fn made_circuits() -> impl Iterator<Item = Circuit> {
    (0..MADE).map(|index| made_circuit(SEED, index))
}

fn graded(circuit: &Circuit) -> Graded {
    answer(&bytes_of(&fields_of(circuit))).expect("made circuits are accepted")
}

#[test]
fn made_files_are_accepted_and_read_back() {
    for index in 0..MADE {
        let circuit = made_circuit(SEED, index);
        assert_eq!(read(&made_file(SEED, index)), Ok(circuit), "file {index}");
    }
}

#[test]
fn made_files_reach_the_limits() {
    let any = |holds: fn(&Circuit) -> bool| made_circuits().any(|circuit| holds(&circuit));
    assert!(any(|circuit| circuit.inputs == 64));
    assert!(any(|circuit| circuit.types.len() == 16));
    assert!(any(|circuit| circuit.bridges.len() == 256));
    assert!(any(|circuit| circuit.instances.len() == 128));
    assert!(any(|circuit| circuit.vectors.len() == 256));
    assert!(any(|circuit| graded(circuit).rows.len() == 2_048));
    assert!(any(|circuit| circuit.types.iter().any(|module| {
        (module.edges.len(), module.highest, module.labels) == (256, 31, 12)
    })));
}

/// The labels of each edge field of a made file.
fn edge_fields(index: u64) -> Vec<Vec<u8>> {
    let bytes = made_file(SEED, index);
    let mut labels = Vec::new();
    let mut place = 0;
    while place < bytes.len() {
        let field = cut(&bytes, place).expect("made files are whole");
        if field.tag == 3 {
            labels.push(field.body[2..].to_vec());
        }
        place = field.end();
    }
    labels
}

/// Old files and new ones: a third at least of either kind, and groups of each size.
#[test]
fn some_made_files_have_grouped_fields_and_some_have_none() {
    let mut sizes = [0; 5];
    let mut grouped = 0;
    for index in 0..MADE {
        let fields = edge_fields(index);
        for labels in &fields {
            sizes[labels.len()] += 1;
        }
        grouped += u64::from(fields.iter().any(|labels| labels.len() > 1));
    }
    assert!((MADE / 3..=2 * MADE / 3).contains(&grouped), "{grouped}");
    assert!(sizes[1..].iter().all(|&count| count > 200), "{sizes:?}");
}

fn has_pass(module: &ModuleType) -> bool {
    module.edges.iter().any(|edge| edge.is_pass)
}

/// From a third to a half of the files, and among their types some with both tags, some
/// with tag 7 alone, some with the most edges, and some beside grouped fields.
#[test]
fn a_good_share_of_made_files_have_pass_transistors() {
    let with_passes = made_circuits().filter(|circuit| circuit.types.iter().any(has_pass));
    let count = with_passes.count() as u64;
    assert!((MADE / 3..=MADE / 2).contains(&count), "{count}");
    let types: Vec<ModuleType> = made_circuits()
        .flat_map(|circuit| circuit.types)
        .filter(has_pass)
        .collect();
    let count = |holds: fn(&&ModuleType) -> bool| types.iter().filter(holds).count();
    let pure = count(|module| module.edges.iter().all(|edge| edge.is_pass));
    assert!(pure > 50 && types.len() - pure > 50, "{pure}");
    assert!(count(|module| module.edges.len() == 256) > 20);
    assert!(count(|module| module.output != module.highest && module.output != 2) > 50);
    let both = (0..MADE).filter(|&index| {
        let has_group = edge_fields(index).iter().any(|labels| labels.len() > 1);
        has_group && made_circuit(SEED, index).types.iter().any(has_pass)
    });
    assert!(both.count() > 50);
}

/// Longer than an old file could be, and types with more edges than one had fields.
#[test]
fn some_made_files_pass_the_old_limits() {
    let lengths = (0..MADE).map(|index| made_file(SEED, index).len());
    assert!(lengths.filter(|&length| length > 32_768).count() > 1);
    let is_crowded = |circuit: &Circuit| circuit.types.iter().any(|one| one.edges.len() > 64);
    let crowded = made_circuits().filter(is_crowded).count();
    assert!(crowded as u64 > MADE / 10, "{crowded}");
}

/// The greatest number of instances one after another from an input on.
fn depth(circuit: &Circuit) -> usize {
    let mut depths: Vec<usize> = Vec::new();
    for instance in &circuit.instances {
        let before = instance.references.iter().map(|&reference| {
            if reference < 0 {
                depths[usize::from(reference.unsigned_abs()) - 1]
            } else {
                0
            }
        });
        depths.push(1 + before.max().unwrap_or(0));
    }
    depths.into_iter().max().unwrap_or(0)
}

#[test]
fn made_files_are_varied() {
    let any = |holds: fn(&Circuit) -> bool| made_circuits().any(|circuit| holds(&circuit));
    assert!(any(|circuit| depth(circuit) == 128));
    for count in [
        1, 63, 64, 65, 66, 127, 128, 129, 130, 191, 192, 193, 194, 255, 256,
    ] {
        assert!(made_circuits().any(|circuit| circuit.vectors.len() == count));
    }
    let chosen = |choice: fn(i8) -> bool| {
        made_circuits().any(|circuit| circuit.instances.iter().any(|one| choice(one.choice)))
    };
    assert!(chosen(|choice| choice == -1) && chosen(|choice| choice == 0));
    assert!(chosen(|choice| choice > 0));
    assert!(any(|circuit| graded(circuit).rows.is_empty()));
    assert!(any(|circuit| {
        let graded = graded(circuit);
        usize::from(graded.classes) < graded.rows.len()
    }));
    let repeats = |labels: &Vec<u8>| (1..labels.len()).any(|at| labels[..at].contains(&labels[at]));
    assert!((0..MADE).any(|index| edge_fields(index).iter().any(repeats)));
    assert!(any(|circuit| circuit
        .vectors
        .iter()
        .any(|vector| vector.contains(&Value::X))));
}

#[test]
fn damaged_files_reach_every_number() {
    let mut reached = [0; 15];
    for index in 0..DAMAGED {
        let number =
            answer(&damaged_file(SEED, index)).map_or_else(|refusal| refusal.number, |_| 0);
        reached[usize::from(number)] += 1;
    }
    for (number, count) in reached.iter().enumerate() {
        assert!(*count >= 5, "number {number} is reached {count} times");
    }
}

/// One edge too many, in fields of one to four labels and of tag 7.
#[test]
fn damaged_files_pass_the_limit_of_edges_by_fields_of_each_size() {
    let mut sizes = [0; 5];
    let mut passes = 0;
    for index in 0..DAMAGED {
        let bytes = damaged_file(SEED, index);
        if let Err(Refusal { number: 6, place }) = read(&bytes) {
            match bytes[place] {
                3 => sizes[usize::from(bytes[place + 2]) - 2] += 1,
                7 => passes += 1,
                _ => {}
            }
        }
    }
    assert!(sizes[1..].iter().all(|&count| count > 0), "{sizes:?}");
    assert!(passes > 0);
}

/// Numbers that a field of tag 7 can have, each at such a field.
#[test]
fn damaged_files_reach_each_number_of_tag_7() {
    let mut reached = [0; 15];
    for index in 0..DAMAGED {
        let bytes = damaged_file(SEED, index);
        if let Err(Refusal { number, place }) = read(&bytes) {
            let is_pass = bytes.get(place) == Some(&7);
            reached[usize::from(number)] += usize::from(is_pass);
        }
    }
    for number in [2, 4, 5, 6, 7] {
        assert!(reached[number] > 0, "{reached:?}");
    }
    let others = [3, 8, 9, 10, 11, 12, 13, 14];
    assert!(others.iter().all(|&number| reached[number] == 0));
}

/// FNV-1a over the files, so that a change of the makers, or a machine on which
/// they differ, shows here.
#[test]
fn files_are_the_same_everywhere() {
    let checksum = |file: fn(u64, u64) -> Vec<u8>| {
        let bytes = (0..64).flat_map(|index| file(SEED, index));
        bytes.fold(0xcbf2_9ce4_8422_2325u64, |sum, byte| {
            (sum ^ u64::from(byte)).wrapping_mul(0x100_0000_01b3)
        })
    };
    assert_eq!(checksum(made_file), 0xe239_f7c9_dfec_fafb);
    assert_eq!(checksum(damaged_file), 0x3b72_165a_77a9_9c34);
}

/// In an exhaustive list the bridges to the rails show which nodes and labels are
/// at supply and at ground; every other mark has to be one end at each.
#[test]
fn a_mark_is_one_end_at_supply_and_the_other_at_ground() {
    for circuit in made_circuits().filter(|circuit| circuit.vectors.len() <= 130) {
        let graded = graded(&circuit);
        for (index, instance) in circuit.instances.iter().enumerate() {
            if instance.choice == -1 {
                let rows = graded.rows.iter().filter(|row| row.instance == index + 1);
                let rows: Vec<&Row> = rows.collect();
                for vector in 0..graded.vectors {
                    check_ends(&rows, circuit.type_of(instance), vector);
                }
            }
        }
    }
}

fn check_ends(rows: &[&Row], module: &ModuleType, vector: usize) {
    let marked = |kind: Kind, first: u8, second: u8| {
        rows.iter().any(|row| {
            let bridge = (row.bridge.kind, row.bridge.first, row.bridge.second);
            bridge == (kind, first, second) && row.marks[vector]
        })
    };
    // A rail has no bridge to itself, and the bridge 0-1 shows each at its own.
    let nodes = 0..=module.highest;
    let supply: Vec<bool> = nodes
        .clone()
        .map(|node| marked(Kind::Nodes, 0, node))
        .collect();
    let ground: Vec<bool> = nodes
        .map(|node| node == 0 || marked(Kind::Nodes, 1, node))
        .collect();
    let labels_beside = |rail: u8| -> Vec<bool> {
        let labels = 0..module.labels;
        labels
            .map(|label| marked(Kind::Label, rail, label))
            .collect()
    };
    let (ones, zeros) = (labels_beside(0), labels_beside(1));
    for row in rows {
        let (a, b) = (
            usize::from(row.bridge.first),
            usize::from(row.bridge.second),
        );
        let expected = match row.bridge.kind {
            Kind::Nodes => supply[a] && ground[b] || ground[a] && supply[b],
            Kind::Label => supply[a] && zeros[b] || ground[a] && ones[b],
        };
        assert_eq!(row.marks[vector], expected);
    }
}

/// Whether a network between two ends shrinks to one edge when parallel edges are
/// merged, loose ends dropped and nodes between two edges passed over.
fn is_series_parallel(mut edges: Vec<(u8, u8)>, ends: [u8; 2]) -> bool {
    loop {
        for edge in &mut edges {
            *edge = (edge.0.min(edge.1), edge.0.max(edge.1));
        }
        edges.sort_unstable();
        edges.dedup();
        edges.retain(|edge| edge.0 != edge.1);
        let at = |node: u8| move |edge: &(u8, u8)| edge.0 == node || edge.1 == node;
        let inner = (0..32).filter(|node| !ends.contains(node));
        let short = inner
            .map(|node| {
                (
                    node,
                    edges.iter().copied().filter(at(node)).collect::<Vec<_>>(),
                )
            })
            .find(|(_, around)| (1..=2).contains(&around.len()));
        let Some((node, around)) = short else {
            return edges.len() == 1;
        };
        edges.retain(|edge| !at(node)(edge));
        if let [one, other] = around[..] {
            edges.push((one.0 + one.1 - node, other.0 + other.1 - node));
        }
    }
}

#[test]
fn some_made_types_are_not_series_parallel() {
    let mut both = [0; 2];
    let types = made_circuits().flat_map(|circuit| circuit.types);
    for module in types.filter(|module| !has_pass(module)) {
        let is_p = |edge: &&Edge| edge.channel == Channel::P;
        let (p, n): (Vec<&Edge>, Vec<&Edge>) = module.edges.iter().partition(is_p);
        let is_simple = |edges: Vec<&Edge>, rail: u8| {
            let ends = edges.iter().map(|edge| edge.ends.into()).collect();
            is_series_parallel(ends, [rail, module.output])
        };
        both[usize::from(is_simple(p, 1) && is_simple(n, 0))] += 1;
    }
    assert!(both[0] > 20 && both[1] > 200, "{both:?}");
}

/// Filling an X with either value keeps the marks that were there.
#[test]
fn filling_an_unknown_keeps_marks() {
    for mut circuit in made_circuits().filter(|circuit| circuit.instances.len() < 100) {
        let before = graded(&circuit);
        for filling in [Value::Zero, Value::One] {
            let unknown = circuit.vectors.iter_mut().flatten();
            unknown
                .filter(|value| **value == Value::X)
                .step_by(2)
                .for_each(|value| *value = filling);
            let after = graded(&circuit);
            for (row, filled) in before.rows.iter().zip(&after.rows) {
                let kept = row
                    .marks
                    .iter()
                    .zip(&filled.marks)
                    .all(|(was, is)| is >= was);
                assert!(kept);
            }
        }
    }
}
