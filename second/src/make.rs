//! Whole circuits from a seed, all of them accepted: types, user lists, chains of
//! instances and vectors, small ones, ones at a word's border and full-size ones; with
//! a field for each edge, or with grouped fields as old files have them; with pass
//! transistors or without.

use crate::circuit::{Bridge, Circuit, Instance, Kind, ListedBridge, ModuleType, Value};
use crate::faults::{exhaustive_list, faults_of, fits, user_list, EXHAUSTIVE};
use crate::format::{
    HIGHEST_LIST, MOST_BRIDGES, MOST_EDGES, MOST_FAULTS, MOST_INPUTS, MOST_INSTANCES, MOST_TYPES,
    MOST_VECTORS,
};
use crate::networks::Drawn;
use crate::passes::{drawn_with_passes, renumbered, with_passes};
use crate::random::Random;
use crate::types::{crowded_type, full_type, gate, long_type, made_type, MOST_OLD_FIELDS};
use crate::write::{bytes_of, fields_of, grouped, LooseField};

const FULL_SIZE_EVERY: u64 = 32;
const CROWDED_TYPE_ONE_IN: usize = 16;
const LONG_TYPE_ONE_IN: usize = 8;
const NEARLY_UNKNOWN_ONE_IN: usize = 10;
/// Sizes of the lists of a full-size file; together 256 bridges, and any number
/// of faults up to 2,048 is a sum of few of them.
const FULL_LISTS: [usize; 9] = [128, 64, 32, 16, 8, 4, 2, 1, 1];

/// A circuit, and the sizes of the groups in which the edges of tag 3 of all its types
/// are written, in order; those left over stand alone.
#[derive(Clone, Debug, Default)]
pub struct Made {
    pub circuit: Circuit,
    sizes: Vec<usize>,
}

impl Made {
    fn of_inputs(inputs: usize) -> Made {
        let mut made = Made::default();
        made.circuit.inputs = inputs;
        made
    }

    fn add_type(&mut self, drawn: Drawn) {
        self.circuit.types.push(drawn.module);
        self.sizes.extend(drawn.sizes);
    }

    /// As layout extracts them now: a field for each edge.
    fn ungroup(&mut self) {
        self.sizes.clear();
    }

    pub fn fields(&self) -> Vec<LooseField> {
        grouped(fields_of(&self.circuit), &self.sizes)
    }
}

pub fn made_file(seed: u64, index: u64) -> Vec<u8> {
    bytes_of(&made(seed, index).fields())
}

pub fn made_circuit(seed: u64, index: u64) -> Circuit {
    made(seed, index).circuit
}

/// Every 32nd circuit is full-size, so that a short run holds some.
fn made(seed: u64, index: u64) -> Made {
    let mut random = Random::for_file(seed, index);
    let random = &mut random;
    if index % FULL_SIZE_EVERY != FULL_SIZE_EVERY - 1 {
        return small_circuit(random);
    }
    match random.below(4) {
        0 => deep_circuit(random),
        1 => full_circuit(random),
        _ => crowded_circuit(random),
    }
}

pub fn small_circuit(random: &mut Random) -> Made {
    let inputs = match random.below(6) {
        0 => 1,
        1 => random.between(1, MOST_INPUTS),
        _ => random.between(2, 8),
    };
    let mut made = Made::of_inputs(inputs);
    let has_passes = random.one_in(2);
    for _ in 0..random.between(1, 4) {
        let drawn = if has_passes && !random.one_in(3) {
            passing_type(random)
        } else {
            any_type(random)
        };
        made.add_type(drawn);
    }
    if random.one_in(2) {
        made.ungroup();
    }
    let circuit = &mut made.circuit;
    circuit.bridges = user_lists(random, &circuit.types);
    let count = match random.below(8) {
        0 => 1,
        1 => random.between(10, 30),
        _ => random.between(2, 7),
    };
    let chained = random.one_in(4);
    add_instances(random, circuit, count, chained);
    choose_lists(random, circuit);
    let vectors = vector_count(random);
    add_vectors(random, circuit, vectors);
    if random.one_in(NEARLY_UNKNOWN_ONE_IN) {
        make_unknown(random, &mut circuit.vectors);
    }
    made
}

/// Now and then a type with long series, or with more edges than a type once had fields.
fn any_type(random: &mut Random) -> Drawn {
    if random.one_in(LONG_TYPE_ONE_IN) {
        long_type(random)
    } else if random.one_in(CROWDED_TYPE_ONE_IN) {
        let edges = random.between(MOST_OLD_FIELDS + 1, MOST_EDGES);
        crowded_type(random, edges)
    } else {
        made_type(random)
    }
}

/// Drawn with pass transistors, or any type in which they take the place of edges; its
/// nodes may then have any numbers.
fn passing_type(random: &mut Random) -> Drawn {
    match random.below(4) {
        0 => {
            let drawn = any_type(random);
            with_passes(random, drawn)
        }
        1 => {
            let drawn = any_type(random);
            renumbered(random, drawn)
        }
        _ => drawn_with_passes(random),
    }
}

/// An old file with everything at its limit.
pub fn full_circuit(random: &mut Random) -> Made {
    let inputs = random.pick(&[1, 3, 16, MOST_INPUTS]);
    filled(random, inputs, full_type)
}

/// A file with everything at its limit. With many inputs and a field for each edge it
/// is longer than an old one could be.
fn crowded_circuit(random: &mut Random) -> Made {
    let inputs = random.pick(&[16, MOST_INPUTS, MOST_INPUTS]);
    let full: fn(&mut Random) -> Drawn = if random.one_in(2) {
        |random| crowded_type(random, MOST_EDGES)
    } else {
        |random| {
            let drawn = crowded_type(random, MOST_EDGES);
            renumbered(random, drawn)
        }
    };
    let mut made = filled(random, inputs, full);
    if random.one_in(2) {
        made.ungroup();
    }
    made
}

/// As much as there may be of everything; most types are full ones. The lists are
/// laid so that there are 2,048 faults.
fn filled(random: &mut Random, inputs: usize, full: fn(&mut Random) -> Drawn) -> Made {
    let mut made = Made::of_inputs(inputs);
    while made.circuit.types.len() < MOST_TYPES {
        let drawn = if random.one_in(6) {
            made_type(random)
        } else {
            full(random)
        };
        made.add_type(drawn);
    }
    let circuit = &mut made.circuit;
    circuit.bridges = full_lists(random, &circuit.types);
    let chained = random.one_in(2);
    add_instances(random, circuit, MOST_INSTANCES, chained);
    choose_lists(random, circuit);
    fill_faults(circuit);
    add_vectors(random, circuit, MOST_VECTORS);
    made
}

/// A chain 128 deep of simple gates, some with long series, so that values come through
/// to its end.
fn deep_circuit(random: &mut Random) -> Made {
    let mut made = Made::of_inputs(random.between(1, 6));
    for _ in 0..random.between(1, 3) {
        let drawn = if random.one_in(3) {
            long_type(random)
        } else {
            gate(random)
        };
        made.add_type(if random.one_in(2) {
            renumbered(random, drawn)
        } else {
            drawn
        });
    }
    let circuit = &mut made.circuit;
    add_instances(random, circuit, MOST_INSTANCES, true);
    choose_lists(random, circuit);
    add_vectors(random, circuit, MOST_VECTORS);
    made
}

fn vector_count(random: &mut Random) -> usize {
    match random.below(10) {
        0 => random.between(63, 66),
        1 => random.between(127, 130),
        2 => random.between(191, 194),
        3 => random.between(255, 256),
        4 => random.between(1, MOST_VECTORS),
        _ => random.between(1, 20),
    }
}

/// A bridge that fits modules with this highest node and these labels.
fn made_bridge(random: &mut Random, highest: u8, labels: u8) -> Bridge {
    let nodes = usize::from(highest) + 1;
    let first = random.below(nodes);
    if random.one_in(2) {
        let second = (first + random.between(1, nodes - 1)) % nodes;
        Bridge {
            kind: Kind::Nodes,
            first: first as u8,
            second: second as u8,
        }
    } else {
        Bridge {
            kind: Kind::Label,
            first: first as u8,
            second: random.below(usize::from(labels)) as u8,
        }
    }
}

/// A bridge from a rail to a label, to the output or to the other rail, which is a
/// short that other instances may list too.
fn rail_bridge(random: &mut Random, module: &ModuleType) -> Bridge {
    let first = random.below(2) as u8;
    let (kind, second) = match random.below(5) {
        0 => (Kind::Nodes, 1 - first),
        1 | 2 => (Kind::Nodes, module.output),
        _ => (Kind::Label, random.below(usize::from(module.labels)) as u8),
    };
    Bridge {
        kind,
        first,
        second,
    }
}

/// The same bridge named from its other end, where it has one.
fn from_other_end(bridge: Bridge) -> Bridge {
    match bridge.kind {
        Kind::Nodes => Bridge {
            first: bridge.second,
            second: bridge.first,
            ..bridge
        },
        Kind::Label => bridge,
    }
}

fn user_lists(random: &mut Random, types: &[ModuleType]) -> Vec<ListedBridge> {
    let mut bridges = Vec::new();
    for _ in 0..random.below(5) {
        let list = random.between(1, usize::from(HIGHEST_LIST)) as u8;
        let module = &types[random.below(types.len())];
        for _ in 0..random.between(1, 12) {
            let bridge = if random.one_in(3) {
                rail_bridge(random, module)
            } else {
                made_bridge(random, module.highest, module.labels)
            };
            bridges.push(ListedBridge { list, bridge });
            if random.one_in(3) {
                let bridge = from_other_end(bridge);
                bridges.push(ListedBridge { list, bridge });
            }
        }
    }
    random.shuffle(&mut bridges);
    bridges
}

/// Lists that fit every type, so that any instance can take any of them.
fn full_lists(random: &mut Random, types: &[ModuleType]) -> Vec<ListedBridge> {
    let highest = types.iter().map(|module| module.highest).min().unwrap_or(2);
    let labels = types.iter().map(|module| module.labels).min().unwrap_or(1);
    let mut numbers: Vec<u8> = (1..=HIGHEST_LIST).collect();
    random.shuffle(&mut numbers);
    let mut bridges = Vec::with_capacity(MOST_BRIDGES);
    for (&list, size) in numbers.iter().zip(FULL_LISTS) {
        for _ in 0..size {
            let bridge = made_bridge(random, highest, labels);
            bridges.push(ListedBridge { list, bridge });
        }
    }
    random.shuffle(&mut bridges);
    bridges
}

/// A chained instance takes the output of the one before it.
fn add_instances(random: &mut Random, circuit: &mut Circuit, count: usize, chained: bool) {
    for earlier in 0..count {
        let type_number = random.between(1, circuit.types.len()) as u8;
        let labels = circuit.types[usize::from(type_number) - 1].labels;
        let mut references: Vec<i16> = Vec::new();
        for _ in 0..labels {
            let reference = if !references.is_empty() && random.one_in(5) {
                random.pick(&references)
            } else if earlier > 0 && random.one_in(2) {
                -(random.between(1, earlier) as i16)
            } else {
                random.between(1, circuit.inputs) as i16
            };
            references.push(reference);
        }
        if chained && earlier > 0 {
            references[random.below(usize::from(labels))] = -(earlier as i16);
        }
        circuit.instances.push(Instance {
            type_number,
            choice: 0,
            references,
        });
    }
}

/// Gives each instance a list that its type fits, or none, within 2,048 faults.
/// They choose in a random order, so that late ones are not left without faults.
fn choose_lists(random: &mut Random, circuit: &mut Circuit) {
    let mut room = MOST_FAULTS;
    let mut order: Vec<usize> = (0..circuit.instances.len()).collect();
    random.shuffle(&mut order);
    for index in order {
        let module = circuit.type_of(&circuit.instances[index]);
        let choice = match random.below(4) {
            0 => 0,
            1 => EXHAUSTIVE,
            _ if circuit.bridges.is_empty() => EXHAUSTIVE,
            _ => circuit.bridges[random.below(circuit.bridges.len())].list as i8,
        };
        let list = match choice {
            0 => Vec::new(),
            EXHAUSTIVE => exhaustive_list(module),
            number => user_list(&circuit.bridges, number),
        };
        if list.len() <= room && list.iter().all(|bridge| fits(bridge, module)) {
            room -= list.len();
            circuit.instances[index].choice = choice;
        }
    }
}

/// Brings the faults of a full-size file to 2,048: instances without faults take
/// the largest list that still has room.
fn fill_faults(circuit: &mut Circuit) {
    let count = |circuit: &Circuit, choice: i8| user_list(&circuit.bridges, choice).len();
    let mut room = MOST_FAULTS;
    for instance in &circuit.instances {
        room -= faults_of(circuit, instance).len();
    }
    for index in 0..circuit.instances.len() {
        let best = (1..=HIGHEST_LIST as i8)
            .filter(|&list| count(circuit, list) <= room)
            .max_by_key(|&list| count(circuit, list));
        if let (0, Some(list)) = (circuit.instances[index].choice, best) {
            let size = count(circuit, list);
            if size > 0 {
                room -= size;
                circuit.instances[index].choice = list;
            }
        }
    }
}

fn add_vectors(random: &mut Random, circuit: &mut Circuit, count: usize) {
    let unknown_one_in = random.pick(&[2, 4, 10, 1_000_000]);
    for _ in 0..count {
        let all_unknown = random.one_in(100);
        let vector = (0..circuit.inputs)
            .map(|_| {
                if all_unknown || random.one_in(unknown_one_in) {
                    Value::X
                } else {
                    random.pick(&[Value::Zero, Value::One])
                }
            })
            .collect();
        circuit.vectors.push(vector);
    }
}

/// Leaves none of the vectors as it was, or one, or those from some place on, so that no
/// other joins a node to a rail.
fn make_unknown(random: &mut Random, vectors: &mut [Vec<Value>]) {
    let place = random.below(vectors.len());
    let kept = match random.below(3) {
        0 => 0..0,
        1 => place..place + 1,
        _ => place..vectors.len(),
    };
    for (place, vector) in vectors.iter_mut().enumerate() {
        if !kept.contains(&place) {
            vector.fill(Value::X);
        }
    }
}
