//! How far nodes are from their rails by another way than the program's: an on edge brings
//! one end to at most one more than the other, over all edges until nothing changes. And
//! slips in this, each of which gives another number for some circuits.

use second::circuit::{Channel, Circuit, ModuleType, Value};

/// More than any distance: not joined.
const FAR: usize = 1_000;

type Wire = [usize; 2];

/// What there is to say of one rail in one instance under one vector.
pub struct Depth {
    /// Numbered from 0, as the instance is.
    pub vector: usize,
    pub instance: usize,
    pub rail: usize,
    /// The greatest distance of a node that is joined to the rail.
    pub greatest: usize,
    pub of_output: usize,
    /// The ends of the on edges.
    wires: Vec<Wire>,
}

/// Of all vectors, instances and rails.
pub fn depths(circuit: &Circuit) -> Vec<Depth> {
    let vectors = 0..circuit.vectors.len();
    vectors
        .flat_map(|vector| depths_under(circuit, vector))
        .collect()
}

pub fn greatest(circuit: &Circuit) -> usize {
    let vectors = 0..circuit.vectors.len();
    let all = vectors.flat_map(|vector| depths_under(circuit, vector));
    all.map(|depth| depth.greatest).max().unwrap_or(0)
}

fn depths_under(circuit: &Circuit, vector: usize) -> Vec<Depth> {
    let inputs = &circuit.vectors[vector];
    let mut outputs: Vec<Value> = Vec::new();
    let mut depths = Vec::new();
    for (number, instance) in circuit.instances.iter().enumerate() {
        let value = |&reference: &i16| match reference {
            1.. => inputs[reference as usize - 1],
            _ => outputs[-reference as usize - 1],
        };
        let labels: Vec<Value> = instance.references.iter().map(value).collect();
        let module = circuit.type_of(instance);
        let wires = on_edges(module, &labels);
        let output = usize::from(module.output);
        let both = [0, 1].map(|rail| depth(&wires, output, [vector, number, rail]));
        let joined = both.each_ref().map(|depth| depth.of_output > 0);
        outputs.push(match joined {
            [_, true] => Value::One,
            [true, _] => Value::Zero,
            _ => Value::X,
        });
        depths.extend(both);
    }
    depths
}

fn on_edges(module: &ModuleType, labels: &[Value]) -> Vec<Wire> {
    let mut wires = Vec::new();
    for edge in &module.edges {
        let on = match edge.channel {
            Channel::N => Value::One,
            Channel::P => Value::Zero,
        };
        if labels[usize::from(edge.label)] == on {
            wires.push(edge.ends.map(usize::from));
        }
    }
    wires
}

fn depth(wires: &[Wire], output: usize, [vector, instance, rail]: [usize; 3]) -> Depth {
    let distances = distances(wires, rail);
    Depth {
        vector,
        instance,
        rail,
        greatest: greatest_of(&distances),
        of_output: distances[output] % FAR,
        wires: wires.to_vec(),
    }
}

fn greatest_of(distances: &[usize]) -> usize {
    let joined = distances.iter().copied().filter(|&one| one < FAR);
    joined.max().unwrap_or(0)
}

fn distances(wires: &[Wire], rail: usize) -> [usize; 32] {
    let mut distances = [FAR; 32];
    distances[rail] = 0;
    loop {
        let before = distances;
        for &[a, b] in wires {
            distances[a] = distances[a].min(distances[b] + 1);
            distances[b] = distances[b].min(distances[a] + 1);
        }
        if distances == before {
            return distances;
        }
    }
}

/// How many sweeps over the edges add a node, where each uses at once what it adds.
fn sweeps(depth: &Depth) -> usize {
    let mut joined = [false; 32];
    joined[depth.rail] = true;
    let mut count = 0;
    loop {
        let before = joined;
        for &[a, b] in &depth.wires {
            (joined[a], joined[b]) = (joined[a] || joined[b], joined[a] || joined[b]);
        }
        if joined == before {
            return count;
        }
        count += 1;
    }
}

/// The greatest distance where each node keeps that of the first path found to it, and
/// paths are followed to their ends.
fn by_first_paths(depth: &Depth) -> usize {
    let mut distances = [FAR; 32];
    distances[depth.rail] = 0;
    follow(&depth.wires, depth.rail, &mut distances);
    greatest_of(&distances)
}

fn follow(wires: &[Wire], node: usize, distances: &mut [usize; 32]) {
    for &[a, b] in wires.iter().filter(|wire| wire.contains(&node)) {
        let next = a + b - node;
        if distances[next] == FAR {
            distances[next] = distances[node] + 1;
            follow(wires, next, distances);
        }
    }
}

/// What a slip takes a depth for; 0 where it leaves it out.
pub type Slip = fn(&Circuit, &Depth) -> usize;

fn where_true(is_kept: bool, depth: &Depth) -> usize {
    usize::from(is_kept) * depth.greatest
}

pub const SLIPS: [(&str, Slip); 12] = [
    ("ground alone", |_, depth| {
        where_true(depth.rail == 0, depth)
    }),
    ("supply alone", |_, depth| {
        where_true(depth.rail == 1, depth)
    }),
    ("instances with faults", |circuit, depth| {
        let is_kept = circuit.instances[depth.instance].choice != 0;
        where_true(is_kept, depth)
    }),
    ("the first instance", |_, depth| {
        where_true(depth.instance == 0, depth)
    }),
    ("the last instance", |circuit, depth| {
        where_true(depth.instance + 1 == circuit.instances.len(), depth)
    }),
    ("the first vector", |_, depth| {
        where_true(depth.vector == 0, depth)
    }),
    ("the last vector", |circuit, depth| {
        where_true(depth.vector + 1 == circuit.vectors.len(), depth)
    }),
    ("the first 64 vectors", |_, depth| {
        where_true(depth.vector < 64, depth)
    }),
    ("vectors without X", |circuit, depth| {
        let is_kept = !circuit.vectors[depth.vector].contains(&Value::X);
        where_true(is_kept, depth)
    }),
    ("the output", |_, depth| depth.of_output),
    ("sweeps", |_, depth| sweeps(depth)),
    ("first paths", |_, depth| by_first_paths(depth)),
];

/// The number that a slip gives for a circuit with these depths.
pub fn slipped(circuit: &Circuit, depths: &[Depth], slip: Slip) -> usize {
    let taken = depths.iter().map(|depth| slip(circuit, depth));
    taken.max().unwrap_or(0)
}
