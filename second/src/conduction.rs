//! Conduction in one module: which edges are on, which nodes are joined and how far
//! apart they are, what the output is, and whether a closed bridge makes a path from
//! supply to ground.

use std::collections::VecDeque;

use crate::circuit::{Bridge, Channel, Edge, Kind, ModuleType, Value};
use crate::format::HIGHEST_NODE;

pub const GROUND: u8 = 0;
pub const SUPPLY: u8 = 1;

const NODES: usize = HIGHEST_NODE as usize + 1;

/// The channel that an edge of tag 3 has by its ends, or none if they are equal or
/// break the channel rule. Nodes above the highest node are refused before this is asked.
pub fn channel(output: u8, ends: [u8; 2]) -> Option<Channel> {
    let in_p = |node: u8| (SUPPLY..=output).contains(&node);
    let in_n = |node: u8| node >= output || node == GROUND;
    if ends[0] == ends[1] {
        None
    } else if ends.into_iter().all(in_p) {
        Some(Channel::P)
    } else if ends.into_iter().all(in_n) {
        Some(Channel::N)
    } else {
        None
    }
}

pub fn is_on(edge: &Edge, labels: &[Value]) -> bool {
    let needed = match edge.channel {
        Channel::P => Value::Zero,
        Channel::N => Value::One,
    };
    labels[usize::from(edge.label)] == needed
}

/// Nodes and the wires between them; bit b of `near[a]` is a wire from a to b.
#[derive(Clone, Copy, Debug, Default)]
pub struct Graph {
    near: [u32; NODES],
}

impl Graph {
    /// The on edges of a module under the values of its labels.
    pub fn of_on_edges(module: &ModuleType, labels: &[Value]) -> Graph {
        let mut graph = Graph::default();
        for edge in &module.edges {
            if is_on(edge, labels) {
                graph.add_wire(edge.ends[0], edge.ends[1]);
            }
        }
        graph
    }

    fn add_wire(&mut self, a: u8, b: u8) {
        self.near[usize::from(a)] |= 1 << b;
        self.near[usize::from(b)] |= 1 << a;
    }

    /// Searches a path, taking each node reached once.
    pub fn joined(&self, from: u8, to: u8) -> bool {
        let mut reached: u32 = 1 << from;
        let mut waiting = reached;
        while waiting != 0 {
            let node = waiting.trailing_zeros();
            if node == u32::from(to) {
                return true;
            }
            let fresh = self.near[node as usize] & !reached;
            reached |= fresh;
            waiting = (waiting & !(1 << node)) | fresh;
        }
        false
    }

    /// The distance of each node from this one, counted in wires along a shortest
    /// path; none if they are not joined. Nodes wait in a queue, nearer ones before
    /// those further on, so the first path that reaches a node is a shortest one.
    pub fn distances(&self, from: u8) -> [Option<usize>; NODES] {
        let mut distances = [None; NODES];
        distances[usize::from(from)] = Some(0);
        let mut queue = VecDeque::from([(usize::from(from), 0)]);
        while let Some((node, distance)) = queue.pop_front() {
            for (next, reached) in distances.iter_mut().enumerate() {
                let is_near = self.near[node] >> next & 1 == 1;
                if is_near && reached.is_none() {
                    *reached = Some(distance + 1);
                    queue.push_back((next, distance + 1));
                }
            }
        }
        distances
    }
}

pub fn output_value(module: &ModuleType, graph: &Graph) -> Value {
    if graph.joined(module.output, SUPPLY) {
        Value::One
    } else if graph.joined(module.output, GROUND) {
        Value::Zero
    } else {
        Value::X
    }
}

/// The values of a module's labels in a setting: label l is bit l of its number.
pub fn values_in(module: &ModuleType, setting: u32) -> Vec<Value> {
    (0..module.labels)
        .map(|label| match setting >> label & 1 {
            0 => Value::Zero,
            _ => Value::One,
        })
        .collect()
}

pub fn is_complementary(module: &ModuleType) -> bool {
    (0..1u32 << module.labels).all(|setting| {
        let graph = Graph::of_on_edges(module, &values_in(module, setting));
        graph.joined(module.output, GROUND) != graph.joined(module.output, SUPPLY)
    })
}

/// The mark: with the bridge closed as one more wire, is there a path from
/// supply to ground? A label at X closes no wire, since it is no known rail.
pub fn conducts_with(graph: &Graph, bridge: &Bridge, labels: &[Value]) -> bool {
    let far_end = match bridge.kind {
        Kind::Nodes => Some(bridge.second),
        Kind::Label => match labels[usize::from(bridge.second)] {
            Value::One => Some(SUPPLY),
            Value::Zero => Some(GROUND),
            Value::X => None,
        },
    };
    let mut closed = *graph;
    if let Some(end) = far_end {
        closed.add_wire(bridge.first, end);
    }
    closed.joined(SUPPLY, GROUND)
}
