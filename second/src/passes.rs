//! Types with pass transistors: networks of both channels, multiplexers of what such
//! networks drive, gates that are always or never on, long rows of them, and types of
//! any kind in which the numbers of the nodes do not tell the channels.

use crate::circuit::{Channel, Edge, ModuleType};
use crate::conduction::{channel, is_complementary, GROUND, SUPPLY};
use crate::format::{HIGHEST_NODE, MOST_EDGES, MOST_LABELS};
use crate::networks::{Drawn, Tree};
use crate::random::Random;

/// The output of a plan, before its nodes get their numbers.
const OUTPUT: u8 = 2;
/// Trials judge many types, so their settings are kept few.
const MOST_TRIED_LABELS: u8 = 6;
const TRIALS: usize = 12;
const LENGTHENED_ONE_IN: usize = 8;

/// A transistor not yet laid.
#[derive(Clone, Copy)]
struct Switch {
    channel: Channel,
    label: u8,
}

impl Switch {
    /// On where this one is off.
    fn turned(&self) -> Switch {
        let channel = match self.channel {
            Channel::P => Channel::N,
            Channel::N => Channel::P,
        };
        Switch { channel, ..*self }
    }
}

/// A type in the making: its nodes are ground, supply, the output, and others as they
/// come.
#[derive(Clone)]
struct Plan {
    labels: u8,
    nodes: usize,
    edges: Vec<Edge>,
}

impl Plan {
    fn new(labels: u8) -> Plan {
        Plan {
            labels,
            nodes: usize::from(OUTPUT) + 1,
            edges: Vec::new(),
        }
    }

    fn has_room(&self) -> bool {
        self.nodes <= usize::from(HIGHEST_NODE) + 1 && self.edges.len() <= MOST_EDGES
    }

    fn add_node(&mut self) -> u8 {
        self.nodes += 1;
        (self.nodes - 1) as u8
    }

    fn any_node(&self, random: &mut Random) -> u8 {
        random.below(self.nodes) as u8
    }

    fn any_switch(&self, random: &mut Random) -> Switch {
        Switch {
            channel: random.pick(&Channel::ALL),
            label: random.below(usize::from(self.labels)) as u8,
        }
    }

    fn add(&mut self, ends: [u8; 2], switch: Switch) {
        self.edges.push(Edge {
            ends,
            channel: switch.channel,
            label: switch.label,
            is_pass: true,
        });
    }

    /// Lays a tree between two ends; its leaves are places in the list of switches.
    fn lay(&mut self, tree: &Tree, switches: &[Switch], ends: [u8; 2]) {
        match tree {
            Tree::Leaf(place) => self.add(ends, switches[usize::from(*place)]),
            Tree::Parallel(children) => {
                for child in children {
                    self.lay(child, switches, ends);
                }
            }
            Tree::Series(children) => {
                let [mut from, last] = ends;
                for (index, child) in children.iter().enumerate() {
                    let is_last = index + 1 == children.len();
                    let to = if is_last { last } else { self.add_node() };
                    self.lay(child, switches, [from, to]);
                    from = to;
                }
            }
        }
    }

    /// Joins a node to the first of two others or, where its path is cut, to the second.
    fn choose(&mut self, random: &mut Random, node: u8, others: [u8; 2]) {
        let leaves = random.pick(&[1, 1, 1, 2, 2, 3]);
        let switches: Vec<Switch> = (0..leaves).map(|_| self.any_switch(random)).collect();
        let turned: Vec<Switch> = switches.iter().map(Switch::turned).collect();
        let places: Vec<u8> = (0..leaves).collect();
        let series = random.one_in(2);
        let tree = Tree::grown(random, &places, series);
        self.lay(&tree, &switches, [others[0], node]);
        self.lay(&tree.dual(random), &turned, [node, others[1]]);
    }

    /// Joins a node to exactly one rail under each setting: at once, or through one of
    /// two nodes of which the same holds.
    fn drive(&mut self, random: &mut Random, node: u8, depth: usize) {
        if depth == 0 {
            return self.choose(random, node, [SUPPLY, GROUND]);
        }
        let others = [self.add_node(), self.add_node()];
        self.choose(random, node, others);
        for other in others {
            let depth = random.between(0, depth - 1);
            self.drive(random, other, depth);
        }
    }

    /// Puts a gate into one end of an edge: both channels at one label, so one is on.
    fn split(&mut self, random: &mut Random, edge: usize) {
        let end = random.below(2);
        let (old, new) = (self.edges[edge].ends[end], self.add_node());
        self.edges[edge].ends[end] = new;
        let switch = self.any_switch(random);
        self.add([old, new], switch);
        self.add([new, old], switch.turned());
    }

    /// Puts gates into one edge, as many as there is room for, so that a path is long.
    fn lengthen(&mut self, random: &mut Random) {
        let chosen = random.below(self.edges.len());
        for _ in 0..random.between(1, usize::from(HIGHEST_NODE)) {
            let before = self.clone();
            self.split(random, chosen);
            if !self.has_room() {
                *self = before;
                return;
            }
        }
    }

    /// Both channels at one label in series, between any two nodes: never on.
    fn add_never(&mut self, random: &mut Random) {
        let ends = [self.any_node(random), self.any_node(random)];
        let (middle, switch) = (self.add_node(), self.any_switch(random));
        self.add([ends[0], middle], switch);
        self.add([middle, ends[1]], switch.turned());
    }

    /// Adds a node that one edge reaches, so that it floats or follows its neighbour.
    fn add_branch(&mut self, random: &mut Random) {
        let (from, switch) = (self.any_node(random), self.any_switch(random));
        let tip = self.add_node();
        self.add([from, tip], switch);
    }

    fn decorate(&mut self, random: &mut Random) {
        let before = self.clone();
        let chosen = random.below(self.edges.len());
        match random.below(5) {
            0 => self.split(random, chosen),
            1 => self.add_never(random),
            2 => self.add_branch(random),
            3 => self.edges.push(before.edges[chosen]),
            _ => {
                self.add_node();
            }
        }
        if !self.has_room() {
            *self = before;
        }
    }

    /// Edges between any two nodes that happen to leave the type complementary.
    fn try_edges(&mut self, random: &mut Random) {
        for _ in 0..TRIALS {
            let ends = [self.any_node(random), self.any_node(random)];
            let mut tried = self.clone();
            tried.add(ends, self.any_switch(random));
            if ends[0] != ends[1] && tried.has_room() && is_complementary(&tried.module()) {
                *self = tried;
            }
        }
    }

    fn module(&self) -> ModuleType {
        ModuleType {
            highest: (self.nodes - 1) as u8,
            output: OUTPUT,
            labels: self.labels,
            edges: self.edges.clone(),
        }
    }
}

/// A type of pass transistors, or of both tags.
pub fn drawn_with_passes(random: &mut Random) -> Drawn {
    let mut plan = driven(random);
    for _ in 0..random.below(5) {
        plan.decorate(random);
    }
    if plan.labels <= MOST_TRIED_LABELS && random.one_in(2) {
        plan.try_edges(random);
    }
    if random.one_in(LENGTHENED_ONE_IN) {
        plan.lengthen(random);
    }
    random.shuffle(&mut plan.edges);
    for edge in &mut plan.edges {
        if random.one_in(2) {
            edge.ends.swap(0, 1);
        }
    }
    let drawn = Drawn {
        sizes: vec![1; plan.edges.len()],
        module: plan.module(),
    };
    renumbered(random, drawn)
}

fn driven(random: &mut Random) -> Plan {
    loop {
        let labels = random.pick(&[1, 2, 3, 3, 4, 6, MOST_LABELS]);
        let depth = random.pick(&[0, 1, 1, 1, 2, 3]);
        let mut plan = Plan::new(labels);
        plan.drive(random, OUTPUT, depth);
        if plan.has_room() {
            return plan;
        }
    }
}

/// The same type with any numbers for its output and its inner nodes.
pub fn renumbered(random: &mut Random, mut drawn: Drawn) -> Drawn {
    let module = &mut drawn.module;
    let mut numbers: Vec<u8> = (0..=module.highest).collect();
    random.shuffle(&mut numbers[usize::from(OUTPUT)..]);
    module.output = numbers[usize::from(module.output)];
    for edge in &mut module.edges {
        edge.ends = edge.ends.map(|end| numbers[usize::from(end)]);
    }
    with_passes(random, drawn)
}

/// The same type with its edges under tag 7, but for groups that tag 3 can say too: of
/// these all keep it, or about half, or none.
pub fn with_passes(random: &mut Random, mut drawn: Drawn) -> Drawn {
    let kept_of_two = random.pick(&[2, 1, 0]);
    let output = drawn.module.output;
    let mut rest = drawn.module.edges.as_mut_slice();
    let mut sizes = Vec::new();
    for size in drawn.sizes {
        let (group, after) = rest.split_at_mut(size);
        let is_told_by_place = channel(output, group[0].ends) == Some(group[0].channel);
        let is_kept = is_told_by_place && random.below(2) < kept_of_two;
        sizes.extend(is_kept.then_some(size));
        for edge in group {
            edge.is_pass = !is_kept;
        }
        rest = after;
    }
    drawn.sizes = sizes;
    drawn
}
