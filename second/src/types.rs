//! Recipes for complementary module types: series-parallel ones with their
//! duals, bridge networks, mirror adders, cut networks and types found by search;
//! ones with long series; and full ones, by the limits of old files and by those of
//! today.

use crate::circuit::{Channel, ModuleType};
use crate::conduction::is_complementary;
use crate::format::{HIGHEST_NODE, MOST_LABELS};
use crate::networks::{minimal_cuts, rails, Drawn, Sketch, Tree};
use crate::random::Random;

/// The search for shortcuts judges many types, so their settings are kept few.
const MOST_SEARCHED_LABELS: u8 = 6;
/// As many as a type could have while a field was one edge with up to four labels.
pub const MOST_OLD_FIELDS: usize = 64;

pub fn made_type(random: &mut Random) -> Drawn {
    let mut sketch = match random.below(10) {
        0 => simple_gate(random),
        1 => wheatstone(random),
        2 => mirror(random),
        3 => cut_type(random, Channel::N),
        4 => cut_type(random, Channel::P),
        5 => searched(random),
        _ => {
            let leaves = random.between(1, 14);
            series_parallel(random, leaves, MOST_LABELS)
        }
    };
    if random.one_in(2) {
        sketch.group_parallel(random);
    }
    for _ in 0..random.below(4) {
        decorate(random, &mut sketch);
    }
    sketch.numbered(random)
}

pub fn gate(random: &mut Random) -> Drawn {
    simple_gate(random).numbered(random)
}

pub fn gate_type(random: &mut Random) -> ModuleType {
    gate(random).module
}

/// A type with one or two long series, up to one through all nodes that there may be.
/// Few leaves have few labels, so most vectors turn some series on as a whole.
pub fn long_type(random: &mut Random) -> Drawn {
    let leaves = random.pick(&[1, 1, 2, 3, 6, 12]);
    let mut sketch = series_parallel(random, leaves, MOST_LABELS);
    for _ in 0..random.below(3) {
        decorate(random, &mut sketch);
    }
    for _ in 0..random.between(1, 2) {
        let nodes = random.between(1, usize::from(HIGHEST_NODE));
        sketch.draw_out(random, nodes);
    }
    sketch.numbered(random)
}

/// A type with 64 groups of edges and, as far as the nodes reach, the highest node 31.
pub fn full_type(random: &mut Random) -> Drawn {
    let mut sketch = many_leaves(random);
    if random.one_in(2) {
        sketch.group_parallel(random);
    }
    for _ in 0..HIGHEST_NODE {
        sketch.add_idle_node(random);
    }
    sketch.fill_groups(random, MOST_OLD_FIELDS);
    sketch.numbered(random)
}

/// A type with this many edges, most of them beside others, and some idle nodes.
pub fn crowded_type(random: &mut Random, edges: usize) -> Drawn {
    let mut sketch = many_leaves(random);
    for _ in 0..random.pick(&[0, 3, HIGHEST_NODE]) {
        sketch.add_idle_node(random);
    }
    sketch.fill_edges(random, edges);
    sketch.numbered(random)
}

fn many_leaves(random: &mut Random) -> Sketch {
    let leaves = random.between(8, 29);
    let labels = random.pick(&[1, 2, 6, MOST_LABELS]);
    series_parallel(random, leaves, labels)
}

fn decorate(random: &mut Random, sketch: &mut Sketch) {
    match random.below(4) {
        0 => sketch.repeat_label(random),
        1 => sketch.double_edge(random),
        2 => sketch.add_idle_node(random),
        _ => sketch.add_branch(random),
    }
}

/// Up to `most` labels on the leaves, so some are shared and some may be unused.
fn series_parallel(random: &mut Random, leaves: usize, most: u8) -> Sketch {
    let most = usize::from(most).min(leaves);
    let labels = random.between(1, most);
    let labels = random.pick(&[labels, most]);
    let mut held: Vec<u8> = (0..leaves).map(|leaf| (leaf % labels) as u8).collect();
    if random.one_in(3) {
        held = (0..leaves).map(|_| random.below(labels) as u8).collect();
    }
    random.shuffle(&mut held);
    let series = random.one_in(2);
    let tree = Tree::grown(random, &held, series);
    let mut sketch = Sketch::new(labels as u8);
    sketch.lay_both(random, &tree);
    sketch
}

fn simple_gate(random: &mut Random) -> Sketch {
    let labels = random.between(1, 4) as u8;
    let leaves: Vec<Tree> = (0..labels).map(Tree::Leaf).collect();
    let tree = if random.one_in(2) {
        Tree::Series(leaves)
    } else {
        Tree::Parallel(leaves)
    };
    let mut sketch = Sketch::new(labels);
    sketch.lay_both(random, &tree);
    sketch
}

/// Five transistors as a bridge circuit, which is no series-parallel network;
/// its planar dual is a bridge circuit with the second and fourth exchanged.
fn wheatstone(random: &mut Random) -> Sketch {
    let count = random.between(2, 5);
    let labels: Vec<u8> = (0..5).map(|_| random.below(count) as u8).collect();
    let mut sketch = Sketch::new(count as u8);
    for (channel, order) in [(Channel::N, [0, 1, 2, 3, 4]), (Channel::P, [0, 3, 2, 1, 4])] {
        let [top, bottom] = rails(channel);
        let (left, right) = (sketch.add_inner(channel), sketch.add_inner(channel));
        let places = [
            [top, left],
            [top, right],
            [left, right],
            [left, bottom],
            [right, bottom],
        ];
        for (ends, index) in places.into_iter().zip(order) {
            sketch.add_edge(ends, labels[index]);
        }
    }
    sketch
}

/// The carry or the sum module of a mirror adder: both networks are the same
/// tree, since its function is its own dual.
fn mirror(random: &mut Random) -> Sketch {
    let inputs = random.between(2, 3) as u8;
    let leaves = || (0..inputs).map(Tree::Leaf).collect::<Vec<Tree>>();
    let gated = Tree::Series(vec![Tree::Parallel(leaves()), Tree::Leaf(inputs)]);
    let tree = Tree::Parallel(vec![gated, Tree::Series(leaves())]);
    let mut sketch = Sketch::new(inputs + 1);
    for channel in [Channel::P, Channel::N] {
        sketch.lay(&tree, channel, rails(channel));
    }
    sketch
}

/// One network is any small graph, the other has a series of transistors for
/// each of its minimal cuts.
fn cut_type(random: &mut Random, graph_side: Channel) -> Sketch {
    loop {
        let nodes = random.between(2, 4);
        let edges: Vec<(usize, usize)> = (0..random.between(2, 7))
            .map(|_| {
                let from = random.below(nodes);
                (from, (from + random.between(1, nodes - 1)) % nodes)
            })
            .collect();
        let count = random.between(1, edges.len());
        let labels: Vec<u8> = edges.iter().map(|_| random.below(count) as u8).collect();
        let cuts = minimal_cuts(nodes, &edges);
        let sketch = cut_sketch(graph_side, count as u8, nodes, &edges, &labels, &cuts);
        // An empty cut means that the graph parts its ends whatever is on.
        if sketch.has_room() && !cuts.contains(&0) {
            return sketch;
        }
    }
}

fn cut_sketch(
    graph_side: Channel,
    count: u8,
    nodes: usize,
    edges: &[(usize, usize)],
    labels: &[u8],
    cuts: &[u32],
) -> Sketch {
    let mut sketch = Sketch::new(count);
    let mut ends = rails(graph_side).to_vec();
    ends.extend((2..nodes).map(|_| sketch.add_inner(graph_side)));
    for (&(a, b), &label) in edges.iter().zip(labels) {
        sketch.add_edge([ends[a], ends[b]], label);
    }
    let cut_side = match graph_side {
        Channel::P => Channel::N,
        Channel::N => Channel::P,
    };
    for &cut in cuts {
        let held = (0..labels.len()).filter(|&index| cut >> index & 1 == 1);
        let series = Tree::Series(held.map(|index| Tree::Leaf(labels[index])).collect());
        sketch.lay(&series, cut_side, rails(cut_side));
    }
    sketch
}

/// A series-parallel type with shortcuts that happen to leave it complementary.
fn searched(random: &mut Random) -> Sketch {
    let leaves = random.between(3, 8);
    let mut sketch = series_parallel(random, leaves, MOST_SEARCHED_LABELS);
    for _ in 0..12 {
        let mut tried = sketch.clone();
        tried.add_shortcut(random);
        if tried.has_room() && is_complementary(&tried.numbered(random).module) {
            sketch = tried;
        }
    }
    sketch
}
