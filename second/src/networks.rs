//! Networks not yet numbered: series-parallel trees and their duals, any small
//! graph with its minimal cuts, and the numbering that makes a module type of them.

use crate::circuit::{Channel, Edge, ModuleType};
use crate::conduction::{GROUND, SUPPLY};
use crate::format::{HIGHEST_NODE, MOST_EDGES, MOST_GROUPED};
use crate::random::Random;

/// Nodes 2 to 31 without the output.
const MOST_INNER: usize = HIGHEST_NODE as usize - 2;

#[derive(Clone, Debug)]
pub enum Tree {
    Leaf(u8),
    Series(Vec<Tree>),
    Parallel(Vec<Tree>),
}

impl Tree {
    /// A tree over these labels, its root series or parallel, the levels in turn.
    pub fn grown(random: &mut Random, labels: &[u8], series: bool) -> Tree {
        if let [label] = labels {
            return Tree::Leaf(*label);
        }
        let mut children = Vec::new();
        let mut rest = labels;
        while !rest.is_empty() {
            let most = if children.is_empty() {
                rest.len() - 1
            } else {
                rest.len()
            };
            let (part, after) = rest.split_at(random.between(1, most));
            children.push(Tree::grown(random, part, !series));
            rest = after;
        }
        if series {
            Tree::Series(children)
        } else {
            Tree::Parallel(children)
        }
    }

    /// Series and parallel exchanged, the children in an order of their own.
    pub fn dual(&self, random: &mut Random) -> Tree {
        let mut turn = |children: &[Tree]| {
            let mut turned: Vec<Tree> = children.iter().map(|child| child.dual(random)).collect();
            random.shuffle(&mut turned);
            turned
        };
        match self {
            Tree::Leaf(label) => Tree::Leaf(*label),
            Tree::Series(children) => Tree::Parallel(turn(children)),
            Tree::Parallel(children) => Tree::Series(turn(children)),
        }
    }
}

#[derive(Clone, Copy, Debug, PartialEq, Eq)]
pub enum End {
    Ground,
    Supply,
    Output,
    InnerP(usize),
    InnerN(usize),
}

/// Two ends and the labels of edges between them that an old file would have in one
/// field.
type Group = ([End; 2], Vec<u8>);

/// The two networks of a module whose inner nodes have no numbers yet.
#[derive(Clone, Debug)]
pub struct Sketch {
    labels: u8,
    inner_p: usize,
    inner_n: usize,
    groups: Vec<Group>,
}

/// A type, and the sizes of the groups that its edges of tag 3 make, in order.
#[derive(Clone, Debug)]
pub struct Drawn {
    pub module: ModuleType,
    pub sizes: Vec<usize>,
}

impl Sketch {
    pub fn new(labels: u8) -> Sketch {
        Sketch {
            labels,
            inner_p: 0,
            inner_n: 0,
            groups: Vec::new(),
        }
    }

    pub fn add_edge(&mut self, ends: [End; 2], label: u8) {
        self.groups.push((ends, vec![label]));
    }

    fn edges(&self) -> usize {
        self.groups.iter().map(|(_, labels)| labels.len()).sum()
    }

    pub fn add_inner(&mut self, channel: Channel) -> End {
        match channel {
            Channel::P => {
                self.inner_p += 1;
                End::InnerP(self.inner_p - 1)
            }
            Channel::N => {
                self.inner_n += 1;
                End::InnerN(self.inner_n - 1)
            }
        }
    }

    pub fn has_room(&self) -> bool {
        self.inner_p + self.inner_n <= MOST_INNER && self.edges() <= MOST_EDGES
    }

    fn has_free_node(&self) -> bool {
        self.inner_p + self.inner_n < MOST_INNER
    }

    /// Lays a tree between two ends as part of the network of this channel.
    pub fn lay(&mut self, tree: &Tree, channel: Channel, ends: [End; 2]) {
        match tree {
            Tree::Leaf(label) => self.add_edge(ends, *label),
            Tree::Parallel(children) => {
                for child in children {
                    self.lay(child, channel, ends);
                }
            }
            Tree::Series(children) => {
                let mut from = ends[0];
                for (index, child) in children.iter().enumerate() {
                    let last = index + 1 == children.len();
                    let to = if last {
                        ends[1]
                    } else {
                        self.add_inner(channel)
                    };
                    self.lay(child, channel, [from, to]);
                    from = to;
                }
            }
        }
    }

    /// Lays the tree from the output to ground and its dual from supply to the output.
    pub fn lay_both(&mut self, random: &mut Random, tree: &Tree) {
        self.lay(tree, Channel::N, rails(Channel::N));
        let dual = tree.dual(random);
        self.lay(&dual, Channel::P, rails(Channel::P));
    }

    /// Groups some parallel transistors, as layouts once did.
    pub fn group_parallel(&mut self, random: &mut Random) {
        let mut grouped: Vec<Group> = Vec::new();
        for (ends, labels) in self.groups.drain(..) {
            let partner = grouped
                .iter_mut()
                .find(|(other, held)| *other == ends && held.len() + labels.len() <= MOST_GROUPED);
            match partner {
                Some((_, held)) if !random.one_in(4) => held.extend(labels),
                _ => grouped.push((ends, labels)),
            }
        }
        self.groups = grouped;
    }

    pub fn repeat_label(&mut self, random: &mut Random) {
        let chosen = random.below(self.groups.len());
        let has_room = self.edges() < MOST_EDGES;
        let labels = &mut self.groups[chosen].1;
        if has_room && labels.len() < MOST_GROUPED {
            let label = random.pick(labels);
            labels.insert(random.below(labels.len() + 1), label);
        }
    }

    /// Edges beside some that are there, with some of their labels: nothing is joined
    /// that was not.
    fn group_beside(&self, random: &mut Random) -> Group {
        let (ends, labels) = &self.groups[random.below(self.groups.len())];
        let count = random.between(1, MOST_GROUPED);
        (*ends, (0..count).map(|_| random.pick(labels)).collect())
    }

    pub fn double_edge(&mut self, random: &mut Random) {
        let group = self.group_beside(random);
        if self.edges() + group.1.len() <= MOST_EDGES {
            self.groups.push(group);
        }
    }

    /// Doubles edges as long as there are fewer groups than this.
    pub fn fill_groups(&mut self, random: &mut Random, most: usize) {
        for _ in 0..most {
            let group = self.group_beside(random);
            if self.groups.len() < most {
                self.groups.push(group);
            }
        }
    }

    /// Doubles edges until there are this many.
    pub fn fill_edges(&mut self, random: &mut Random, count: usize) {
        while self.edges() < count {
            let (ends, mut labels) = self.group_beside(random);
            labels.truncate(count - self.edges());
            self.groups.push((ends, labels));
        }
    }

    /// Draws the edges of one group out into a series through up to this many new nodes.
    /// Each stretch of it is on where the group was, so the same ends stay joined.
    pub fn draw_out(&mut self, random: &mut Random, nodes: usize) {
        let chosen = random.below(self.groups.len());
        for _ in 0..nodes {
            let ([from, to], labels) = self.groups[chosen].clone();
            if !self.has_free_node() || self.edges() + labels.len() > MOST_EDGES {
                return;
            }
            let middle = self.add_inner(channel_of([from, to]));
            self.groups[chosen].0 = [from, middle];
            self.groups.push(([middle, to], labels));
        }
    }

    /// Adds a node that no edge reaches.
    pub fn add_idle_node(&mut self, random: &mut Random) {
        if self.has_free_node() {
            let channel = random.pick(&[Channel::P, Channel::N]);
            self.add_inner(channel);
        }
    }

    /// Adds a node that one edge reaches, so that it floats or follows its neighbour.
    pub fn add_branch(&mut self, random: &mut Random) {
        if self.has_free_node() && self.edges() < MOST_EDGES {
            let (ends, _) = self.groups[random.below(self.groups.len())];
            let tip = self.add_inner(channel_of(ends));
            let label = random.below(usize::from(self.labels)) as u8;
            self.add_edge([random.pick(&ends), tip], label);
        }
    }

    /// Adds an edge between two nodes of one network; it may break the type.
    pub fn add_shortcut(&mut self, random: &mut Random) {
        let (ends, _) = self.groups[random.below(self.groups.len())];
        let channel = channel_of(ends);
        let mut nodes = rails(channel).to_vec();
        match channel {
            Channel::P => nodes.extend((0..self.inner_p).map(End::InnerP)),
            Channel::N => nodes.extend((0..self.inner_n).map(End::InnerN)),
        }
        random.shuffle(&mut nodes);
        let label = random.below(usize::from(self.labels)) as u8;
        self.add_edge([nodes[0], nodes[1]], label);
    }

    /// Numbers the inner nodes and orders the groups at random, within the channel rule.
    pub fn numbered(&self, random: &mut Random) -> Drawn {
        let output = 2 + self.inner_p as u8;
        let mut p_numbers: Vec<u8> = (2..output).collect();
        let mut n_numbers: Vec<u8> = (output + 1..=output + self.inner_n as u8).collect();
        random.shuffle(&mut p_numbers);
        random.shuffle(&mut n_numbers);
        let number = |end: End| match end {
            End::Ground => GROUND,
            End::Supply => SUPPLY,
            End::Output => output,
            End::InnerP(index) => p_numbers[index],
            End::InnerN(index) => n_numbers[index],
        };
        let mut groups: Vec<Vec<Edge>> = Vec::new();
        for (sketched, labels) in &self.groups {
            let mut ends = sketched.map(number);
            if random.one_in(2) {
                ends.swap(0, 1);
            }
            let channel = channel_of(*sketched);
            let edge = |&label: &u8| Edge {
                ends,
                channel,
                label,
                is_pass: false,
            };
            groups.push(labels.iter().map(edge).collect());
        }
        random.shuffle(&mut groups);
        let module = ModuleType {
            highest: output + self.inner_n as u8,
            output,
            labels: self.labels,
            edges: groups.concat(),
        };
        let sizes = groups.iter().map(Vec::len).collect();
        Drawn { module, sizes }
    }
}

/// The two ends of a network: its side of the output and its rail.
pub fn rails(channel: Channel) -> [End; 2] {
    match channel {
        Channel::P => [End::Supply, End::Output],
        Channel::N => [End::Output, End::Ground],
    }
}

fn channel_of(ends: [End; 2]) -> Channel {
    let in_p = |end: End| matches!(end, End::Supply | End::InnerP(_));
    if ends.into_iter().any(in_p) {
        Channel::P
    } else {
        Channel::N
    }
}

/// The sets of edges whose removal parts `nodes` 0 and 1 of a graph and that
/// hold no smaller such set, each as a mask over the edges.
pub fn minimal_cuts(nodes: usize, edges: &[(usize, usize)]) -> Vec<u32> {
    let parts = |cut: u32| !reaches(nodes, edges, cut);
    let cuts: Vec<u32> = (0..1u32 << edges.len()).filter(|&cut| parts(cut)).collect();
    cuts.iter()
        .copied()
        .filter(|&cut| !cuts.iter().any(|&less| less != cut && less & cut == less))
        .collect()
}

fn reaches(nodes: usize, edges: &[(usize, usize)], removed: u32) -> bool {
    let mut reached = vec![false; nodes];
    reached[0] = true;
    for _ in 0..nodes {
        for (index, &(a, b)) in edges.iter().enumerate() {
            if removed >> index & 1 == 0 && (reached[a] || reached[b]) {
                reached[a] = true;
                reached[b] = true;
            }
        }
    }
    reached[1]
}
