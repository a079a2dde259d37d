//! Networks as series and parallel groups of edges, every order of their series,
//! and the module type of a p and an n network, for the thesis's circuits.

use second::builder::{EdgeRow, FileBuilder};

#[derive(Clone, Debug, PartialEq, Eq)]
pub enum Net {
    Edge(Vec<u8>),
    Series(Vec<Net>),
    Parallel(Vec<Net>),
}

/// An edge with the thesis's labels, which count from 1.
pub fn edge(labels: &[u8]) -> Net {
    Net::Edge(labels.iter().map(|label| label - 1).collect())
}

/// The net with each of its series in each order.
pub fn all_orders(net: &Net) -> Vec<Net> {
    match net {
        Net::Edge(_) => vec![net.clone()],
        Net::Parallel(children) => each_choice(children)
            .into_iter()
            .map(Net::Parallel)
            .collect(),
        Net::Series(children) => each_choice(children)
            .iter()
            .flat_map(|chosen| permutations(chosen))
            .map(Net::Series)
            .collect(),
    }
}

fn each_choice(children: &[Net]) -> Vec<Vec<Net>> {
    let mut choices = vec![Vec::new()];
    for child in children {
        let ways = all_orders(child);
        choices = choices
            .iter()
            .flat_map(|chosen: &Vec<Net>| ways.iter().map(|way| with(chosen, way)))
            .collect();
    }
    choices
}

fn with(chosen: &[Net], last: &Net) -> Vec<Net> {
    [chosen, std::slice::from_ref(last)].concat()
}

fn permutations(items: &[Net]) -> Vec<Vec<Net>> {
    if items.is_empty() {
        return vec![Vec::new()];
    }
    let mut all = Vec::new();
    for index in 0..items.len() {
        let mut rest = items.to_vec();
        let last = rest.remove(index);
        all.extend(permutations(&rest).iter().map(|order| with(order, &last)));
    }
    all
}

#[derive(Clone)]
pub struct Module {
    pub highest: u8,
    pub output: u8,
    pub labels: u8,
    pub edges: Vec<(u8, u8, Vec<u8>)>,
}

impl Module {
    /// Numbers the nodes from supply down, the p network, the output, the n network.
    pub fn of(p: &Net, n: &Net, labels: u8) -> Module {
        let mut module = Module {
            highest: 1,
            output: 2 + inner_nodes(p),
            labels,
            edges: Vec::new(),
        };
        module.lay(p, 1, module.output);
        module.highest += 1;
        module.lay(n, module.output, 0);
        module
    }

    fn lay(&mut self, net: &Net, from: u8, to: u8) {
        match net {
            Net::Edge(labels) => self.edges.push((from, to, labels.clone())),
            Net::Parallel(children) => {
                for child in children {
                    self.lay(child, from, to);
                }
            }
            Net::Series(children) => {
                let mut start = from;
                for (index, child) in children.iter().enumerate() {
                    let mut end = to;
                    if index + 1 < children.len() {
                        self.highest += 1;
                        end = self.highest;
                    }
                    self.lay(child, start, end);
                    start = end;
                }
            }
        }
    }

    pub fn is_edge(&self, a: u8, b: u8) -> bool {
        let ends =
            |&(from, to, _): &(u8, u8, Vec<u8>)| (from, to) == (a, b) || (to, from) == (a, b);
        self.edges.iter().any(ends)
    }

    /// With a field for each transistor; the thesis has parallel ones for one edge.
    pub fn added_to(&self, file: FileBuilder) -> FileBuilder {
        let edges: Vec<EdgeRow> = self
            .edges
            .iter()
            .flat_map(|(a, b, labels)| labels.chunks(1).map(move |label| (*a, *b, label)))
            .collect();
        file.module(self.highest, self.output, self.labels, &edges)
    }
}

fn inner_nodes(net: &Net) -> u8 {
    match net {
        Net::Edge(_) => 0,
        Net::Parallel(children) => children.iter().map(inner_nodes).sum(),
        Net::Series(children) => {
            children.iter().map(inner_nodes).sum::<u8>() + children.len() as u8 - 1
        }
    }
}
