//! Grading an accepted circuit: the marks of each row under each vector, the
//! classes, the counts, the greatest distance of a node from its rail, and refusals
//! 15 and 22 for lent buffers that are short.

use crate::circuit::{Bridge, Circuit, Value};
use crate::conduction::{conducts_with, output_value, Graph, GROUND, SUPPLY};
use crate::faults::faults_of;
use crate::nets::{Nets, Point};
use crate::read::read;
use crate::refusal::{refuse_if, Refusal};

pub const WORDS_A_ROW: usize = 4;

#[derive(Clone, Debug, PartialEq, Eq)]
pub struct Row {
    /// Numbered from 1, as in the file.
    pub instance: usize,
    pub bridge: Bridge,
    pub class: u16,
    /// One for each vector.
    pub marks: Vec<bool>,
}

impl Row {
    /// The row as it stands in the matrix: vector v, from 1, is bit (v-1) mod 64
    /// of word floor((v-1)/64).
    pub fn words(&self) -> [u64; WORDS_A_ROW] {
        let mut words = [0; WORDS_A_ROW];
        for (vector, _) in self.marks.iter().enumerate().filter(|(_, &mark)| mark) {
            words[vector / 64] |= 1 << (vector % 64);
        }
        words
    }
}

#[derive(Clone, Debug, PartialEq, Eq)]
pub struct Graded {
    pub vectors: usize,
    pub rows: Vec<Row>,
    pub classes: u16,
    pub found: usize,
    /// The greatest distance of a node from a rail that it is joined to, in any
    /// instance under any vector.
    pub rounds: usize,
}

/// Grades a file into a matrix of `matrix_len` words and a class buffer of
/// `class_len` numbers.
pub fn grade(bytes: &[u8], matrix_len: usize, class_len: usize) -> Result<Graded, Refusal> {
    let circuit = read(bytes)?;
    let mut rows = unmarked_rows(&circuit);
    let words = WORDS_A_ROW * rows.len();
    refuse_if(matrix_len < words, 15, words)?;
    refuse_if(class_len < rows.len(), 22, rows.len())?;
    let mut rounds = 0;
    for vector in &circuit.vectors {
        let conducting = conduct(&circuit, vector);
        mark_rows(&conducting, &mut rows);
        rounds = rounds.max(greatest_distance(&conducting));
    }
    let classes = number_classes(&circuit, &mut rows);
    Ok(Graded {
        vectors: circuit.vectors.len(),
        found: count_found(&rows, classes),
        rows,
        classes,
        rounds,
    })
}

fn unmarked_rows(circuit: &Circuit) -> Vec<Row> {
    let mut rows = Vec::new();
    for (index, instance) in circuit.instances.iter().enumerate() {
        for bridge in faults_of(circuit, instance) {
            rows.push(Row {
                instance: index + 1,
                bridge,
                class: 0,
                marks: Vec::with_capacity(circuit.vectors.len()),
            });
        }
    }
    rows
}

/// The on edges and the label values of one instance under one vector.
struct Conducting {
    graph: Graph,
    labels: Vec<Value>,
}

fn conduct(circuit: &Circuit, vector: &[Value]) -> Vec<Conducting> {
    let mut outputs: Vec<Value> = Vec::new();
    let mut conducting = Vec::new();
    for instance in &circuit.instances {
        let module = circuit.type_of(instance);
        let value_at = |&reference: &i16| {
            let index = usize::from(reference.unsigned_abs()) - 1;
            if reference > 0 {
                vector[index]
            } else {
                outputs[index]
            }
        };
        let labels: Vec<Value> = instance.references.iter().map(value_at).collect();
        let graph = Graph::of_on_edges(module, &labels);
        outputs.push(output_value(module, &graph));
        conducting.push(Conducting { graph, labels });
    }
    conducting
}

fn mark_rows(conducting: &[Conducting], rows: &mut [Row]) {
    for row in rows {
        let Conducting { graph, labels } = &conducting[row.instance - 1];
        row.marks.push(conducts_with(graph, &row.bridge, labels));
    }
}

/// Instances without faults count too: a module is as deep whether it has rows or not.
fn greatest_distance(conducting: &[Conducting]) -> usize {
    let mut greatest = 0;
    for Conducting { graph, .. } in conducting {
        for rail in [GROUND, SUPPLY] {
            let joined = graph.distances(rail).into_iter().flatten();
            greatest = joined.fold(greatest, usize::max);
        }
    }
    greatest
}

/// Rows are one class when they join the same two nets.
fn number_classes(circuit: &Circuit, rows: &mut [Row]) -> u16 {
    let nets = Nets::of(circuit);
    let mut classes = 0;
    let mut earlier: Vec<([Point; 2], u16)> = Vec::new();
    for row in rows {
        let joined = nets.joined_by(row.instance, &row.bridge);
        let same = earlier.iter().find(|(other, _)| *other == joined);
        row.class = match same {
            Some(&(_, class)) => class,
            None => {
                classes += 1;
                classes
            }
        };
        earlier.push((joined, row.class));
    }
    classes
}

fn count_found(rows: &[Row], classes: u16) -> usize {
    (1..=classes)
        .filter(|&class| {
            rows.iter()
                .any(|row| row.class == class && row.marks.contains(&true))
        })
        .count()
}
