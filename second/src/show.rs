//! Showing a circuit: a line for each record that was read, in file order, and last
//! the line of a refusal. An edge is one transistor, so an old file's grouped field
//! has a line for each of its labels.

use std::fmt::Display;

use crate::circuit::{Circuit, Edge, Instance, ListedBridge, ModuleType, Value};
use crate::format::Tag;
use crate::read::read_to_refusal;

pub fn show_of(bytes: &[u8]) -> String {
    let (circuit, refusal) = read_to_refusal(bytes);
    let last = refusal.map_or_else(String::new, |refusal| refusal.line());
    show(&circuit) + &last
}

fn show(circuit: &Circuit) -> String {
    let mut lines = String::new();
    if circuit.inputs > 0 {
        lines += &line(Tag::Inputs, &circuit.inputs.to_string());
    }
    for (index, module) in circuit.types.iter().enumerate() {
        lines += &type_line(index + 1, module);
        lines.extend(module.edges.iter().map(edge_line));
    }
    lines.extend(circuit.bridges.iter().map(bridge_line));
    for (index, instance) in circuit.instances.iter().enumerate() {
        lines += &instance_line(index + 1, instance);
    }
    for (index, vector) in circuit.vectors.iter().enumerate() {
        lines += &vector_line(index + 1, vector);
    }
    lines
}

fn line(tag: Tag, rest: &str) -> String {
    format!("{} {rest}\n", tag.word())
}

fn spaced(numbers: impl IntoIterator<Item = impl Display>) -> String {
    let words: Vec<String> = numbers.into_iter().map(|n| n.to_string()).collect();
    words.join(" ")
}

fn type_line(number: usize, module: &ModuleType) -> String {
    let numbers = [module.highest, module.output, module.labels];
    line(Tag::Type, &format!("{number} {}", spaced(numbers)))
}

fn edge_line(edge: &Edge) -> String {
    let (ends, label) = (spaced(edge.ends), edge.label);
    if edge.is_pass {
        let channel = edge.channel.letter();
        line(Tag::Pass, &format!("{ends} {channel} {label}"))
    } else {
        line(Tag::Edge, &format!("{ends} {label}"))
    }
}

fn bridge_line(listed: &ListedBridge) -> String {
    let (list, bridge) = (listed.list, &listed.bridge);
    let (kind, ends) = (bridge.kind.letter(), [bridge.first, bridge.second]);
    line(Tag::Bridge, &format!("{list} {kind} {}", spaced(ends)))
}

fn instance_line(number: usize, instance: &Instance) -> String {
    let (module, choice) = (instance.type_number, instance.choice);
    let references = spaced(&instance.references);
    let rest = format!("{number} {module} {choice} {references}");
    line(Tag::Instance, &rest)
}

fn vector_line(number: usize, vector: &[Value]) -> String {
    let letters: String = vector.iter().map(|value| value.letter()).collect();
    line(Tag::Vector, &format!("{number} {letters}"))
}
