//! A circuit written as loose fields and then as bytes. Loose fields may be
//! changed in between, may be grouped as in old files, and may state a length that is
//! not their body's.

use crate::circuit::{Circuit, Edge, Instance, ListedBridge, ModuleType, Value};
use crate::format::Tag;

#[derive(Clone, Debug, PartialEq, Eq)]
pub struct LooseField {
    pub tag: u8,
    pub body: Vec<u8>,
    pub stated_length: Option<u16>,
}

impl LooseField {
    pub fn new(tag: Tag, body: Vec<u8>) -> LooseField {
        LooseField {
            tag: tag.byte(),
            body,
            stated_length: None,
        }
    }

    pub fn is(&self, tag: Tag) -> bool {
        self.tag == tag.byte()
    }
}

pub fn bytes_of(fields: &[LooseField]) -> Vec<u8> {
    let mut bytes = Vec::new();
    for field in fields {
        let length = field.stated_length.unwrap_or(field.body.len() as u16);
        bytes.push(field.tag);
        bytes.extend_from_slice(&length.to_be_bytes());
        bytes.extend_from_slice(&field.body);
    }
    bytes
}

pub fn fields_of(circuit: &Circuit) -> Vec<LooseField> {
    let inputs = (circuit.inputs as u16).to_be_bytes();
    let mut fields = vec![LooseField::new(Tag::Inputs, inputs.to_vec())];
    for module in &circuit.types {
        fields.extend(type_fields(module));
    }
    fields.extend(circuit.bridges.iter().map(bridge_field));
    fields.extend(circuit.instances.iter().map(instance_field));
    fields.extend(circuit.vectors.iter().map(|vector| vector_field(vector)));
    fields
}

pub fn type_fields(module: &ModuleType) -> Vec<LooseField> {
    let numbers = vec![module.highest, module.output, module.labels];
    let mut fields = vec![LooseField::new(Tag::Type, numbers)];
    fields.extend(module.edges.iter().map(edge_field));
    fields
}

fn edge_field(edge: &Edge) -> LooseField {
    let [a, b] = edge.ends;
    if edge.is_pass {
        LooseField::new(Tag::Pass, vec![a, b, edge.channel.byte(), edge.label])
    } else {
        LooseField::new(Tag::Edge, vec![a, b, edge.label])
    }
}

/// The same fields, but with the edges of tag 3 in groups of these sizes, as old files
/// may have them. The edges of a group stand one after another and have the same ends.
pub fn grouped(fields: Vec<LooseField>, sizes: &[usize]) -> Vec<LooseField> {
    let mut fields = fields.into_iter();
    let mut sizes = sizes.iter();
    let mut grouped = Vec::new();
    while let Some(mut field) = fields.next() {
        if field.is(Tag::Edge) {
            let size = sizes.next().copied().unwrap_or(1);
            for other in fields.by_ref().take(size - 1) {
                field.body.extend_from_slice(&other.body[2..]);
            }
        }
        grouped.push(field);
    }
    grouped
}

pub fn bridge_field(listed: &ListedBridge) -> LooseField {
    let bridge = &listed.bridge;
    let body = vec![listed.list, bridge.kind.byte(), bridge.first, bridge.second];
    LooseField::new(Tag::Bridge, body)
}

pub fn instance_field(instance: &Instance) -> LooseField {
    let mut body = vec![instance.type_number];
    body.extend_from_slice(&instance.choice.to_be_bytes());
    for reference in &instance.references {
        body.extend_from_slice(&reference.to_be_bytes());
    }
    LooseField::new(Tag::Instance, body)
}

pub fn vector_field(vector: &[Value]) -> LooseField {
    let letters: String = vector.iter().map(|value| value.letter()).collect();
    LooseField::new(Tag::Vector, letters.into_bytes())
}
