//! Bodies of an allowed length taken for what they say, whatever their numbers.

use crate::circuit::{Bridge, Channel, Edge, Instance, Kind, ListedBridge, ModuleType, Value};
use crate::conduction::channel;

pub fn inputs_of(body: &[u8]) -> usize {
    usize::from(u16::from_be_bytes([body[0], body[1]]))
}

/// A type without its edges.
pub fn module_of(body: &[u8]) -> ModuleType {
    ModuleType {
        highest: body[0],
        output: body[1],
        labels: body[2],
        edges: Vec::new(),
    }
}

/// The edges of a field of tag 3, one for each label, in a type with this output; none
/// if its ends have no channel.
pub fn edges_of(body: &[u8], output: u8) -> Option<Vec<Edge>> {
    let ends = [body[0], body[1]];
    let channel = channel(output, ends)?;
    let edge = |&label: &u8| Edge {
        ends,
        channel,
        label,
        is_pass: false,
    };
    Some(body[2..].iter().map(edge).collect())
}

/// None if there is no such channel.
pub fn pass_of(body: &[u8]) -> Option<Edge> {
    Some(Edge {
        ends: [body[0], body[1]],
        channel: Channel::of(body[2])?,
        label: body[3],
        is_pass: true,
    })
}

/// None if there is no such kind.
pub fn bridge_of(body: &[u8]) -> Option<ListedBridge> {
    Some(ListedBridge {
        list: body[0],
        bridge: Bridge {
            kind: Kind::of(body[1])?,
            first: body[2],
            second: body[3],
        },
    })
}

pub fn instance_of(body: &[u8]) -> Instance {
    let references = body[2..].chunks_exact(2);
    Instance {
        type_number: body[0],
        choice: i8::from_be_bytes([body[1]]),
        references: references
            .map(|pair| i16::from_be_bytes([pair[0], pair[1]]))
            .collect(),
    }
}

/// None if one of its bytes is no letter.
pub fn vector_of(body: &[u8]) -> Option<Vec<Value>> {
    body.iter().map(|&byte| value_of(byte)).collect()
}

pub fn value_of(byte: u8) -> Option<Value> {
    let mut values = Value::ALL.into_iter();
    values.find(|value| value.letter() == char::from(byte))
}
