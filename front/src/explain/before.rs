//! What the fields before a place say. They are good ones: the refusal is the first.

use second::bodies::{bridge_of, edges_of, inputs_of, instance_of, module_of, pass_of};
use second::circuit::{Circuit, Edge, ModuleType};
use second::faults::faults_of;
use second::fields::{cut, Field};
use second::format::{Tag, MOST_GROUPED};

#[derive(Default)]
pub struct Before {
    /// Without its vectors, of which no rule needs more than their number.
    pub circuit: Circuit,
    pub vectors: usize,
    pub fields: usize,
    pub latest_tag: Option<Tag>,
    pub bridge_places: Vec<usize>,
    pub faults: usize,
}

impl Before {
    pub fn read(bytes: &[u8], end: usize) -> Before {
        let mut before = Before::default();
        let mut place = 0;
        while place < end {
            let Ok(field) = cut(bytes, place) else {
                break;
            };
            before.take(&field);
            place = field.end();
        }
        before
    }

    fn take(&mut self, field: &Field) {
        let body = field.body;
        let tag = Tag::of(field.tag).expect("a field that is not refused has a tag");
        match tag {
            Tag::Inputs => self.circuit.inputs = inputs_of(body),
            Tag::Type => self.circuit.types.push(module_of(body)),
            Tag::Edge | Tag::Pass => self.take_edge(tag, body),
            Tag::Bridge => self.take_bridge(field),
            Tag::Instance => self.take_instance(body),
            Tag::Vector => self.vectors += 1,
        }
        self.fields += 1;
        self.latest_tag = Some(tag);
    }

    fn take_edge(&mut self, tag: Tag, body: &[u8]) {
        let latest = self.circuit.types.last_mut();
        let module = latest.expect("an edge that is not refused stands after its type");
        module.edges.extend(edges_in(module, tag, body));
    }

    fn take_bridge(&mut self, field: &Field) {
        self.bridge_places.push(field.place);
        let bridge = bridge_of(field.body);
        let bridge = bridge.expect("a bridge that is not refused has a kind");
        self.circuit.bridges.push(bridge);
    }

    fn take_instance(&mut self, body: &[u8]) {
        let instance = instance_of(body);
        self.faults += faults_of(&self.circuit, &instance).len();
        self.circuit.instances.push(instance);
    }

    /// The name of the next field by its place in the file.
    pub fn next_field(&self) -> String {
        format!("field {}", self.fields + 1)
    }

    /// The number of the first edge that the next field has, if it is one of edges.
    pub fn next_edge(&self) -> usize {
        let latest = self.circuit.types.last();
        1 + latest.map_or(0, |module| module.edges.len())
    }

    /// The name of the next field if it has this tag and this body.
    pub fn next_of(&self, tag: Tag, body: &[u8]) -> String {
        let circuit = &self.circuit;
        let types = circuit.types.len();
        match tag {
            Tag::Inputs => "the number of inputs".to_string(),
            Tag::Type => format!("type {}", types + 1),
            Tag::Edge => format!("{} of type {types}", self.next_edges(body)),
            Tag::Bridge => format!("bridge {}", circuit.bridges.len() + 1),
            Tag::Instance => format!("instance {}", circuit.instances.len() + 1),
            Tag::Vector => format!("vector {}", self.vectors + 1),
            Tag::Pass => {
                let number = self.next_edge();
                format!("edge {number} of type {types} (a pass transistor)")
            }
        }
    }

    /// An old file's field may hold several; one of a wrong length counts as one edge.
    fn next_edges(&self, body: &[u8]) -> String {
        let first = self.next_edge();
        match body.len().saturating_sub(2) {
            2 => format!("edges {first} and {}", first + 1),
            labels @ 3..=MOST_GROUPED => format!("edges {first} to {}", first + labels - 1),
            _ => format!("edge {first}"),
        }
    }
}

/// The edges of a field that is not refused.
pub fn edges_in(module: &ModuleType, tag: Tag, body: &[u8]) -> Vec<Edge> {
    let edges = match tag {
        Tag::Pass => pass_of(body).map(|pass| vec![pass]),
        _ => edges_of(body, module.output),
    };
    edges.expect("an edge that is not refused has a channel")
}
