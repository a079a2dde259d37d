//! Refusals that hang on the frame of a file and not on what a field says: its
//! length, cut fields, tags, their order, lengths of fields, counts, and the end.

use second::format::{
    Tag, HEAD, LONGEST_FILE, MOST_BRIDGES, MOST_EDGES, MOST_GROUPED, MOST_INSTANCES, MOST_LABELS,
    MOST_TYPES, MOST_VECTORS,
};

use super::before::Before;
use super::{count, listed, span, Scene, Told};

/// A number of bytes with its verb.
fn left_over(bytes: usize) -> String {
    match bytes {
        1 => "1 byte is".to_string(),
        _ => format!("{bytes} bytes are"),
    }
}

/// What a field of this tag says.
fn meaning(tag: Tag) -> &'static str {
    match tag {
        Tag::Inputs => "the number of inputs",
        Tag::Type => "a type",
        Tag::Edge => "an edge",
        Tag::Bridge => "a bridge",
        Tag::Instance => "an instance",
        Tag::Vector => "a vector",
        Tag::Pass => "a pass transistor",
    }
}

/// A tag byte, with what it means if it is one.
fn tag_meaning(byte: u8) -> String {
    match Tag::of(byte) {
        Some(tag) => format!("{byte} ({})", meaning(tag)),
        None => byte.to_string(),
    }
}

fn tag_name(tag: Tag) -> String {
    format!("{} (tag {})", meaning(tag), tag.byte())
}

pub fn too_long() -> (String, Told) {
    let rule = format!("a circuit file has at most {LONGEST_FILE} bytes.");
    let told = Told::new(rule, "it has more than that.");
    ("the whole file".to_string(), told)
}

pub fn cut_short(before: &Before, left: &[u8], place: usize) -> (String, Told) {
    let span = span(place, place + left.len());
    let field = format!("{}, {span}", before.next_field());
    let rule = "a field is a tag byte, two length bytes and then as many bytes as the length \
                says, all inside the file.";
    let here = match left {
        [tag, high, low, body @ ..] => format!(
            "the tag is {}, the length says {}, but {} left in the file.",
            tag_meaning(*tag),
            count(usize::from(u16::from_be_bytes([*high, *low])), "byte"),
            left_over(body.len()),
        ),
        _ => format!(
            "{} left in the file, but a tag with its length takes {HEAD}.",
            left_over(left.len())
        ),
    };
    (field, Told::new(rule, here))
}

pub fn unknown_tag(scene: &Scene) -> Told {
    let tags = Tag::ALL.map(|tag| format!("{} {}", tag.byte(), meaning(tag)));
    let rule = format!("a field begins with its tag: {}.", tags.join(", "));
    Told::new(rule, format!("the tag is {}.", scene.field.tag))
}

pub fn out_of_order(scene: &Scene) -> Told {
    let this = tag_name(scene.tag());
    let Some(latest) = scene.before.latest_tag else {
        let rule = "a file begins with the number of inputs (tag 1).";
        return Told::new(rule, format!("it begins with {this}."));
    };
    let rule = match scene.tag() {
        Tag::Inputs => "the number of inputs (tag 1) stands once, at the start of the file.",
        Tag::Edge => "an edge stands right after its type or after another edge of that type.",
        Tag::Pass => {
            "a pass transistor stands right after its type or after another edge of that type."
        }
        Tag::Type | Tag::Bridge | Tag::Instance | Tag::Vector => {
            "after the number of inputs come the types with their edges, then the bridges, \
              then the instances, then the vectors."
        }
    };
    let here = format!("{this} comes after {}.", tag_name(latest));
    Told::new(rule, here)
}

pub fn wrong_length(scene: &Scene) -> Told {
    let inputs = scene.before.circuit.inputs;
    let rule = match scene.tag() {
        Tag::Inputs => "the number of inputs takes 2 bytes.".to_string(),
        Tag::Type => {
            "a type takes 3 bytes: highest node, output node, number of labels.".to_string()
        }
        Tag::Edge => format!(
            "an edge field takes 3 to {} bytes: two nodes and 1 to {MOST_GROUPED} labels, each \
             label an edge.",
            2 + MOST_GROUPED
        ),
        Tag::Bridge => "a bridge takes 4 bytes: list, kind, first and second end.".to_string(),
        Tag::Instance => format!(
            "an instance takes an even number of bytes from 4 to {}: a type, a list choice, and \
             2 bytes for each reference.",
            2 + 2 * MOST_LABELS
        ),
        Tag::Vector => format!("a vector takes 1 byte for each primary input, here {inputs}."),
        Tag::Pass => {
            "a pass transistor takes 4 bytes: two nodes, its channel, its label.".to_string()
        }
    };
    let length = count(scene.field.body.len(), "byte");
    Told::new(rule, format!("its length says {length}."))
}

pub fn one_too_many(scene: &Scene) -> Told {
    let (owner, most, things) = match scene.tag() {
        Tag::Type => ("a file", MOST_TYPES, "types"),
        Tag::Edge | Tag::Pass => (
            "a type",
            MOST_EDGES,
            "edges, counted by label, pass transistors among them",
        ),
        Tag::Bridge => ("a file", MOST_BRIDGES, "bridges"),
        Tag::Instance => ("a file", MOST_INSTANCES, "instances"),
        Tag::Vector => ("a file", MOST_VECTORS, "vectors"),
        Tag::Inputs => unreachable!("a second number of inputs is out of order"),
    };
    let rule = format!("{owner} has at most {most} {things}.");
    let is_several = scene.tag() == Tag::Edge && scene.field.body.len() > 3;
    let these = if is_several { "these are" } else { "this is" };
    Told::new(rule, format!("{these} {}.", scene.name()))
}

pub fn ended(before: &Before) -> (String, Told) {
    let rule = "a file has the number of inputs, at least one instance and at least one vector.";
    let circuit = &before.circuit;
    let missing: Vec<String> = [
        (circuit.instances.is_empty(), "no instance"),
        (before.vectors == 0, "no vector"),
    ]
    .into_iter()
    .filter(|(is_missing, _)| *is_missing)
    .map(|(_, name)| name.to_string())
    .collect();
    let here = match before.fields {
        0 => "the file is empty.".to_string(),
        _ => format!("the file ends with {}.", listed(&missing)),
    };
    ("the end of the file".to_string(), Told::new(rule, here))
}
