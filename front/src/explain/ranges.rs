//! Refusal 7: numbers and letters outside their ranges. Every one that is outside
//! is told.

use second::bodies::{inputs_of, instance_of, value_of};
use second::circuit::{Channel, Kind};
use second::faults::EXHAUSTIVE;
use second::format::{Tag, HIGHEST_LIST, HIGHEST_NODE, MOST_INPUTS, MOST_LABELS};

use super::{has, range, sentence, Scene, Told};

pub fn out_of_range(scene: &Scene) -> Told {
    let body = scene.field.body;
    let (rule, slips) = match scene.tag() {
        Tag::Inputs => inputs(body),
        Tag::Type => module(body),
        Tag::Edge => edge(scene, body),
        Tag::Bridge => bridge(body),
        Tag::Instance => instance(scene, body),
        Tag::Vector => vector(body),
        Tag::Pass => pass(scene, body),
    };
    Told::new(rule, sentence(slips))
}

/// Names and values, of which those stay that are not allowed.
fn slips<const N: usize>(values: [(&str, u8, bool); N]) -> Vec<String> {
    let wrong = values.into_iter().filter(|(_, _, allowed)| !allowed);
    wrong
        .map(|(name, value, _)| format!("{name} is {value}"))
        .collect()
}

fn inputs(body: &[u8]) -> (String, Vec<String>) {
    let inputs = inputs_of(body);
    let rule = format!("the number of primary inputs is 1 to {MOST_INPUTS}.");
    (rule, vec![format!("it is {inputs}")])
}

fn module(body: &[u8]) -> (String, Vec<String>) {
    let (highest, output, labels) = (body[0], body[1], body[2]);
    let rule = format!(
        "the highest node is 2 to {HIGHEST_NODE}, the output node 2 to the highest node, and \
         the number of labels 1 to {MOST_LABELS}."
    );
    let mut slips = slips([
        (
            "the highest node",
            highest,
            (2..=HIGHEST_NODE).contains(&highest),
        ),
        (
            "the number of labels",
            labels,
            (1..=MOST_LABELS).contains(&labels),
        ),
    ]);
    if !(2..=highest).contains(&output) {
        let slip = format!("the output node is {output} where the highest node is {highest}");
        slips.push(slip);
    }
    (rule, slips)
}

fn edge(scene: &Scene, body: &[u8]) -> (String, Vec<String>) {
    let (number, module) = scene.latest_type();
    let (highest, labels) = (module.highest, module.labels);
    let rule = format!(
        "an edge has two nodes and a label of its type; {}.",
        has(number, module)
    );
    let (nodes, own_labels) = body.split_at(2);
    let mut slips = slips([
        ("the first node", nodes[0], nodes[0] <= highest),
        ("the second node", nodes[1], nodes[1] <= highest),
    ]);
    for (edge, label) in (scene.before.next_edge()..).zip(own_labels) {
        if *label >= labels {
            slips.push(format!("edge {edge} has label {label}"));
        }
    }
    (rule, slips)
}

fn pass(scene: &Scene, body: &[u8]) -> (String, Vec<String>) {
    let (number, module) = scene.latest_type();
    let (first, second, channel, label) = (body[0], body[1], body[2], body[3]);
    let rule = format!(
        "a pass transistor has two different nodes and a label of its type, and a channel of 0 \
         (n) or 1 (p); {}.",
        has(number, module)
    );
    let mut slips = slips([
        ("the first node", first, first <= module.highest),
        ("the second node", second, second <= module.highest),
        ("the channel", channel, Channel::of(channel).is_some()),
        ("the label", label, label < module.labels),
    ]);
    if first == second {
        slips.push(format!("both ends are node {first}"));
    }
    (rule, slips)
}

fn bridge(body: &[u8]) -> (String, Vec<String>) {
    let (list, kind, first, second) = (body[0], body[1], body[2], body[3]);
    let rule = format!(
        "a bridge has a list of 1 to {HIGHEST_LIST} and either kind 0 and two different nodes of \
         0 to {HIGHEST_NODE}, or kind 1, a node of 0 to {HIGHEST_NODE} and a label of 0 to {}.",
        MOST_LABELS - 1
    );
    let known_kind = Kind::of(kind);
    let (second_name, second_fits) = match known_kind {
        Some(Kind::Nodes) => ("the second node", second <= HIGHEST_NODE),
        Some(Kind::Label) => ("the label", second < MOST_LABELS),
        None => ("the second end", true),
    };
    let mut slips = slips([
        ("the list", list, (1..=HIGHEST_LIST).contains(&list)),
        ("the kind", kind, known_kind.is_some()),
        ("the first node", first, first <= HIGHEST_NODE),
        (second_name, second, second_fits),
    ]);
    if known_kind == Some(Kind::Nodes) && first == second {
        slips.push(format!("both ends are node {first}"));
    }
    (rule, slips)
}

fn instance(scene: &Scene, body: &[u8]) -> (String, Vec<String>) {
    let types = scene.before.circuit.types.len();
    let instance = instance_of(body);
    let choice = format!(
        "a list choice: {EXHAUSTIVE} (all bridges), 0 (none) or a list, 1 to {HIGHEST_LIST}"
    );
    let rule = match types {
        0 => format!("an instance has the number of a type, and {choice}."),
        _ => format!(
            "an instance has the number of a type (here {}), and {choice}.",
            range(1, types)
        ),
    };
    let mut slips = Vec::new();
    if types == 0 {
        slips.push("the file has no type".to_string());
    } else if !(1..=types).contains(&usize::from(instance.type_number)) {
        slips.push(format!("the type is {}", instance.type_number));
    }
    if instance.choice < EXHAUSTIVE {
        slips.push(format!("the list choice is {}", instance.choice));
    }
    (rule, slips)
}

fn vector(body: &[u8]) -> (String, Vec<String>) {
    let rule = "each byte of a vector is one of the letters `0` (byte 48), `1` (49) and `X` (88).";
    let wrong = body.iter().enumerate();
    let slips = wrong
        .filter(|(_, byte)| value_of(**byte).is_none())
        .map(|(index, byte)| format!("primary input {} has {}", index + 1, letter(*byte)))
        .collect();
    (rule.to_string(), slips)
}

fn letter(byte: u8) -> String {
    if byte.is_ascii_graphic() {
        format!("`{}` (byte {byte})", char::from(byte))
    } else {
        format!("byte {byte}")
    }
}
