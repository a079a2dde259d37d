//! Refusals 10 to 13: references that lead nowhere, and lists that do not fit the
//! type, are empty or bring too many faults.

use second::bodies::instance_of;
use second::circuit::{Bridge, Instance, Kind, ModuleType};
use second::faults::{faults_of, fits};
use second::format::{HEAD, MOST_FAULTS};

use super::{count, has, listed, range, sentence, span, Scene, Told};

const BRIDGE_FIELD: usize = HEAD + 4;

impl Scene<'_> {
    fn instance(&self) -> (Instance, &ModuleType) {
        let instance = instance_of(self.field.body);
        let module = &self.before.circuit.types[usize::from(instance.type_number) - 1];
        (instance, module)
    }
}

pub fn wrong_references(scene: &Scene) -> Told {
    let (instance, module) = scene.instance();
    let (labels, given) = (usize::from(module.labels), instance.references.len());
    if labels != given {
        return Told::new(
            "an instance has one reference for each label of its type.",
            format!(
                "type {} has {}, but {} given.",
                instance.type_number,
                count(labels, "label"),
                match given {
                    1 => "1 reference is".to_string(),
                    _ => format!("{given} references are"),
                }
            ),
        );
    }
    let inputs = scene.before.circuit.inputs;
    let earlier = scene.before.circuit.instances.len();
    let rule = format!(
        "a reference is the number of a primary input (here {}), or -i for the output of \
         instance i, which must be an earlier one.",
        range(1, inputs)
    );
    let slips: Vec<String> = (instance.references.iter().enumerate())
        .filter_map(|(label, &reference)| {
            let slip = reference_slip(reference, inputs, earlier)?;
            Some(format!("label {label} is tied to {slip}"))
        })
        .collect();
    Told::new(rule, sentence(slips))
}

fn reference_slip(reference: i16, inputs: usize, earlier: usize) -> Option<String> {
    let number = usize::from(reference.unsigned_abs());
    match reference {
        0 => Some("0, which means nothing".to_string()),
        1.. if number > inputs => Some(format!("{reference}, but there is no such input")),
        ..=-1 if number == earlier + 1 => Some(format!("{reference}, its own instance")),
        ..=-1 if number > earlier => Some(format!("{reference}, which is not earlier")),
        _ => None,
    }
}

pub fn misfit(scene: &Scene) -> Told {
    let (instance, module) = scene.instance();
    let rule = format!(
        "each bridge of the list that an instance chooses fits its type; {}.",
        has(usize::from(instance.type_number), module)
    );
    let bridges = scene.before.circuit.bridges.iter();
    let mut chosen = bridges
        .zip(&scene.before.bridge_places)
        .enumerate()
        .filter(|(_, (listed, _))| i16::from(listed.list) == i16::from(instance.choice));
    let wrong = chosen.find(|(_, (listed, _))| !fits(&listed.bridge, module));
    let (index, (listed, place)) = wrong.expect("a list that is refused has such a bridge");
    let here = format!(
        "list {} has bridge {} ({}), {}.",
        instance.choice,
        index + 1,
        span(*place, place + BRIDGE_FIELD),
        ends(&listed.bridge)
    );
    Told::new(rule, here)
}

fn ends(bridge: &Bridge) -> String {
    let Bridge { first, second, .. } = bridge;
    match bridge.kind {
        Kind::Nodes => format!("between node {first} and node {second}"),
        Kind::Label => format!("between node {first} and label {second}"),
    }
}

pub fn no_bridge(scene: &Scene) -> Told {
    let (instance, _) = scene.instance();
    let rule = "the list that an instance chooses has at least one bridge (choice 0 takes no \
                faults, -1 all of them).";
    let mut lists: Vec<u8> = (scene.before.circuit.bridges.iter())
        .map(|bridge| bridge.list)
        .collect();
    lists.sort_unstable();
    lists.dedup();
    let names: Vec<String> = lists.iter().map(u8::to_string).collect();
    let present = match names.len() {
        0 => "the file has no bridges".to_string(),
        1 => format!("the file has bridges of list {} only", names[0]),
        _ => format!("the file has bridges of lists {} only", listed(&names)),
    };
    Told::new(
        rule,
        format!("it chooses list {}, and {present}.", instance.choice),
    )
}

pub fn too_many_faults(scene: &Scene) -> Told {
    let (instance, _) = scene.instance();
    let own = faults_of(&scene.before.circuit, &instance).len();
    let earlier = scene.before.faults;
    let rule = format!("all instances together have at most {MOST_FAULTS} faults.");
    let here = format!(
        "this instance has {own}, those before it {earlier}, together {}.",
        own + earlier
    );
    Told::new(rule, here)
}
