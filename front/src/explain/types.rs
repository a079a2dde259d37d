//! Refusals 8 and 9: an edge that has no channel, and a type whose output is joined
//! to both rails or to neither under some setting of its labels.

use second::bodies::module_of;
use second::circuit::ModuleType;
use second::conduction::{is_on, values_in, GROUND, SUPPLY};
use second::fields::{cut, Field};
use second::format::Tag;

use super::before::edges_in;
use super::{count, listed, span, Scene, Told};

pub fn no_channel(scene: &Scene) -> Told {
    let (number, module) = scene.latest_type();
    let (highest, output) = (module.highest, module.output);
    let n_nodes = match highest - output {
        0 => format!("0 and {output}"),
        _ => format!("0 and {output} to {highest}"),
    };
    let rule = format!(
        "an edge of tag 3 joins two different nodes, both p nodes or both n nodes (in type {number} \
         the p nodes are 1 to {output} and the n nodes {n_nodes}); one that states its channel \
         (tag 7) may join any two."
    );
    let (first, second) = (scene.field.body[0], scene.field.body[1]);
    let side = |node: u8| match (1..output).contains(&node) {
        true => "a p node",
        false => "an n node",
    };
    let here = match first == second {
        true => format!("both ends are node {first}."),
        false => format!(
            "it joins node {first}, {} only, and node {second}, {} only.",
            side(first),
            side(second)
        ),
    };
    Told::new(rule, here)
}

/// The type stands at the refusal's place, its edges after it.
pub fn not_complementary(scene: &Scene, bytes: &[u8]) -> (String, Told) {
    let mut module = module_of(scene.field.body);
    let mut end = scene.field.end();
    while let Some((tag, next)) = next_edge(bytes, end) {
        let edges = edges_in(&module, tag, next.body);
        module.edges.extend(edges);
        end = next.end();
    }
    let name = scene.name();
    let place = span(scene.field.place, scene.field.end());
    let field = match module.edges.len() {
        0 => format!("{name}, {place}, without edges"),
        edges => format!(
            "{name}, {place}, with {} up to byte {}",
            count(edges, "edge"),
            end - 1
        ),
    };
    let rule = "a type is complementary: under each setting of its labels to 0 and 1 its output \
                is joined to exactly one of supply (node 1) and ground (node 0).";
    (field, Told::new(rule, bad_setting(&module)))
}

/// The field at this place with its tag, if it is one of edges.
fn next_edge(bytes: &[u8], place: usize) -> Option<(Tag, Field<'_>)> {
    let field = cut(bytes, place).ok()?;
    let tag = Tag::of(field.tag).filter(|tag| tag.is_edge())?;
    Some((tag, field))
}

/// The first setting, in counting order with label 0 as the lowest digit, under
/// which the output is joined to both rails or to neither.
fn bad_setting(module: &ModuleType) -> String {
    let found = (0..1u32 << module.labels).find_map(|setting| {
        let paths = [SUPPLY, GROUND].map(|rail| path(module, setting, rail));
        match paths {
            [Some(supply), Some(ground)] => Some((setting, both_rails(&supply, &ground))),
            [None, None] => Some((setting, "neither supply nor ground".to_string())),
            _ => None,
        }
    });
    let (setting, rails) = found.expect("a type that is refused has such a setting");
    let labels: Vec<String> = (0..module.labels)
        .map(|label| format!("label {label} at {}", setting >> label & 1))
        .collect();
    format!(
        "with {} the output, node {}, is joined to {rails}.",
        listed(&labels),
        module.output
    )
}

fn both_rails(supply: &[u8], ground: &[u8]) -> String {
    let walk = |path: &[u8]| path.iter().map(u8::to_string).collect::<Vec<_>>().join("-");
    format!(
        "both supply (by {}) and ground (by {})",
        walk(supply),
        walk(ground)
    )
}

/// A shortest path of on edges from a rail to the output.
fn path(module: &ModuleType, setting: u32, rail: u8) -> Option<Vec<u8>> {
    let on_edges = on_edges(module, setting);
    let mut paths = vec![vec![rail]];
    let mut reached = vec![rail];
    let mut index = 0;
    while let Some(path) = paths.get(index).cloned() {
        let end = path[path.len() - 1];
        if end == module.output {
            return Some(path);
        }
        for &[a, b] in &on_edges {
            for (from, to) in [(a, b), (b, a)] {
                if from == end && !reached.contains(&to) {
                    reached.push(to);
                    paths.push([path.as_slice(), &[to]].concat());
                }
            }
        }
        index += 1;
    }
    None
}

fn on_edges(module: &ModuleType, setting: u32) -> Vec<[u8; 2]> {
    let values = values_in(module, setting);
    let on = module.edges.iter().filter(|edge| is_on(edge, &values));
    on.map(|edge| edge.ends).collect()
}

#[cfg(test)]
mod tests {
    use second::conduction::Graph;
    use second::random::Random;
    use second::types::gate_type;

    use super::*;

    /// Paths are where the second program finds nodes joined, and are of on edges.
    #[test]
    fn paths_are_those_of_conduction() {
        let mut random = Random::for_file(1989, 9);
        for _ in 0..100 {
            let mut module = gate_type(&mut random);
            module.edges.pop();
            for setting in 0..1 << module.labels {
                let graph = Graph::of_on_edges(&module, &values_in(&module, setting));
                let on = on_edges(&module, setting);
                for rail in [SUPPLY, GROUND] {
                    let found = path(&module, setting, rail);
                    assert_eq!(found.is_some(), graph.joined(rail, module.output));
                    let nodes = found.unwrap_or(vec![module.output]);
                    assert_eq!(nodes.last(), Some(&module.output));
                    for step in nodes.windows(2) {
                        let is_step = |ends: &[u8; 2]| step.iter().all(|node| ends.contains(node));
                        assert!(on.iter().any(is_step));
                    }
                }
            }
        }
    }
}
