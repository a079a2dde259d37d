//! A refusal in words: which field, which rule, and what was read there. The number
//! and the place are the second program's; this finds the words for them.

use second::circuit::ModuleType;
use second::fields::{cut, Field};
use second::format::Tag;
use second::read::read;
use second::refusal::Refusal;

use before::Before;

mod before;
mod frame;
mod instances;
mod ranges;
mod types;

#[derive(Clone, Debug, PartialEq, Eq)]
pub struct Explanation {
    pub refusal: Refusal,
    pub field: String,
    pub told: Told,
}

/// The rule that is broken, and how the file breaks it.
#[derive(Clone, Debug, PartialEq, Eq)]
pub struct Told {
    pub rule: String,
    pub here: String,
}

impl Told {
    fn new(rule: impl Into<String>, here: impl Into<String>) -> Told {
        Told {
            rule: rule.into(),
            here: here.into(),
        }
    }
}

impl Explanation {
    pub fn lines(&self) -> [String; 3] {
        let Refusal { number, place } = self.refusal;
        [
            format!("refused {number} at {place}: {}", self.field),
            format!("rule: {}", self.told.rule),
            format!("here: {}", self.told.here),
        ]
    }
}

/// The field that is refused, and what stands before it.
struct Scene<'a> {
    before: Before,
    field: Field<'a>,
}

impl Scene<'_> {
    /// The tag of a field that has passed 3.
    fn tag(&self) -> Tag {
        Tag::of(self.field.tag).expect("a field that has passed 3 has a tag")
    }

    /// The name of a field that has passed 4.
    fn name(&self) -> String {
        self.before.next_of(self.tag(), self.field.body)
    }

    /// The type that refused edges would belong to, and its number.
    fn latest_type(&self) -> (usize, &ModuleType) {
        let types = &self.before.circuit.types;
        let module = types.last();
        (types.len(), module.expect("an edge in order has a type"))
    }
}

const MOST_TOLD: usize = 4;

/// None where the file is accepted.
pub fn explain(bytes: &[u8]) -> Option<Explanation> {
    let refusal = read(bytes).err()?;
    let (field, told) = match refusal.number {
        1 => frame::too_long(),
        14 => frame::ended(&Before::read(bytes, refusal.place)),
        _ => at_field(bytes, refusal),
    };
    Some(Explanation {
        refusal,
        field,
        told,
    })
}

fn at_field(bytes: &[u8], refusal: Refusal) -> (String, Told) {
    let before = Before::read(bytes, refusal.place);
    let Ok(field) = cut(bytes, refusal.place) else {
        return frame::cut_short(&before, &bytes[refusal.place..], refusal.place);
    };
    let scene = Scene { before, field };
    let told = match refusal.number {
        3 => frame::unknown_tag(&scene),
        4 => frame::out_of_order(&scene),
        5 => frame::wrong_length(&scene),
        6 => frame::one_too_many(&scene),
        7 => ranges::out_of_range(&scene),
        8 => types::no_channel(&scene),
        9 => return types::not_complementary(&scene, bytes),
        10 => instances::wrong_references(&scene),
        11 => instances::misfit(&scene),
        12 => instances::no_bridge(&scene),
        _ => instances::too_many_faults(&scene),
    };
    let name = match refusal.number {
        3 | 4 => scene.before.next_field(),
        _ => scene.name(),
    };
    let span = span(refusal.place, scene.field.end());
    (format!("{name}, {span}"), told)
}

/// The bytes from one place to before another, as people count them.
fn span(place: usize, end: usize) -> String {
    match end - place {
        1 => format!("byte {place}"),
        _ => format!("bytes {place} to {}", end - 1),
    }
}

/// A number of things, with the thing's word in its right form.
fn count(number: usize, thing: &str) -> String {
    match number {
        1 => format!("1 {thing}"),
        _ => format!("{number} {thing}s"),
    }
}

/// Several things in a row, as a sentence lists them.
fn listed(things: &[String]) -> String {
    match things {
        [] => String::new(),
        [one] => one.clone(),
        [most @ .., end] => format!("{} and {end}", most.join(", ")),
    }
}

/// What is wrong in a field, as a sentence; of many things the first ones.
fn sentence(slips: Vec<String>) -> String {
    let mut told = slips;
    if told.len() > MOST_TOLD {
        let more = told.len() - MOST_TOLD;
        told.truncate(MOST_TOLD);
        told.push(format!("{more} more like that"));
    }
    format!("{}.", told.join("; "))
}

/// The nodes and labels that a type has.
fn has(type_number: usize, module: &ModuleType) -> String {
    let labels = match module.labels {
        1 => "label 0".to_string(),
        labels => format!("labels 0 to {}", labels - 1),
    };
    let highest = module.highest;
    format!("type {type_number} has nodes 0 to {highest} and {labels}")
}

/// A range, which may be one number.
fn range(least: usize, most: usize) -> String {
    match least == most {
        true => least.to_string(),
        false => format!("{least} to {most}"),
    }
}
