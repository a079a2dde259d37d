//! Damages to one field that know its tag: numbers one past their range, broken
//! channel rules, other channels, wrong references, lists that are empty or do not fit.

use crate::format::{Tag, HIGHEST_LIST, HIGHEST_NODE, MOST_INPUTS, MOST_LABELS, MOST_TYPES};
use crate::random::Random;
use crate::write::LooseField;

type Fields = Vec<LooseField>;

/// Spoils the field at `index` in a way that suits its tag.
pub fn spoil(random: &mut Random, fields: &mut Fields, index: usize) {
    if fields[index].body.is_empty() || random.one_in(8) {
        return spoil_length(random, &mut fields[index]);
    }
    match Tag::of(fields[index].tag) {
        Some(Tag::Inputs) => spoil_inputs(random, &mut fields[index].body),
        Some(Tag::Type) => spoil_type(random, &mut fields[index].body),
        Some(Tag::Edge) => spoil_edge(random, fields, index),
        Some(Tag::Pass) => spoil_pass(random, fields, index),
        Some(Tag::Bridge) => spoil_bridge(random, &mut fields[index].body),
        Some(Tag::Instance) => spoil_instance(random, fields, index),
        Some(Tag::Vector) | None => spoil_vector(random, &mut fields[index].body),
    }
}

pub fn spoil_length(random: &mut Random, field: &mut LooseField) {
    match random.below(5) {
        0 => {
            field.body.pop();
        }
        1 => {
            field.body.pop();
            field.body.pop();
        }
        2 => field.body.extend([random.byte(), random.byte()]),
        3 => field.body.clear(),
        _ => field.body.push(random.byte()),
    }
}

/// Writes a byte where the body has that place; other damages may have cut it.
fn put(body: &mut [u8], place: usize, byte: u8) {
    if let Some(held) = body.get_mut(place) {
        *held = byte;
    }
}

fn spoil_inputs(random: &mut Random, body: &mut Vec<u8>) {
    let past = MOST_INPUTS as u16 + 1;
    let inputs: u16 = random.pick(&[0, past, past + 1, 256, 320, u16::MAX]);
    *body = inputs.to_be_bytes().to_vec();
}

fn spoil_type(random: &mut Random, body: &mut [u8]) {
    let highest = body[0];
    match random.below(4) {
        0 => put(body, 0, random.pick(&[0, 1, HIGHEST_NODE + 1, 255])),
        1 => put(body, 1, random.pick(&[0, 1, highest.wrapping_add(1), 255])),
        2 => put(body, 2, random.pick(&[0, MOST_LABELS + 1, 255])),
        _ => put(body, 1, 2),
    }
}

/// The highest node, output and labels of the type that an edge belongs to.
fn numbers_before(fields: &Fields, index: usize) -> [u8; 3] {
    let types = fields[..index].iter().rev();
    types
        .filter(|field| field.is(Tag::Type))
        .find_map(|field| field.body.clone().try_into().ok())
        .unwrap_or([2, 2, 1])
}

fn spoil_edge(random: &mut Random, fields: &mut Fields, index: usize) {
    let [highest, output, labels] = numbers_before(fields, index);
    let body = &mut fields[index].body;
    let end = random.below(2);
    match random.below(7) {
        0 => put(
            body,
            end,
            random.pick(&[highest.wrapping_add(1), HIGHEST_NODE + 1, 255]),
        ),
        1 => {
            let place = random.between(2, body.len().max(3) - 1);
            put(
                body,
                place,
                random.pick(&[labels, labels.wrapping_add(1), MOST_LABELS, 255]),
            );
        }
        2 => {
            let other = body[0];
            put(body, 1, other);
        }
        3 => {
            let rail = u8::from(body[0] != 1);
            put(body, end, rail);
        }
        4 => {
            put(body, end, output.saturating_sub(1));
            put(body, 1 - end, output.saturating_add(1).min(highest));
        }
        5 => {
            put(body, 0, 0);
            put(body, 1, 1);
        }
        _ => put(body, 2, random.below(usize::from(labels).max(1)) as u8),
    }
}

/// Ranges, equal ends, the other channel, and another label or end that may be good.
fn spoil_pass(random: &mut Random, fields: &mut Fields, index: usize) {
    let [highest, _, labels] = numbers_before(fields, index);
    let body = &mut fields[index].body;
    let end = random.below(2);
    match random.below(8) {
        0 => put(
            body,
            end,
            random.pick(&[highest.wrapping_add(1), HIGHEST_NODE + 1, 255]),
        ),
        1 => put(body, 2, random.pick(&[2, 3, 48, b'n', b'p', 128, 255])),
        2 => put(
            body,
            3,
            random.pick(&[labels, labels.wrapping_add(1), MOST_LABELS, 255]),
        ),
        3 | 4 => {
            let other = body[0];
            put(body, 1, other);
        }
        5 => {
            let other = body.get(2).copied().unwrap_or(0) ^ 1;
            put(body, 2, other);
        }
        6 => put(body, end, random.below(usize::from(highest) + 1) as u8),
        _ => put(body, 3, random.below(usize::from(labels).max(1)) as u8),
    }
}

fn spoil_bridge(random: &mut Random, body: &mut [u8]) {
    match random.below(6) {
        0 => put(body, 0, random.pick(&[0, HIGHEST_LIST + 1, 255])),
        1 => put(body, 1, random.pick(&[2, 3, 255])),
        2 => put(
            body,
            2,
            random.pick(&[HIGHEST_NODE + 1, HIGHEST_NODE + 2, 255]),
        ),
        3 => put(
            body,
            3,
            random.pick(&[MOST_LABELS, HIGHEST_NODE, HIGHEST_NODE + 1, 255]),
        ),
        4 => {
            let first = body.get(2).copied().unwrap_or(0);
            put(body, 3, first);
        }
        _ => put(body, 1, random.below(2) as u8),
    }
}

fn spoil_instance(random: &mut Random, fields: &mut Fields, index: usize) {
    match random.below(7) {
        0 => {
            let types = fields.iter().filter(|field| field.is(Tag::Type)).count() as u8;
            let number = random.pick(&[0, types.wrapping_add(1), MOST_TYPES as u8 + 1, 255]);
            put(&mut fields[index].body, 0, number);
        }
        1 => {
            let choice: i8 = random.pick(&[-2, -3, -127, -128]);
            put(&mut fields[index].body, 1, choice as u8);
        }
        2 => spoil_reference_count(random, &mut fields[index].body),
        3 | 4 => spoil_reference(random, fields, index),
        5 => choose_empty_list(random, fields, index),
        _ => unfit_list(random, fields, index),
    }
}

fn spoil_reference_count(random: &mut Random, body: &mut Vec<u8>) {
    if random.one_in(2) {
        body.extend([0, 1]);
    } else {
        body.truncate(body.len().saturating_sub(2));
    }
}

fn spoil_reference(random: &mut Random, fields: &mut Fields, index: usize) {
    let own = fields[..=index]
        .iter()
        .filter(|field| field.is(Tag::Instance))
        .count() as i16;
    let inputs = i16::from(fields[0].body.get(1).copied().unwrap_or(1));
    let references = (fields[index].body.len() / 2).max(2) - 1;
    let reference: i16 = random.pick(&[0, inputs + 1, -own, -own - 1, i16::MIN, i16::MAX, 256]);
    let place = 2 * random.between(1, references);
    let [high, low] = reference.to_be_bytes();
    put(&mut fields[index].body, place, high);
    put(&mut fields[index].body, place + 1, low);
}

fn has_list(fields: &Fields, list: u8) -> bool {
    fields
        .iter()
        .any(|field| field.is(Tag::Bridge) && field.body.first() == Some(&list))
}

fn choose_empty_list(random: &mut Random, fields: &mut Fields, index: usize) {
    let start = random.below(usize::from(HIGHEST_LIST)) as u8;
    let empty = (0..HIGHEST_LIST)
        .map(|step| (start + step) % HIGHEST_LIST + 1)
        .find(|&list| !has_list(fields, list));
    if let Some(list) = empty {
        put(&mut fields[index].body, 1, list);
    }
}

/// Gives the instance's list a bridge past its type's nodes or labels, somewhere
/// among the bridges.
fn unfit_list(random: &mut Random, fields: &mut Fields, index: usize) {
    let number = usize::from(fields[index].body[0]);
    let mut types = fields.iter().filter(|field| field.is(Tag::Type));
    let Some(module) = types.nth(number.max(1) - 1) else {
        return;
    };
    let &[highest, _, labels] = module.body.as_slice() else {
        return;
    };
    let list = match fields[index].body.get(1) {
        Some(&choice @ 1..=HIGHEST_LIST) => choice,
        _ => random.between(1, usize::from(HIGHEST_LIST)) as u8,
    };
    let past = (highest.saturating_add(1)).min(HIGHEST_NODE);
    let body = match random.below(3) {
        0 => vec![list, 0, 0, past],
        1 => vec![list, 1, past, 0],
        _ => vec![list, 1, 0, labels.min(MOST_LABELS - 1)],
    };
    put(&mut fields[index].body, 1, list);
    let first_instance = fields.iter().position(|field| field.is(Tag::Instance));
    let place = first_instance.unwrap_or(index);
    fields.insert(place, LooseField::new(Tag::Bridge, body));
}

fn spoil_vector(random: &mut Random, body: &mut [u8]) {
    let place = random.below(body.len());
    put(body, place, random.pick(&[0, 1, 47, 50, 87, 89, b'x', 255]));
}
