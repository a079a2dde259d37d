//! Damaged circuit files from a seed: a made circuit with one to three damages,
//! chosen so that every refusal number from 1 to 14 is reached and numbers meet.

use crate::circuit::{Bridge, Instance, Kind, ListedBridge};
use crate::faults::{user_list, EXHAUSTIVE};
use crate::format::{
    Tag, HIGHEST_LIST, LONGEST_FILE, MOST_BRIDGES, MOST_EDGES, MOST_GROUPED, MOST_INSTANCES,
    MOST_TYPES, MOST_VECTORS,
};
use crate::make::{full_circuit, small_circuit, Made};
use crate::random::Random;
use crate::spoil::{spoil, spoil_length};
use crate::types::gate_type;
use crate::write::{bridge_field, bytes_of, type_fields, LooseField};

type Fields = Vec<LooseField>;
type FieldDamage = fn(&mut Random, &mut Fields);
type ByteDamage = fn(&mut Random, &mut Vec<u8>);

const FIELD_DAMAGES: [FieldDamage; 28] = [
    drop_field,
    double_field,
    swap_any,
    swap_neighbours,
    change_tag,
    state_other_length,
    flip_bit,
    spoil_one,
    spoil_one,
    spoil_twice,
    spoil_twice,
    spoil_instance_once,
    spoil_instance_once,
    spoil_instance_twice,
    spoil_pass_once,
    spoil_pass_twice,
    exchange_edge_tag,
    move_edge,
    drop_edge,
    drop_all_edges,
    break_type_and_next,
    drop_all_of_a_tag,
    keep_only_a_start,
    exceed_types,
    exceed_edges,
    exceed_bridges,
    exceed_instances,
    exceed_vectors,
];

const BYTE_DAMAGES: [ByteDamage; 6] = [
    flip_bits,
    cut_short,
    append_few,
    pad_to_limit,
    pad_past_limit,
    cut_in_tail,
];

pub fn damaged_file(seed: u64, index: u64) -> Vec<u8> {
    let mut random = Random::for_file(!seed, index);
    let random = &mut random;
    let kinds = FIELD_DAMAGES.len() + BYTE_DAMAGES.len() + 1;
    let kind = (index % kinds as u64) as usize;
    if kind == kinds - 1 {
        return exceed_faults(random);
    }
    let mut fields = few_vectors(random).fields();
    let mut late = None;
    match FIELD_DAMAGES.get(kind) {
        Some(damage) => damage(random, &mut fields),
        None => late = Some(BYTE_DAMAGES[kind - FIELD_DAMAGES.len()]),
    }
    for _ in 0..random.pick(&[0, 0, 0, 1, 1, 2]) {
        random.pick(&FIELD_DAMAGES)(random, &mut fields);
    }
    let mut bytes = bytes_of(&fields);
    if late.is_none() && random.one_in(10) {
        late = Some(random.pick(&BYTE_DAMAGES));
    }
    if let Some(damage) = late {
        damage(random, &mut bytes);
    }
    bytes
}

/// Most damages are met before the vectors, so few of them are kept.
fn few_vectors(random: &mut Random) -> Made {
    let mut made = small_circuit(random);
    if !random.one_in(8) {
        made.circuit.vectors.truncate(3);
    }
    made
}

fn any_index(random: &mut Random, fields: &Fields) -> Option<usize> {
    (!fields.is_empty()).then(|| random.below(fields.len()))
}

/// A field of a tag that is present, each such tag as likely as another.
fn any_by_tag(random: &mut Random, fields: &Fields) -> Option<usize> {
    let mut tags: Vec<u8> = fields.iter().map(|field| field.tag).collect();
    tags.sort_unstable();
    tags.dedup();
    let tag = tags.get(random.below(tags.len().max(1)))?;
    any_with(random, fields, *tag)
}

fn any_of_tag(random: &mut Random, fields: &Fields, tag: Tag) -> Option<usize> {
    any_with(random, fields, tag.byte())
}

/// A damaged field may have any byte for a tag.
fn any_with(random: &mut Random, fields: &Fields, tag: u8) -> Option<usize> {
    let places: Vec<usize> = (0..fields.len())
        .filter(|&index| fields[index].tag == tag)
        .collect();
    (!places.is_empty()).then(|| random.pick(&places))
}

fn drop_field(random: &mut Random, fields: &mut Fields) {
    if let Some(index) = any_by_tag(random, fields) {
        fields.remove(index);
    }
}

fn double_field(random: &mut Random, fields: &mut Fields) {
    if let Some(index) = any_by_tag(random, fields) {
        let copy = fields[index].clone();
        let place = if random.one_in(2) {
            index
        } else {
            random.below(fields.len() + 1)
        };
        fields.insert(place, copy);
    }
}

fn swap_any(random: &mut Random, fields: &mut Fields) {
    if let (Some(a), Some(b)) = (any_by_tag(random, fields), any_by_tag(random, fields)) {
        fields.swap(a, b);
    }
}

fn swap_neighbours(random: &mut Random, fields: &mut Fields) {
    if let Some(index) = any_by_tag(random, fields) {
        fields.swap(index, index.saturating_sub(1));
    }
}

fn change_tag(random: &mut Random, fields: &mut Fields) {
    if let Some(index) = any_index(random, fields) {
        fields[index].tag = random.pick(&[0, 1, 2, 3, 4, 5, 6, 7, 8, 255]);
    }
}

fn state_other_length(random: &mut Random, fields: &mut Fields) {
    if let Some(index) = any_by_tag(random, fields) {
        let length = fields[index].body.len() as u16;
        let other = random.pick(&[0, 1, 2, 3, 4, 6, 7, 26, 28, 255, 256, u16::MAX]);
        let near = random.pick(&[length.wrapping_sub(1), length + 1, length + 2]);
        fields[index].stated_length = Some(random.pick(&[other, near]));
    }
}

fn flip_bit(random: &mut Random, fields: &mut Fields) {
    if let Some(index) = any_by_tag(random, fields) {
        let body = &mut fields[index].body;
        if !body.is_empty() {
            let place = random.below(body.len());
            body[place] ^= 1 << random.below(8);
        }
    }
}

fn spoil_one(random: &mut Random, fields: &mut Fields) {
    if let Some(index) = any_by_tag(random, fields) {
        spoil(random, fields, index);
    }
}

fn spoil_twice(random: &mut Random, fields: &mut Fields) {
    if let Some(index) = any_by_tag(random, fields) {
        spoil_same_twice(random, fields, index);
    }
}

fn spoil_instance_once(random: &mut Random, fields: &mut Fields) {
    if let Some(index) = any_of_tag(random, fields, Tag::Instance) {
        spoil(random, fields, index);
    }
}

fn spoil_instance_twice(random: &mut Random, fields: &mut Fields) {
    if let Some(index) = any_of_tag(random, fields, Tag::Instance) {
        spoil_same_twice(random, fields, index);
    }
}

fn spoil_pass_once(random: &mut Random, fields: &mut Fields) {
    if let Some(index) = any_of_tag(random, fields, Tag::Pass) {
        spoil(random, fields, index);
    }
}

fn spoil_pass_twice(random: &mut Random, fields: &mut Fields) {
    if let Some(index) = any_of_tag(random, fields, Tag::Pass) {
        spoil_same_twice(random, fields, index);
    }
}

/// Two damages in one field, so that the order between numbers shows. The first
/// may have put a bridge before the field.
fn spoil_same_twice(random: &mut Random, fields: &mut Fields, index: usize) {
    let before = fields.len();
    spoil(random, fields, index);
    let index = index + (fields.len() - before);
    spoil(random, fields, index);
}

fn is_edge(field: &LooseField) -> bool {
    Tag::of(field.tag).is_some_and(Tag::is_edge)
}

/// An edge of either tag, each tag as likely as the other.
fn any_edge(random: &mut Random, fields: &Fields) -> Option<usize> {
    let [first, second] = match random.one_in(2) {
        true => [Tag::Edge, Tag::Pass],
        false => [Tag::Pass, Tag::Edge],
    };
    any_of_tag(random, fields, first).or_else(|| any_of_tag(random, fields, second))
}

fn drop_edge(random: &mut Random, fields: &mut Fields) {
    if let Some(index) = any_edge(random, fields) {
        fields.remove(index);
    }
}

/// Puts an edge anywhere, so also to another type or where none may stand.
fn move_edge(random: &mut Random, fields: &mut Fields) {
    if let Some(index) = any_edge(random, fields) {
        let field = fields.remove(index);
        fields.insert(random.below(fields.len() + 1), field);
    }
}

/// Tag 7 for tag 3 or the other way, with the same body or with a channel byte put in or
/// taken out.
fn exchange_edge_tag(random: &mut Random, fields: &mut Fields) {
    let Some(index) = any_edge(random, fields) else {
        return;
    };
    let LooseField { tag, body, .. } = &mut fields[index];
    let is_fitted = random.one_in(2) && body.len() > 2;
    if *tag == Tag::Pass.byte() {
        *tag = Tag::Edge.byte();
        if is_fitted {
            body.remove(2);
        }
    } else {
        *tag = Tag::Pass.byte();
        if is_fitted {
            body.truncate(3);
            body.insert(2, random.below(2) as u8);
        }
    }
}

fn edges_after(fields: &Fields, index: usize) -> usize {
    let rest = fields[index + 1..].iter();
    rest.take_while(|field| is_edge(field)).count()
}

fn drop_all_edges(random: &mut Random, fields: &mut Fields) {
    if let Some(index) = any_of_tag(random, fields, Tag::Type) {
        let edges = edges_after(fields, index);
        fields.drain(index + 1..=index + edges);
    }
}

/// A type that is not complementary, then a field with a fault of its own, at
/// which the type is judged if that field passes 2, 3 and 4.
fn break_type_and_next(random: &mut Random, fields: &mut Fields) {
    let Some(index) = any_of_tag(random, fields, Tag::Type) else {
        return;
    };
    let edges = edges_after(fields, index);
    if edges > 0 {
        fields.remove(index + random.between(1, edges));
    }
    let next = index + 1 + edges_after(fields, index);
    if next < fields.len() {
        match random.below(5) {
            0 => fields[next].tag = random.pick(&[0, 1, 7, 8]),
            1 => fields[next].stated_length = Some(u16::MAX),
            2 => spoil_length(random, &mut fields[next]),
            3 => fields.truncate(next),
            _ => spoil(random, fields, next),
        }
    }
}

fn drop_all_of_a_tag(random: &mut Random, fields: &mut Fields) {
    let tag = random.pick(&Tag::ALL);
    fields.retain(|field| !field.is(tag));
}

fn keep_only_a_start(random: &mut Random, fields: &mut Fields) {
    fields.truncate(random.below(fields.len() + 1));
}

/// Repeats a field of a tag until there is one more than `most`, and sometimes
/// spoils the last.
fn exceed(random: &mut Random, fields: &mut Fields, tag: Tag, most: usize) {
    let Some(last) = fields.iter().rposition(|field| field.is(tag)) else {
        return;
    };
    let present = fields.iter().filter(|field| field.is(tag)).count();
    let more = (most + random.between(0, 2)).saturating_sub(present);
    let copy = fields[last].clone();
    fields.splice(last..last, vec![copy; more]);
    if random.one_in(2) {
        spoil(random, fields, last + more);
    }
}

/// What may stand before a bridge; of a damaged field, also no tag at all.
fn is_before_bridges(field: &LooseField) -> bool {
    field.tag < Tag::Bridge.byte() || is_edge(field)
}

fn exceed_types(random: &mut Random, fields: &mut Fields) {
    let present = fields.iter().filter(|field| field.is(Tag::Type)).count();
    let more = (MOST_TYPES + random.between(0, 2)).saturating_sub(present);
    let mut added = Vec::new();
    for _ in 0..more {
        added.extend(type_fields(&gate_type(random)));
    }
    let place = fields.iter().rposition(is_before_bridges);
    let place = place.map_or(0, |index| index + 1);
    let end = place + added.len();
    fields.splice(place..place, added);
    let last = fields[..end].iter().rposition(|field| field.is(Tag::Type));
    if let (Some(last), true) = (last, random.one_in(3)) {
        spoil(random, fields, last);
    }
}

/// Repeats the last edge of a type, as it is or in fields of one to four labels, up to
/// the limit or just past it, and sometimes spoils the last field.
fn exceed_edges(random: &mut Random, fields: &mut Fields) {
    let Some(index) = any_of_tag(random, fields, Tag::Type) else {
        return;
    };
    let end = index + 1 + edges_after(fields, index);
    let Some(last) = fields[index + 1..end].last() else {
        return;
    };
    let copy = regrouped(random, last);
    let each = edges_in(&copy);
    let edges: usize = fields[index + 1..end].iter().map(edges_in).sum();
    let most = MOST_EDGES + random.between(0, each);
    let more = most.saturating_sub(edges) / each;
    fields.splice(end..end, vec![copy; more]);
    if random.one_in(2) {
        spoil(random, fields, end + more - 1);
    }
}

/// An edge again: a pass transistor as it is, and of any other one to four.
fn regrouped(random: &mut Random, edge: &LooseField) -> LooseField {
    let mut copy = edge.clone();
    if edge.is(Tag::Edge) {
        // A field that is damaged already may be too short for two ends and a label.
        let label = edge.body.get(2).copied().unwrap_or(0);
        copy.body.truncate(2);
        copy.body.resize(2 + random.between(1, MOST_GROUPED), label);
    }
    copy
}

fn edges_in(field: &LooseField) -> usize {
    match field.is(Tag::Pass) {
        true => 1,
        false => field.body.len().saturating_sub(2),
    }
}

fn exceed_bridges(random: &mut Random, fields: &mut Fields) {
    let bridge = Bridge {
        kind: Kind::Nodes,
        first: 0,
        second: 1,
    };
    if !fields.iter().any(|field| field.is(Tag::Bridge)) {
        let last = fields.iter().rposition(is_before_bridges);
        let listed = ListedBridge {
            list: HIGHEST_LIST,
            bridge,
        };
        fields.insert(last.map_or(0, |index| index + 1), bridge_field(&listed));
    }
    exceed(random, fields, Tag::Bridge, MOST_BRIDGES);
}

fn exceed_instances(random: &mut Random, fields: &mut Fields) {
    for field in fields.iter_mut().filter(|field| field.is(Tag::Instance)) {
        if let Some(choice) = field.body.get_mut(1) {
            *choice = 0;
        }
    }
    exceed(random, fields, Tag::Instance, MOST_INSTANCES);
}

fn exceed_vectors(random: &mut Random, fields: &mut Fields) {
    exceed(random, fields, Tag::Vector, MOST_VECTORS);
}

/// Past 2,048 faults, by one or by many, sometimes with another damage.
fn exceed_faults(random: &mut Random) -> Vec<u8> {
    let made = if random.one_in(3) {
        one_fault_too_many(random)
    } else {
        many_exhaustive_lists(random)
    };
    let mut fields = made.fields();
    if random.one_in(4) {
        spoil_one(random, &mut fields);
    }
    bytes_of(&fields)
}

/// A full-size circuit in which an instance without faults takes a list of one.
fn one_fault_too_many(random: &mut Random) -> Made {
    let mut made = full_circuit(random);
    let circuit = &mut made.circuit;
    circuit.vectors.truncate(2);
    let single = (1..=i8::MAX).find(|&list| user_list(&circuit.bridges, list).len() == 1);
    let idle: Vec<usize> = (0..circuit.instances.len())
        .filter(|&index| circuit.instances[index].choice == 0)
        .collect();
    if let (Some(list), false) = (single, idle.is_empty()) {
        circuit.instances[random.pick(&idle)].choice = list;
    }
    made
}

fn many_exhaustive_lists(random: &mut Random) -> Made {
    let mut made = few_vectors(random);
    let instances = &mut made.circuit.instances;
    let pattern = instances.clone();
    for instance in pattern.iter().cycle().take(MOST_INSTANCES - pattern.len()) {
        let choice = EXHAUSTIVE;
        instances.push(Instance {
            choice,
            ..instance.clone()
        });
    }
    made
}

fn flip_bits(random: &mut Random, bytes: &mut Vec<u8>) {
    for _ in 0..random.between(1, 3) {
        if !bytes.is_empty() {
            let place = random.below(bytes.len());
            bytes[place] ^= 1 << random.below(8);
        }
    }
}

fn cut_short(random: &mut Random, bytes: &mut Vec<u8>) {
    bytes.truncate(random.below(bytes.len() + 1));
}

fn cut_in_tail(random: &mut Random, bytes: &mut Vec<u8>) {
    bytes.truncate(bytes.len().saturating_sub(random.between(1, 4)));
}

fn append_few(random: &mut Random, bytes: &mut Vec<u8>) {
    for _ in 0..random.between(1, 4) {
        bytes.push(random.pick(&[0, 1, 6, 7, 255]));
    }
}

fn pad_to_limit(random: &mut Random, bytes: &mut Vec<u8>) {
    bytes.resize(LONGEST_FILE, random.pick(&[0, 6]));
}

fn pad_past_limit(random: &mut Random, bytes: &mut Vec<u8>) {
    let length = LONGEST_FILE + random.pick(&[1, 2, 1000]);
    bytes.resize(length, random.pick(&[0, 6]));
}
