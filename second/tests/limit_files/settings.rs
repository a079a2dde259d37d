//! Types that fail under the settings in their names and under no others. What the
//! output is joined to is worked out here from the file's bytes, under each setting.

use second::limits::limit_files;

use crate::support::refusal;

/// The place of the type's field, right after the inputs.
const TYPE: usize = 5;

/// What a name says: the labels, whether a setting is one of those meant, what the output
/// is joined to under them and, if it says so, what under the others.
struct Named {
    labels: u8,
    is_meant: Box<dyn Fn(u32) -> bool>,
    joined: String,
    else_joined: Option<String>,
}

fn named(name: &str) -> Option<Named> {
    let name = name.trim_end_matches(".cir").trim_start_matches("pass-");
    let words: Vec<&str> = name.split('-').collect();
    let number = |word: &str| word.parse::<u32>().expect("a setting is a number");
    let (is_meant, rest): (Box<dyn Fn(u32) -> bool>, &[&str]) = match words.as_slice() {
        ["setting", only, rest @ ..] => {
            let only = number(only);
            (Box::new(move |setting| setting == only), rest)
        }
        ["settings", first, "to", last, rest @ ..] => {
            let run = number(first)..=number(last);
            (Box::new(move |setting| run.contains(&setting)), rest)
        }
        ["settings", place, "of", "each", "64", rest @ ..] => {
            let place = number(place);
            (Box::new(move |setting| setting % 64 == place), rest)
        }
        _ => return None,
    };
    let ["of", labels, joined, ref more @ ..] = *rest else {
        panic!("{name} has its labels and what is joined");
    };
    let else_joined = match *more {
        ["else", rail] => Some(rail.to_string()),
        _ => None,
    };
    let labels = labels
        .trim_start_matches('k')
        .parse()
        .expect("k is a number");
    let joined = joined.to_string();
    Some(Named {
        labels,
        is_meant,
        joined,
        else_joined,
    })
}

/// The type of a file, and its edges as fields.
struct Type<'a> {
    output: u8,
    labels: u8,
    edges: Vec<&'a [u8]>,
}

impl Type<'_> {
    fn of(bytes: &[u8]) -> Type<'_> {
        let &[2, 0, 3, _, output, labels] = &bytes[TYPE..TYPE + 6] else {
            panic!("a type stands right after the inputs");
        };
        let mut edges = Vec::new();
        let mut rest = &bytes[TYPE + 6..];
        while [3, 7].contains(&rest[0]) {
            let (field, after) = rest.split_at(3 + usize::from(rest[2]));
            edges.push(field);
            rest = after;
        }
        Type {
            output,
            labels,
            edges,
        }
    }

    fn is_on(&self, edge: &[u8], setting: u32) -> bool {
        let body = &edge[3..];
        let (is_p, labels) = match edge[0] {
            7 => (body[2] == 1, &body[3..]),
            _ => {
                let in_p = |end: &u8| (1..=self.output).contains(end);
                (body[..2].iter().all(in_p), &body[2..])
            }
        };
        let needed = if is_p { 0 } else { 1 };
        labels.iter().any(|label| setting >> label & 1 == needed)
    }

    /// Whether the output is joined to ground, and whether to supply.
    fn joined(&self, setting: u32) -> (bool, bool) {
        let mut reached = [false; 32];
        reached[usize::from(self.output)] = true;
        loop {
            let before = reached;
            for edge in &self.edges {
                let [a, b] = [usize::from(edge[3]), usize::from(edge[4])];
                if self.is_on(edge, setting) && (reached[a] || reached[b]) {
                    (reached[a], reached[b]) = (true, true);
                }
            }
            if reached == before {
                return (reached[0], reached[1]);
            }
        }
    }
}

fn word((ground, supply): (bool, bool)) -> &'static str {
    match (ground, supply) {
        (true, true) => "both",
        (false, false) => "neither",
        (true, false) => "ground",
        (false, true) => "supply",
    }
}

fn is_failing(word: &str) -> bool {
    matches!(word, "both" | "neither")
}

#[test]
fn fail_under_the_named_settings_alone() {
    for file in limit_files() {
        let Some(named) = named(&file.name) else {
            continue;
        };
        let module = Type::of(&file.bytes);
        assert_eq!(module.labels, named.labels, "{}", file.name);
        for setting in 0..1 << module.labels {
            let word = word(module.joined(setting));
            let is_as_named = match (named.is_meant)(setting) {
                true => word == named.joined,
                false => match &named.else_joined {
                    Some(rail) => word == rail,
                    None => !is_failing(word),
                },
            };
            assert!(is_as_named, "{}: {word} under {setting}", file.name);
        }
    }
}

#[test]
fn failing_types_are_refused_and_no_others() {
    let (mut failing, mut complementary) = (0, 0);
    for file in limit_files() {
        let Some(named) = named(&file.name) else {
            continue;
        };
        let expected = is_failing(&named.joined).then_some((9, TYPE));
        assert_eq!(refusal(&file.bytes), expected, "{}", file.name);
        match expected {
            Some(_) => failing += 1,
            None => complementary += 1,
        }
    }
    // Of tag 3, then of tag 7 for 34 single settings.
    let expected = (82 + 34 * 5, 82 + 34 * 4);
    assert_eq!((failing, complementary), expected);
}
