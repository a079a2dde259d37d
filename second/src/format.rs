//! The format in numbers: its limits, a field's head, the tags with their order,
//! their lengths and their words. All else takes them from here but the builder
//! and the files of `limits`, which write them out, so that a slip here shows there.

pub const LONGEST_FILE: usize = 57_344;
pub const MOST_INPUTS: usize = 64;
pub const MOST_TYPES: usize = 16;
/// In one type, of both tags together, counted by label.
pub const MOST_EDGES: usize = 256;
pub const MOST_BRIDGES: usize = 256;
pub const MOST_INSTANCES: usize = 128;
pub const MOST_VECTORS: usize = 256;
pub const MOST_FAULTS: usize = 2_048;

pub const HIGHEST_NODE: u8 = 31;
pub const MOST_LABELS: u8 = 12;
pub const HIGHEST_LIST: u8 = 127;
/// The most labels in one edge field. Old files group transistors so; each label is
/// an edge of its own.
pub const MOST_GROUPED: usize = 4;

/// The bytes of a field before its body: the tag and the length.
pub const HEAD: usize = 3;

#[derive(Clone, Copy, Debug, PartialEq, Eq)]
pub enum Tag {
    Inputs,
    Type,
    Edge,
    Bridge,
    Instance,
    Vector,
    /// A pass transistor: an edge that says its channel itself.
    Pass,
}

impl Tag {
    pub const ALL: [Tag; 7] = [
        Tag::Inputs,
        Tag::Type,
        Tag::Edge,
        Tag::Bridge,
        Tag::Instance,
        Tag::Vector,
        Tag::Pass,
    ];

    pub fn byte(self) -> u8 {
        match self {
            Tag::Inputs => 1,
            Tag::Type => 2,
            Tag::Edge => 3,
            Tag::Bridge => 4,
            Tag::Instance => 5,
            Tag::Vector => 6,
            Tag::Pass => 7,
        }
    }

    pub fn of(byte: u8) -> Option<Tag> {
        Tag::ALL.into_iter().find(|tag| tag.byte() == byte)
    }

    /// The word that begins its line in the text form.
    pub fn word(self) -> &'static str {
        match self {
            Tag::Inputs => "inputs",
            Tag::Type => "type",
            Tag::Edge => "edge",
            Tag::Bridge => "bridge",
            Tag::Instance => "instance",
            Tag::Vector => "vector",
            Tag::Pass => "pass",
        }
    }

    pub fn of_word(word: &[u8]) -> Option<Tag> {
        let mut tags = Tag::ALL.into_iter();
        tags.find(|tag| tag.word().as_bytes() == word)
    }

    /// The part of the file that its fields make, in the order of the parts.
    fn part(self) -> u8 {
        match self {
            Tag::Inputs => 0,
            Tag::Type | Tag::Edge | Tag::Pass => 1,
            Tag::Bridge => 2,
            Tag::Instance => 3,
            Tag::Vector => 4,
        }
    }

    /// Whether its field adds to the latest type, which is not judged yet.
    pub fn is_edge(self) -> bool {
        matches!(self, Tag::Edge | Tag::Pass)
    }

    /// Whether a field of it may stand behind one of the tag before.
    pub fn may_follow(self, before: Option<Tag>) -> bool {
        match before {
            None => self == Tag::Inputs,
            Some(_) if self == Tag::Inputs => false,
            Some(before) if self.is_edge() => before.part() == self.part(),
            Some(before) => before.part() <= self.part(),
        }
    }

    /// Whether its body may have this length in a file with so many inputs.
    pub fn allows(self, length: usize, inputs: usize) -> bool {
        match self {
            Tag::Inputs => length == 2,
            Tag::Type => length == 3,
            Tag::Edge => (3..=2 + MOST_GROUPED).contains(&length),
            Tag::Bridge => length == 4,
            Tag::Instance => {
                length % 2 == 0 && (4..=2 + 2 * usize::from(MOST_LABELS)).contains(&length)
            }
            Tag::Vector => length == inputs,
            Tag::Pass => length == 4,
        }
    }
}
