//! Building circuit files by hand, field by field, good or bad. It uses none of
//! the crate's own writing, so that a slip there cannot hide here.

/// Two nodes and the labels of one edge field: a single one, or up to four, as old
/// files group them.
pub type EdgeRow<'a> = (u8, u8, &'a [u8]);

pub const INVERTER: &[EdgeRow] = &[(1, 2, &[0]), (0, 2, &[0])];
pub const NAND: &[EdgeRow] = &[(1, 2, &[0]), (1, 2, &[1]), (2, 3, &[0]), (3, 0, &[1])];
/// The same NAND as an old file has it.
pub const GROUPED_NAND: &[EdgeRow] = &[(1, 2, &[0, 1]), (2, 3, &[0]), (3, 0, &[1])];
/// A NOR, whose inner node is in the p network.
pub const NOR: &[EdgeRow] = &[(1, 2, &[0]), (2, 3, &[1]), (0, 3, &[0]), (0, 3, &[1])];

/// The thesis's circuit 3, the complement of an adder's carry.
pub const CARRY: &[EdgeRow] = &[
    (1, 3, &[0]),
    (3, 2, &[1]),
    (1, 2, &[2]),
    (2, 4, &[0]),
    (2, 4, &[1]),
    (4, 5, &[2]),
    (5, 0, &[0]),
    (5, 0, &[1]),
    (4, 6, &[0]),
    (6, 0, &[1]),
];

/// The thesis's circuit 4, the complement of an adder's sum; label 3 is the carry's.
pub const SUM: &[EdgeRow] = &[
    (1, 2, &[0]),
    (1, 2, &[1]),
    (1, 2, &[2]),
    (2, 3, &[1]),
    (3, 4, &[2]),
    (4, 5, &[0]),
    (2, 5, &[3]),
    (5, 6, &[3]),
    (6, 0, &[0]),
    (6, 0, &[1]),
    (6, 0, &[2]),
    (5, 7, &[0]),
    (7, 8, &[1]),
    (8, 0, &[2]),
];

/// The channels of pass transistors.
pub const N: u8 = 0;
pub const P: u8 = 1;

#[derive(Clone, Debug, Default, PartialEq, Eq)]
pub struct FileBuilder {
    pub bytes: Vec<u8>,
}

impl FileBuilder {
    pub fn inputs(count: u16) -> FileBuilder {
        FileBuilder::default().field(1, &count.to_be_bytes())
    }

    pub fn field(mut self, tag: u8, body: &[u8]) -> FileBuilder {
        self.bytes.push(tag);
        self.bytes
            .extend_from_slice(&(body.len() as u16).to_be_bytes());
        self.bytes.extend_from_slice(body);
        self
    }

    pub fn module(self, highest: u8, output: u8, labels: u8, edges: &[EdgeRow]) -> FileBuilder {
        let mut file = self.field(2, &[highest, output, labels]);
        for &(a, b, labels) in edges {
            file = file.field(3, &[&[a, b], labels].concat());
        }
        file
    }

    /// One more edge of the latest type, with its own channel.
    pub fn pass(self, a: u8, b: u8, channel: u8, label: u8) -> FileBuilder {
        self.field(7, &[a, b, channel, label])
    }

    pub fn inverter(self) -> FileBuilder {
        self.module(2, 2, 1, INVERTER)
    }

    pub fn nand(self) -> FileBuilder {
        self.module(3, 2, 2, NAND)
    }

    pub fn grouped_nand(self) -> FileBuilder {
        self.module(3, 2, 2, GROUPED_NAND)
    }

    pub fn nor(self) -> FileBuilder {
        self.module(3, 3, 2, NOR)
    }

    pub fn bridge(self, list: u8, kind: u8, first: u8, second: u8) -> FileBuilder {
        self.field(4, &[list, kind, first, second])
    }

    pub fn instance(self, type_number: u8, choice: i8, references: &[i16]) -> FileBuilder {
        let mut body = vec![type_number, choice as u8];
        for reference in references {
            body.extend_from_slice(&reference.to_be_bytes());
        }
        self.field(5, &body)
    }

    pub fn vectors(self, vectors: &[&str]) -> FileBuilder {
        vectors
            .iter()
            .fold(self, |file, vector| file.field(6, vector.as_bytes()))
    }

    /// Repeats a step, for the limits.
    pub fn times(self, count: usize, step: impl Fn(FileBuilder) -> FileBuilder) -> FileBuilder {
        (0..count).fold(self, |file, _| step(file))
    }

    pub fn raw(mut self, bytes: &[u8]) -> FileBuilder {
        self.bytes.extend_from_slice(bytes);
        self
    }

    /// Cuts the file to this length, or fills it up with zeros.
    pub fn resized(mut self, length: usize) -> FileBuilder {
        self.bytes.resize(length, 0);
        self
    }

    /// The file's length so far, which is the place of a field added next.
    pub fn end(&self) -> usize {
        self.bytes.len()
    }
}

/// A file to be written under this name.
#[derive(Clone, Debug, PartialEq, Eq)]
pub struct NamedFile {
    pub name: String,
    pub bytes: Vec<u8>,
}

impl NamedFile {
    pub fn new(name: impl Into<String>, file: FileBuilder) -> NamedFile {
        NamedFile {
            name: name.into(),
            bytes: file.bytes,
        }
    }
}
