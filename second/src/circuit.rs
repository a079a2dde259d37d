//! The records of an accepted circuit file: module types with their edges,
//! listed bridges, instances and vectors, in file order.

#[derive(Clone, Copy, Debug, PartialEq, Eq)]
pub enum Value {
    Zero,
    One,
    X,
}

impl Value {
    pub const ALL: [Value; 3] = [Value::Zero, Value::One, Value::X];

    /// As in a vector.
    pub fn letter(self) -> char {
        match self {
            Value::Zero => '0',
            Value::One => '1',
            Value::X => 'X',
        }
    }
}

#[derive(Clone, Copy, Debug, PartialEq, Eq)]
pub enum Channel {
    P,
    N,
}

impl Channel {
    pub const ALL: [Channel; 2] = [Channel::N, Channel::P];

    /// As in the field of a pass transistor.
    pub fn byte(self) -> u8 {
        match self {
            Channel::N => 0,
            Channel::P => 1,
        }
    }

    pub fn of(byte: u8) -> Option<Channel> {
        let mut channels = Channel::ALL.into_iter();
        channels.find(|channel| channel.byte() == byte)
    }

    /// As in the text form.
    pub fn letter(self) -> char {
        match self {
            Channel::N => 'n',
            Channel::P => 'p',
        }
    }
}

/// One transistor. A pass transistor said its channel itself; any other has the one
/// that its ends give it.
#[derive(Clone, Copy, Debug, PartialEq, Eq)]
pub struct Edge {
    pub ends: [u8; 2],
    pub channel: Channel,
    pub label: u8,
    pub is_pass: bool,
}

#[derive(Clone, Debug, PartialEq, Eq)]
pub struct ModuleType {
    pub highest: u8,
    pub output: u8,
    pub labels: u8,
    pub edges: Vec<Edge>,
}

/// Kind 0 joins two nodes, kind 1 a node and a label.
#[derive(Clone, Copy, Debug, PartialEq, Eq)]
pub enum Kind {
    Nodes,
    Label,
}

impl Kind {
    pub const ALL: [Kind; 2] = [Kind::Nodes, Kind::Label];

    /// As in the file.
    pub fn byte(self) -> u8 {
        match self {
            Kind::Nodes => 0,
            Kind::Label => 1,
        }
    }

    pub fn of(byte: u8) -> Option<Kind> {
        Kind::ALL.into_iter().find(|kind| kind.byte() == byte)
    }

    /// As in the report.
    pub fn letter(self) -> char {
        match self {
            Kind::Nodes => 'n',
            Kind::Label => 'i',
        }
    }
}

#[derive(Clone, Copy, Debug, PartialEq, Eq)]
pub struct Bridge {
    pub kind: Kind,
    pub first: u8,
    pub second: u8,
}

#[derive(Clone, Copy, Debug, PartialEq, Eq)]
pub struct ListedBridge {
    pub list: u8,
    pub bridge: Bridge,
}

#[derive(Clone, Debug, PartialEq, Eq)]
pub struct Instance {
    pub type_number: u8,
    pub choice: i8,
    pub references: Vec<i16>,
}

#[derive(Clone, Debug, Default, PartialEq, Eq)]
pub struct Circuit {
    pub inputs: usize,
    pub types: Vec<ModuleType>,
    pub bridges: Vec<ListedBridge>,
    pub instances: Vec<Instance>,
    pub vectors: Vec<Vec<Value>>,
}

impl Circuit {
    pub fn type_of(&self, instance: &Instance) -> &ModuleType {
        &self.types[usize::from(instance.type_number) - 1]
    }
}
