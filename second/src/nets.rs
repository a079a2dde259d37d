//! The nets of a circuit: which of its points are one wire. The points are the
//! primary inputs and the nodes and labels of the instances. What the file ties is
//! tied two points at a time, and all that hangs together is one net.

use std::collections::BTreeMap;

use crate::circuit::{Bridge, Circuit, Kind};
use crate::conduction::{GROUND, SUPPLY};

/// Inputs and instances are numbered from 1.
#[derive(Clone, Copy, Debug, PartialEq, Eq, PartialOrd, Ord)]
pub enum Point {
    Input(usize),
    Node(usize, u8),
    Label(usize, u8),
}

/// Each tied point leads to another of its net, but for one, which stands for it.
#[derive(Clone, Debug, Default)]
pub struct Nets {
    leads: BTreeMap<Point, Point>,
}

impl Nets {
    /// The rails run through all instances, and each label hangs on its source.
    pub fn of(circuit: &Circuit) -> Nets {
        let mut nets = Nets::default();
        for (number, instance) in (1..).zip(&circuit.instances) {
            for rail in [GROUND, SUPPLY] {
                nets.tie(Point::Node(number, rail), Point::Node(1, rail));
            }
            for (label, &reference) in (0..).zip(&instance.references) {
                nets.tie(Point::Label(number, label), source(circuit, reference));
            }
        }
        nets
    }

    fn tie(&mut self, a: Point, b: Point) {
        let (a, b) = (self.net(a), self.net(b));
        if a != b {
            self.leads.insert(a, b);
        }
    }

    /// The point that stands for the net of this one.
    pub fn net(&self, mut point: Point) -> Point {
        while let Some(&next) = self.leads.get(&point) {
            point = next;
        }
        point
    }

    /// The two nets that a bridge of an instance joins, in the same order whichever
    /// end is named first.
    pub fn joined_by(&self, instance: usize, bridge: &Bridge) -> [Point; 2] {
        let second = match bridge.kind {
            Kind::Nodes => Point::Node(instance, bridge.second),
            Kind::Label => Point::Label(instance, bridge.second),
        };
        let mut nets = [Point::Node(instance, bridge.first), second].map(|end| self.net(end));
        nets.sort_unstable();
        nets
    }
}

/// Where the value of a reference comes from.
fn source(circuit: &Circuit, reference: i16) -> Point {
    let number = usize::from(reference.unsigned_abs());
    if reference > 0 {
        Point::Input(number)
    } else {
        let driver = &circuit.instances[number - 1];
        Point::Node(number, circuit.type_of(driver).output)
    }
}
