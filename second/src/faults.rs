//! The faults of one instance in row order: the exhaustive list, a user list in
//! file order with its ends as written, or none.

use crate::circuit::{Bridge, Circuit, Instance, Kind, ListedBridge, ModuleType};

pub const EXHAUSTIVE: i8 = -1;

pub fn exhaustive_list(module: &ModuleType) -> Vec<Bridge> {
    let mut list = Vec::new();
    for first in 0..=module.highest {
        for second in first + 1..=module.highest {
            list.push(Bridge {
                kind: Kind::Nodes,
                first,
                second,
            });
        }
    }
    for first in 0..=module.highest {
        for second in 0..module.labels {
            list.push(Bridge {
                kind: Kind::Label,
                first,
                second,
            });
        }
    }
    list
}

pub fn user_list(bridges: &[ListedBridge], list: i8) -> Vec<Bridge> {
    bridges
        .iter()
        .filter(|listed| i16::from(listed.list) == i16::from(list))
        .map(|listed| listed.bridge)
        .collect()
}

pub fn fits(bridge: &Bridge, module: &ModuleType) -> bool {
    let second_fits = match bridge.kind {
        Kind::Nodes => bridge.second <= module.highest,
        Kind::Label => bridge.second < module.labels,
    };
    bridge.first <= module.highest && second_fits
}

pub fn faults_of(circuit: &Circuit, instance: &Instance) -> Vec<Bridge> {
    match instance.choice {
        0 => Vec::new(),
        EXHAUSTIVE => exhaustive_list(circuit.type_of(instance)),
        list => user_list(&circuit.bridges, list),
    }
}
