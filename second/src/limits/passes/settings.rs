//! Types that fail under one setting of their labels only, by paths of both channels.
//! Such a path can be on under any one setting, those with all labels alike too.

use super::{named, NamedFile};
use crate::builder::FileBuilder;
use crate::limits::settings::{JOINED, SINGLES};

/// The rail to which the output is joined under all other settings, and the other one.
const RAILS: [(&str, u8, u8); 2] = [("supply", 1, 0), ("ground", 0, 1)];

pub fn files() -> Vec<NamedFile> {
    let mut files = Vec::new();
    for (labels, settings) in SINGLES {
        for &setting in settings {
            let setting = Setting { setting, labels };
            files.extend(setting.files());
            let name = format!("{}-both-by-the-rails", setting.name());
            files.push(named(name, setting.with_rails_joined()));
        }
    }
    files
}

#[derive(Clone, Copy)]
struct Setting {
    setting: u16,
    labels: u8,
}

impl Setting {
    fn name(self) -> String {
        format!("pass-setting-{}-of-k{}", self.setting, self.labels)
    }

    /// The channel that is on at this label under the setting.
    fn channel(self, label: u8) -> u8 {
        1 - (self.setting >> label & 1) as u8
    }

    /// What the output is joined to under the setting, and to which rail else.
    fn files(self) -> Vec<NamedFile> {
        let mut files = Vec::new();
        for (word, ground, supply) in JOINED {
            for (rail, own, other) in RAILS {
                let (to_own, to_other) = match own {
                    1 => (supply, ground),
                    _ => (ground, supply),
                };
                let file = self.file(own, to_own.then_some(own), to_other.then_some(other));
                let name = format!("{}-{word}-else-{rail}", self.name());
                files.push(named(name, file));
            }
        }
        files
    }

    /// A transistor for each label joins the output, node 2, to a rail; one of them is on
    /// under any setting but this. Then series that are on under this alone.
    fn file(self, rail: u8, first: Option<u8>, second: Option<u8>) -> FileBuilder {
        let ends: Vec<u8> = first.into_iter().chain(second).collect();
        let inner = self.labels - 1;
        let highest = 2 + inner * ends.len() as u8;
        let file = FileBuilder::inputs(u16::from(self.labels));
        let file = file.field(2, &[highest, 2, self.labels]);
        let beside =
            |file: FileBuilder, label: u8| file.pass(rail, 2, 1 - self.channel(label), label);
        let file = (0..self.labels).fold(file, beside);
        let series = |file: FileBuilder, (number, &end): (u8, &u8)| {
            self.with_series(file, 2, end, 3 + number * inner)
        };
        self.whole((0..).zip(&ends).fold(file, series))
    }

    /// Through inner nodes from the first one on, a label at each step.
    fn with_series(self, file: FileBuilder, from: u8, to: u8, first: u8) -> FileBuilder {
        let node = |step: u8| match step {
            0 => from,
            step if step == self.labels => to,
            step => first + step - 1,
        };
        (0..self.labels).fold(file, |file, label| {
            file.pass(node(label), node(label + 1), self.channel(label), label)
        })
    }

    /// An inverter, and a series from supply to ground.
    fn with_rails_joined(self) -> FileBuilder {
        let edges: [(u8, u8, &[u8]); 2] = [(1, 2, &[0]), (2, 0, &[0])];
        let file = FileBuilder::inputs(u16::from(self.labels));
        let file = file.module(1 + self.labels, 2, self.labels, &edges);
        self.whole(self.with_series(file, 1, 0, 3))
    }

    /// The one vector is the setting.
    fn whole(self, file: FileBuilder) -> FileBuilder {
        let references: Vec<i16> = (1..=i16::from(self.labels)).collect();
        let digit = |label: u8| b'0' + 1 - self.channel(label);
        let vector: Vec<u8> = (0..self.labels).map(digit).collect();
        file.instance(1, -1, &references).field(6, &vector)
    }
}
