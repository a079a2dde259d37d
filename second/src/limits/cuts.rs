//! Three good files cut to every length, their own among them.

use super::{named, NamedFile};
use crate::builder::FileBuilder;
use crate::samples::mux;
use crate::starts::{every_kind_file, inverter_file};

pub fn files() -> Vec<NamedFile> {
    let whole_files = [
        ("inverter", inverter_file()),
        ("every-kind", every_kind_file()),
        ("mux", mux()),
    ];
    whole_files
        .iter()
        .flat_map(|(name, whole)| cuts(name, whole))
        .collect()
}

fn cuts(name: &str, whole: &FileBuilder) -> Vec<NamedFile> {
    let end = whole.end();
    (0..=end)
        .map(|length| {
            let file = whole.clone().resized(length);
            named(format!("cut-{name}-{length}-of-{end}"), file)
        })
        .collect()
}
