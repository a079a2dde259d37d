//! Files made by hand at every limit and one past it, around every range end, with
//! pass transistors between all nodes, with types that fail under some settings only,
//! with wires that many instances share, with nodes at every distance from their rail, and
//! with faults that meet in one field, so that two programs can be compared there. The
//! numbers stand as in the paper and are not taken from the reader.

use std::fmt::Display;

use crate::builder::{FileBuilder, NamedFile};

mod bridges;
mod bytes;
mod choices;
mod counts;
mod cuts;
mod edge_counts;
mod edges;
mod frame;
mod inputs;
mod lengths;
mod orders;
mod passes;
mod references;
mod rounds;
mod settings;
mod tags;
mod type_numbers;
mod types;
mod vectors;
mod wires;

/// The name says what is in the file; it ends in `.cir`.
fn named(name: impl Display, file: FileBuilder) -> NamedFile {
    NamedFile::new(format!("{name}.cir"), file)
}

/// Every file, each name once, the same on every run.
pub fn limit_files() -> Vec<NamedFile> {
    [
        counts::files(),
        edge_counts::files(),
        bytes::files(),
        cuts::files(),
        lengths::files(),
        inputs::files(),
        types::files(),
        edges::files(),
        passes::files(),
        settings::files(),
        bridges::files(),
        type_numbers::files(),
        choices::files(),
        references::files(),
        wires::files(),
        rounds::files(),
        vectors::files(),
        tags::files(),
        orders::files(),
    ]
    .concat()
}
