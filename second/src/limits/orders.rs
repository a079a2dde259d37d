//! Two faults in one field, for every pair of numbers that can meet there, so that
//! the order between them shows. Each file comes with a mended one, without the
//! fault of the first number: it shows that the second was there as well.
//!
//! Pairs that cannot meet: 1 and 14, since no file without another fault is that
//! long; 3 with 6 to 13, which ask for a known tag; 8 with 10 to 13, since no tag
//! has both (a pass transistor has neither); 9 with 11 or 13, since no bridge and no
//! instance stands between a type and the instance that judges it; 12 with 11 or 13,
//! since an empty list has no bridge that fits badly and adds no fault.

mod bodies;
mod heads;
mod singles;

use super::{named, NamedFile};
use crate::builder::FileBuilder;

/// The number that is given, the other number, what tells the file from others of
/// the same numbers, the file, and the mended file, which is refused with the other.
type Meeting = (u8, u8, &'static str, FileBuilder, FileBuilder);

pub fn files() -> Vec<NamedFile> {
    let meetings = [singles::meetings(), heads::meetings(), bodies::meetings()];
    let mut files = Vec::new();
    for (first, second, what, both, mended) in meetings.concat() {
        let dash = if what.is_empty() { "" } else { "-" };
        let name = format!("order-{first}-before-{second}{dash}{what}");
        files.push(named(format!("{name}-mended"), mended));
        files.push(named(name, both));
    }
    files
}

/// The last field is the same; what stands before it is faulty, then mended.
fn after(
    (first, second, what): (u8, u8, &'static str),
    faulty: FileBuilder,
    mended: FileBuilder,
    (tag, body): (u8, &[u8]),
) -> Meeting {
    let (both, mended) = (faulty.field(tag, body), mended.field(tag, body));
    (first, second, what, both, mended)
}

/// The start is the same; the last field has both faults, then only the second.
fn within(
    (first, second, what): (u8, u8, &'static str),
    before: FileBuilder,
    tag: u8,
    faulty: &[u8],
    mended: &[u8],
) -> Meeting {
    let both = before.clone().field(tag, faulty);
    (first, second, what, both, before.field(tag, mended))
}
