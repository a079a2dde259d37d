//! The report of a grading, byte for byte: a first line, a line for each row and a last
//! line with the rounds, or the one line of a refusal.

use crate::format::MOST_FAULTS;
use crate::grade::{grade, Graded, Row, WORDS_A_ROW};
use crate::refusal::Refusal;

/// Grades with buffers that are long enough for every accepted file.
pub fn report_of(bytes: &[u8]) -> String {
    report(&grade(bytes, WORDS_A_ROW * MOST_FAULTS, MOST_FAULTS))
}

pub fn report(answer: &Result<Graded, Refusal>) -> String {
    match answer {
        Ok(graded) => lines(graded).concat(),
        Err(refusal) => refusal.line(),
    }
}

fn lines(graded: &Graded) -> Vec<String> {
    let mut lines = vec![counts_line(graded)];
    lines.extend(graded.rows.iter().map(row_line));
    lines.push(format!("rounds {}\n", graded.rounds));
    lines
}

fn counts_line(graded: &Graded) -> String {
    format!(
        "vectors {} faults {} classes {} found {}\n",
        graded.vectors,
        graded.rows.len(),
        graded.classes,
        graded.found
    )
}

fn row_line(row: &Row) -> String {
    let kind = row.bridge.kind.letter();
    let digits: String = row
        .marks
        .iter()
        .map(|&mark| if mark { '1' } else { '0' })
        .collect();
    let count = row.marks.iter().filter(|&&mark| mark).count();
    let first = row
        .marks
        .iter()
        .position(|&mark| mark)
        .map_or(0, |index| index + 1);
    format!(
        "{} {kind} {} {} {} {digits} {count} {first}\n",
        row.instance, row.bridge.first, row.bridge.second, row.class
    )
}
