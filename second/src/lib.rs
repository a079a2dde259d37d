//! The second grader: reads a circuit file, grades its bridges one path search
//! at a time, prints the report or the circuit, makes or damages circuit files
//! from a seed, and writes files by hand: at every limit, and samples.

pub mod bodies;
pub mod builder;
pub mod circuit;
pub mod conduction;
pub mod damage;
pub mod faults;
pub mod fields;
pub mod format;
pub mod grade;
pub mod limits;
pub mod make;
pub mod nets;
pub mod networks;
pub mod passes;
pub mod random;
pub mod read;
pub mod refusal;
pub mod report;
pub mod samples;
pub mod show;
pub mod spoil;
pub mod starts;
pub mod types;
pub mod write;
