//! The front of the project for people: a circuit file made from its text, and a
//! refusal told in words. The rules of the format are those of the second program.

pub mod explain;
pub mod text;
pub mod words;
