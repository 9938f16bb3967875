//! The wrapper from outside, in one test program.

mod common;
mod readme;
mod records;
mod refusals;
mod rows;
mod set;
