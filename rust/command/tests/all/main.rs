//! The command `homvaits` from outside. One test program for all, since linking each by itself takes longer than most of its tests.

mod common;
mod folders;
mod lists;
mod logs;
mod pictures;
mod readme;
mod runs;
mod sheets;
mod streams;
mod words;
