/// The number of the layout of structs and signatures that this crate is written for, as in `include/homvaits.h`. The build takes no
/// library of another number.
pub const LAYOUT: u32 = 1;
