//! An independent implementation of the machine of document 01: cell table,
//! rights table, grant table, one core's registers, eleven instructions, a
//! block write, a read view, and the program `cellrun` that runs a listing.
//!
//! It was written from document 01 alone, so that another implementation can
//! be compared with it. Clarity comes first; still nothing is allocated for an
//! instruction, and the table check goes over every list once, so that it can
//! also serve as a measure of speed.
//!
//! * [`machine`]: tables, registers, the checks and the instructions.
//! * [`listing`]: the text form and the program `cellrun`.
//! * [`answers`]: which answers each kind of call can give.
//! * [`gen`]: seeded tables, calls and listings for comparison.

#![forbid(unsafe_code)]

pub mod answers;
pub mod gen;
pub mod listing;
pub mod machine;

pub use listing::run_listing;
pub use machine::{
    check, execute, execute_checked, view, view_checked, write_block, write_block_checked,
    Registers, Tables,
};
