//! Seeded tables, calls and listings, for comparing implementations.
//!
//! Everything here is a function of its seed, so that a difference can be seen
//! again from the seed alone. That holds only while numbers are drawn in the
//! same order: a draw that is added, dropped or moved gives every seed another
//! case.
//!
//! Calls are not drawn evenly: nearly all even draws would be refused with 5 or
//! 6. Instead each call has a wish, the answer it would like to get, and looks
//! for a cell, an address and operands that suit. A wish is only a leaning; what
//! the call is answered is for the machines to say.
//!
//! * `random`: the random numbers that everything is drawn from.
//! * `sound`, with `cells` and `rights`: sound tables.
//! * `spoilt`, with `malformed` and `unsound`: tables and registers that the
//!   checks 1 to 3 refuse.
//! * `calls`, with `instructions` and `parts`: calls that suit a state. For
//!   these, `wishes` says what a call would like to come to, `careful` and
//!   `words` read tables that may be spoilt, and `addresses` and `operands` draw
//!   what the call names.
//! * `listings`: tables and instructions as text.
//! * `damaged`, with `lines` and `fields`: texts with mistakes in them.

mod addresses;
mod calls;
mod careful;
mod cells;
mod damaged;
mod fields;
mod instructions;
mod lines;
mod listings;
mod malformed;
mod operands;
mod parts;
mod random;
mod rights;
mod sound;
mod spoilt;
mod unsound;
mod wishes;
mod words;

pub use calls::{apply, call, Call};
pub use damaged::{damage, damage_so, Damage};
pub use listings::{listing, listing_text};
pub use random::Random;
pub use sound::{tables, tables_from};
pub use spoilt::{spoil, spoil_any, Spoil};

/// The highest number of 32 bits: the highest address, and the operand that is
/// furthest out of every range.
const TOP: u32 = u32::MAX;
