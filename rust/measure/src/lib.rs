//! Optimised Rust that does what document 01 asks: the yardstick against which the proved library is measured.
//!
//! * [`quick`]: the calls, over lent lists.
//! * [`listing`]: the program `cellrun`, as a function from text to text.

#![forbid(unsafe_code)]

pub mod listing;
pub mod quick;
