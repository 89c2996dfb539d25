//! Block writes and read views: where the part of a cell begins and how long it is.

use super::addresses::{address_in, edge_address};
use super::careful::{bounds, right, valid};
use super::wishes::{find, Wish, WISHES};
use super::{Call, Random, TOP};
use crate::machine::{Registers, Tables, MOST_MEMORY, READ, WRITE};

/// A block write with random bytes.
pub(super) fn block_call(t: &Tables, r: &Registers, random: &mut Random) -> Call {
    let (x, cell) = part_address(t, r, WRITE, random);
    let end = to_the_end(t, x, cell);
    // A spoilt cell may be of any length; no block is made longer than this.
    let most = MOST_MEMORY as u64 + 100;
    let length = match random.below(16) {
        drawn @ 0..=10 => edge_length(drawn, end),
        11 => MOST_MEMORY as u64 + 1,
        12 => random.below(600),
        _ => random.below(end.min(1000) + 1),
    };
    let bytes = (0..length.min(most)).map(|_| random.number() as u8).collect();
    Call::WriteBlock { x, bytes }
}

/// A read view. It brings no bytes with it, so its length may be any number.
pub(super) fn view_call(t: &Tables, r: &Registers, random: &mut Random) -> Call {
    let (x, cell) = part_address(t, r, READ, random);
    let end = to_the_end(t, x, cell);
    let wrap = (1u64 << 32) - u64::from(x);
    let length = match random.below(16) {
        drawn @ 0..=10 => edge_length(drawn, end),
        // Lengths that wrap round in 32 or 64 bits when added to the address.
        11 => random.pick(&[wrap, wrap + 1, wrap - 1, 1 << 32, (1 << 32) + 1]),
        12 => random.pick(&[u64::MAX, u64::MAX - u64::from(x), 1 << 63, u64::from(TOP)]),
        _ => random.below(end + 1),
    };
    Call::View { x, n: usize::try_from(length).unwrap_or(usize::MAX) }
}

/// The lengths that blocks and views have in common: no byte, one byte, all
/// bytes to the end of the cell, and one too many. `drawn` is at most 10.
fn edge_length(drawn: u64, end: u64) -> u64 {
    match drawn {
        0..=2 => 0,
        3 | 4 => 1,
        5..=7 => end,
        _ => end + 1,
    }
}

/// Where a block or view begins, and in which cell if that is known. `needed` is
/// the right that it takes.
fn part_address(
    t: &Tables,
    r: &Registers,
    needed: u8,
    random: &mut Random,
) -> (u32, Option<usize>) {
    let wish = random.pick(&WISHES);
    let d = r.current as usize;
    let found = find(t, random, |cell, _| match wish {
        Wish::Validity => !valid(t, cell),
        Wish::RightMissing => valid(t, cell) && right(t, cell, d) & needed == 0,
        Wish::Any => true,
        _ => valid(t, cell) && right(t, cell, d) & needed != 0,
    });
    match found {
        Some((cell, _)) if wish != Wish::NoCell => (address_in(t, cell, random), Some(cell)),
        _ => (edge_address(t, random), None),
    }
}

/// Bytes from an address to the end of its cell.
fn to_the_end(t: &Tables, x: u32, cell: Option<usize>) -> u64 {
    match cell {
        Some(cell) => u64::from(bounds(t, cell).1.saturating_sub(x)) + 1,
        None => 1,
    }
}
