//! Addresses: in a cell, at its edges, outside all cells, or of a word in a cell.

use super::careful::bounds;
use super::wishes::Wish;
use super::words::{entry_address, words_in};
use super::{Random, TOP};
use crate::machine::Tables;

/// An address in a cell, often at its bounds.
pub(super) fn address_in(t: &Tables, cell: usize, random: &mut Random) -> u32 {
    let (first, last) = bounds(t, cell);
    match random.below(8) {
        0 | 1 => first,
        2 | 3 => last,
        4 if last > first => first + 1,
        5 if last > first => last - 1,
        _ => random.between(u64::from(first), u64::from(last)) as u32,
    }
}

/// An address at or just outside a cell's bounds, at either end of all
/// addresses, or anywhere: often one that no cell covers.
pub(super) fn edge_address(t: &Tables, random: &mut Random) -> u32 {
    let n = t.first.len();
    if n == 0 || random.one_in(4) {
        return random.pick(&[0, 1, 3, 4, TOP, TOP - 1, TOP - 3, 1 << 31, 9000]);
    }
    let (first, last) = bounds(t, random.index(n));
    match random.below(5) {
        0 | 1 => first.wrapping_sub(1),
        2 | 3 => last.wrapping_add(1),
        _ => random.number() as u32,
    }
}

/// An address for a fetch or a switch.
pub(super) fn word_address(
    t: &Tables,
    cell: usize,
    number: u32,
    wish: Wish,
    random: &mut Random,
) -> u32 {
    let (first, last) = bounds(t, cell);
    let words = words_in(t, cell);
    if wish == Wish::NotWhole || words.is_none() {
        // Too near the end though a multiple of 4, where there is such an
        // address, or not a multiple of 4.
        let end = last / 4 * 4;
        if random.one_in(2) && end >= first && last - end < 3 {
            return end;
        }
        let address = address_in(t, cell, random);
        return if address % 4 == 0 && address < last { address + 1 } else { address };
    }
    let (low, high) = words.unwrap_or((first, first));
    let drawn = random.between(u64::from(low / 4), u64::from(high / 4)) as u32 * 4;
    if number == 3 && wish == Wish::Accepted {
        if let Some(address) = entry_address(t, cell) {
            return address;
        }
    }
    match random.below(4) {
        0 => low,
        1 => high,
        _ => drawn,
    }
}
