//! Words in cells: which lie whole in a cell, where in memory, and which is an entry word.

use super::careful::bounds;
use crate::machine::{Tables, ENTRY_WORD};

/// Lowest and highest address of a whole word between first and last.
pub(super) fn whole_words(first: u32, last: u32) -> Option<(u32, u32)> {
    let low = (u64::from(first) + 3) / 4 * 4;
    let high = (u64::from(last) + 1) / 4 * 4;
    if low < high {
        Some((low as u32, (high - 4) as u32))
    } else {
        None
    }
}

/// The same for a cell, which may be spoilt.
pub(super) fn words_in(t: &Tables, cell: usize) -> Option<(u32, u32)> {
    let (first, last) = bounds(t, cell);
    whole_words(first, last)
}

/// Whether some word lies whole in the cell.
pub(super) fn has_word(t: &Tables, cell: usize) -> bool {
    words_in(t, cell).is_some()
}

/// The place in memory of an address that a sound cell covers.
pub(super) fn place_of(t: &Tables, cell: usize, address: u32) -> usize {
    (t.offset[cell] + (address - t.first[cell])) as usize
}

/// Writes a word at a place in memory, low byte first.
pub(super) fn put_word(t: &mut Tables, place: usize, word: u32) {
    t.memory[place..place + 4].copy_from_slice(&word.to_le_bytes());
}

/// The byte that a spoilt or sound cell has at an address, if any.
fn byte_at(t: &Tables, cell: usize, address: u32) -> Option<u8> {
    let (first, _) = bounds(t, cell);
    let place = u64::from(*t.offset.get(cell)?) + u64::from(address.checked_sub(first)?);
    t.memory.get(place as usize).copied()
}

/// The word at an address, low byte first, if all its bytes are there.
fn word_at(t: &Tables, cell: usize, address: u32) -> Option<u32> {
    let mut word = 0;
    for i in (0..4).rev() {
        word = word << 8 | u32::from(byte_at(t, cell, address.checked_add(i)?)?);
    }
    Some(word)
}

/// An address of an entry word in a cell, looked for where the memory was
/// filled with them: at the lowest and the highest whole word.
pub(super) fn entry_address(t: &Tables, cell: usize) -> Option<u32> {
    let (low, high) = words_in(t, cell)?;
    [low, high].into_iter().find(|&address| word_at(t, cell, address) == Some(ENTRY_WORD))
}
