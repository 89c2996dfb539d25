//! Cells and memory of sound tables: where the cells lie, and what the bytes are.

use super::words::{place_of, put_word, whole_words};
use super::Random;
use crate::machine::{Tables, ENTRY_WORD};

/// Lays N cells of at least one byte each into addresses and memory. In three
/// tables of four, firsts and lengths are mostly multiples of 4, so that words
/// lie whole in cells. Offsets need not be.
pub(super) fn lay_cells(t: &mut Tables, n: usize, random: &mut Random) {
    if n == 0 {
        return;
    }
    let l = t.memory.len();
    let unit = if l >= 4 * n && !random.one_in(4) { 4 } else { 1 };
    // Memory beyond one unit for each cell.
    let mut left = l - n * unit;
    let mut free_place = 0;
    let gap_style = random.below(3);
    // Addresses count from 0 here and are moved to their base afterwards.
    let mut span = 0u64;
    for cell in 0..n {
        let (gap, more) = gap_and_more(left, n - cell, unit, random);
        left -= gap + more;
        let length = unit + more;
        t.offset.push((free_place + gap) as u32);
        free_place += gap + length;
        span += units_apart(cell, n, gap_style, random) * unit as u64;
        t.first.push(span as u32);
        span += length as u64;
        t.last.push((span - 1) as u32);
    }
    move_to_base(t, span, unit as u64, random);
}

/// Bytes of memory between a cell and the one before, and bytes that the cell
/// has beyond one unit. `cells` counts the cell and those after it.
fn gap_and_more(left: usize, cells: usize, unit: usize, random: &mut Random) -> (usize, usize) {
    let gap = if random.one_in(4) { share(left, cells, random) } else { 0 };
    let left = left - gap;
    let end_of_memory = cells == 1 && random.one_in(2);
    let more = if end_of_memory { left } else { share(left, cells, random) / unit * unit };
    (gap, more)
}

/// Units of addresses between a cell and the one before. The widest add up to
/// less than half of all addresses.
fn units_apart(cell: usize, n: usize, gap_style: u64, random: &mut Random) -> u64 {
    match (cell, gap_style) {
        (0, _) | (_, 0) => 0,
        (_, 1) => random.below(3),
        _ => random.below((1 << 29) / n as u64),
    }
}

/// Moves cells, which take up `span` addresses from 0 on, to where they begin.
fn move_to_base(t: &mut Tables, span: u64, unit: u64, random: &mut Random) {
    let room = (1u64 << 32) - span;
    let base = match random.below(4) {
        0 => 0,
        // The last cell then ends at the highest address.
        1 => room,
        2 => random.below(room + 1) / unit * unit,
        _ => random.below(room.min(65_536) + 1) / unit * unit,
    } as u32;
    for address in t.first.iter_mut().chain(t.last.iter_mut()) {
        *address += base;
    }
}

/// How much of what is left a cell or a gap takes.
fn share(left: usize, cells: usize, random: &mut Random) -> usize {
    match random.below(8) {
        0 => 0,
        1..=3 => random.index(16).min(left),
        4..=6 => random.index(2 * left / cells + 1).min(left),
        _ => random.index(left + 1),
    }
}

/// Memory of zeros, of few values, or of any; with entry words and words that
/// only look like it at the lowest whole words of many cells.
pub(super) fn fill_memory(t: &mut Tables, random: &mut Random) {
    let style = random.below(3);
    for byte in t.memory.iter_mut() {
        *byte = match style {
            0 => 0,
            1 => random.pick(&[0, 0, 11, 1, 255]),
            _ => random.number() as u8,
        };
    }
    for cell in 0..t.first.len() {
        let (low, high) = match whole_words(t.first[cell], t.last[cell]) {
            Some(words) => words,
            None => continue,
        };
        let word = match random.below(8) {
            0..=3 => ENTRY_WORD,
            4 => random.pick(&[10, 12, 0, 11 << 24, 11 + 256, 11 + 65_536, 11 + (1 << 24), 75]),
            _ => continue,
        };
        let address = if random.one_in(3) { high } else { low };
        let place = place_of(t, cell, address);
        put_word(t, place, word);
    }
}
