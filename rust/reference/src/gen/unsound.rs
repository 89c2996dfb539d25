//! Unsound tables, which check 2 refuses: a fault put into one cell, or memory cut off too soon.

use super::rights::row_of;
use super::{Random, Spoil, TOP};
use crate::machine::{grant_entry, Tables};

/// Puts a fault into a cell drawn at random, if there is one.
pub(super) fn spoil_some_cell(
    t: &mut Tables,
    way: Spoil,
    random: &mut Random,
) -> Option<(u32, u32)> {
    let n = t.first.len();
    if n == 0 {
        return None;
    }
    let cell = random.index(n);
    spoil_cell(t, way, cell, random).map(|lowest| (2, lowest as u32))
}

/// Puts a fault into one cell; the lowest unsound cell afterwards.
fn spoil_cell(t: &mut Tables, way: Spoil, cell: usize, random: &mut Random) -> Option<usize> {
    // Drawn for every way, needed or not.
    let division = random.index(t.m);
    match way {
        Spoil::FirstAboveLast => first_above_last(t, cell, random)?,
        Spoil::PastMemory => {
            let l = t.memory.len() as u32;
            t.offset[cell] = random.pick(&[l - extent(t, cell), l]);
        }
        Spoil::PastMemoryIfWrapped => past_memory_if_wrapped(t, cell, random)?,
        Spoil::PastMemoryByLast => past_memory_by_last(t, cell, random)?,
        Spoil::MemoryShort => {
            let shorter = random.pick(&[end_place(t, cell), t.offset[cell]]);
            return cut_memory(t, shorter);
        }
        Spoil::NoMemory => return cut_memory(t, 0),
        Spoil::Mark => t.marks[cell] = random.between(2, 255) as u8,
        Spoil::RightsEntry => rights_entry_too_large(t, cell, division, random),
        Spoil::TwoHolders => two_holders(t, cell, division, random)?,
        Spoil::AddressOverlap => address_overlap(t, cell, random)?,
        Spoil::PlaceOverlap => place_overlap(t, cell, random)?,
        _ => t.grants[cell * t.m + division] = wrong_grant(t.m, way, division, random)?,
    }
    Some(cell)
}

/// How far a sound cell's last is above its first.
fn extent(t: &Tables, cell: usize) -> u32 {
    t.last[cell] - t.first[cell]
}

/// The place in memory of a sound cell's last byte.
fn end_place(t: &Tables, cell: usize) -> u32 {
    t.offset[cell] + extent(t, cell)
}

/// Either end is moved past the other, where there are addresses past it.
fn first_above_last(t: &mut Tables, cell: usize, random: &mut Random) -> Option<()> {
    let (first, last) = (t.first[cell], t.last[cell]);
    if first > 0 && random.one_in(2) {
        t.last[cell] = random.pick(&[first - 1, 0]);
    } else if last < TOP {
        t.first[cell] = random.pick(&[last + 1, TOP]);
    } else {
        return None;
    }
    Some(())
}

/// In 32 bits offset + last - first would wrap round to a small place.
fn past_memory_if_wrapped(t: &mut Tables, cell: usize, random: &mut Random) -> Option<()> {
    let extent = extent(t, cell);
    if extent == 0 {
        return None;
    }
    t.offset[cell] = 0u32.wrapping_sub(random.between(1, u64::from(extent)) as u32);
    Some(())
}

/// Longer than the memory has room for, by one byte or by very many.
fn past_memory_by_last(t: &mut Tables, cell: usize, random: &mut Random) -> Option<()> {
    let first = t.first[cell];
    let room = t.memory.len() as u32 - t.offset[cell];
    if first > TOP - room {
        return None;
    }
    t.last[cell] = random.pick(&[first + room, TOP]);
    Some(())
}

/// Cuts the memory off before the end of a cell. Ends rise from cell to cell,
/// so the lowest cell whose end is cut off may be another one than the cell
/// chosen.
fn cut_memory(t: &mut Tables, shorter: u32) -> Option<usize> {
    let lowest = (0..t.first.len()).find(|&cell| end_place(t, cell) >= shorter)?;
    t.memory.truncate(shorter as usize);
    Some(lowest)
}

/// With a single holder, so that only the entry's size is at fault.
fn rights_entry_too_large(t: &mut Tables, cell: usize, division: usize, random: &mut Random) {
    let row = row_of(&mut t.rights, cell, t.m);
    row.fill(0);
    row[division] = too_many_rights(random);
}

/// A number above 7, so that it cannot be rights.
fn too_many_rights(random: &mut Random) -> u8 {
    random.pick(&[8, 9, 15, 16, 128, 255])
}

/// A second holder of an invalid cell.
fn two_holders(
    t: &mut Tables,
    cell: usize,
    division: usize,
    random: &mut Random,
) -> Option<()> {
    let m = t.m;
    if m < 2 {
        return None;
    }
    t.marks[cell] = 0;
    let row = row_of(&mut t.rights, cell, m);
    row[division] = random.rights();
    row[random.another(m, division)] = random.rights();
    Some(())
}

/// A grant entry that no granter may have.
fn wrong_grant(m: usize, way: Spoil, granter: usize, random: &mut Random) -> Option<u16> {
    match way {
        Spoil::GrantWithoutRights => {
            let target = if m >= 2 { random.another(m, granter) } else { 1 };
            // The entry 0 would be no grant, and sound.
            Some(if target == 0 { 255 } else { target as u16 })
        }
        Spoil::GrantWithTooManyRights if m >= 2 => {
            let target = random.another(m, granter) as u16;
            Some(target + 256 * u16::from(too_many_rights(random)))
        }
        Spoil::GrantToNoDivision => {
            let m = m as u32;
            let target = random.pick(&[m, m + 1, 32, 33, 255]).max(m);
            Some(grant_entry(target, random.rights()))
        }
        Spoil::GrantToSelf => Some(grant_entry(granter as u32, random.rights())),
        _ => None,
    }
}

/// The cell keeps its length, so that only its address is at fault.
fn address_overlap(t: &mut Tables, cell: usize, random: &mut Random) -> Option<()> {
    let before = t.last[cell.checked_sub(1)?];
    let extent = extent(t, cell);
    t.first[cell] = at_or_below(before, random);
    t.last[cell] = t.first[cell] + extent;
    Some(())
}

/// The cell keeps its addresses, so that only its place is at fault.
fn place_overlap(t: &mut Tables, cell: usize, random: &mut Random) -> Option<()> {
    let end = end_place(t, cell.checked_sub(1)?);
    t.offset[cell] = at_or_below(end, random);
    Some(())
}

/// The end of the cell before, where two cells overlap by one byte only, or any
/// number up to it.
fn at_or_below(end: u32, random: &mut Random) -> u32 {
    let lower = random.below(u64::from(end) + 1) as u32;
    random.pick(&[end, end, lower])
}
