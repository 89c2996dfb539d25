//! Careful reading of tables that may be spoilt in any way: what is not there reads as nothing.

use crate::machine::{Tables, MOST_DIVISIONS};

/// The rights that a division holds in a cell.
pub(super) fn right(t: &Tables, cell: usize, division: usize) -> u8 {
    entry_in(&t.rights, t.m, cell, division)
}

/// The grant entry of a cell and a granter.
pub(super) fn grant(t: &Tables, cell: usize, division: usize) -> u16 {
    entry_in(&t.grants, t.m, cell, division)
}

/// An entry of the rights or the grant list. A spoilt M may be huge, so that the
/// product wraps round. Which entry is then read does not matter: such tables
/// are refused whatever the call.
fn entry_in<T: Copy + Default>(list: &[T], m: usize, cell: usize, division: usize) -> T {
    let entry = cell.wrapping_mul(m).wrapping_add(division);
    if division < m {
        list.get(entry).copied().unwrap_or_default()
    } else {
        T::default()
    }
}

/// Whether a cell's mark is anything but 0; a spoilt one may be any number.
pub(super) fn valid(t: &Tables, cell: usize) -> bool {
    t.marks.get(cell).map_or(false, |&mark| mark != 0)
}

/// First and last of a cell, put in order if a spoilt cell's are not.
pub(super) fn bounds(t: &Tables, cell: usize) -> (u32, u32) {
    let first = t.first.get(cell).copied().unwrap_or(0);
    let last = t.last.get(cell).copied().unwrap_or(first);
    (first.min(last), first.max(last))
}

/// Divisions worth looking at; a spoilt M may be huge.
pub(super) fn divisions(t: &Tables) -> usize {
    t.m.clamp(1, MOST_DIVISIONS + 1)
}

/// Whether a division other than `d` holds a right in the cell.
pub(super) fn others_hold(t: &Tables, cell: usize, d: usize) -> bool {
    (0..divisions(t)).any(|division| division != d && right(t, cell, division) != 0)
}
