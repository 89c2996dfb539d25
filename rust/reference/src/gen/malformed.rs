//! Malformed tables, which check 1 refuses: sizes out of bounds and lists of wrong lengths.

use super::unsound::spoil_some_cell;
use super::{Random, Spoil};
use crate::machine::Tables;

/// The ways that spoil tables for check 1; all others are for a cell.
pub(super) fn spoil_tables(t: &mut Tables, way: Spoil, random: &mut Random) -> Option<(u32, u32)> {
    let m = t.m;
    match way {
        Spoil::NoDivisions => with_divisions(t, 0),
        Spoil::TooManyDivisions => {
            let many = random.pick(&[33, 34, 64, 255, 256, 257]);
            with_divisions(t, many);
        }
        Spoil::HugeDivisions => t.m = random.pick(&[usize::MAX, usize::MAX / 2 + 1, 1 << 31]),
        Spoil::TooManyCells => too_many_cells(t, random),
        Spoil::TooMuchMemory => t.memory.resize(random.pick(&[65_537, 65_540, 70_000]), 0),
        Spoil::FirstLength => wrong_length(&mut t.first, 1, random),
        Spoil::LastLength => wrong_length(&mut t.last, 1, random),
        Spoil::OffsetLength => wrong_length(&mut t.offset, 1, random),
        Spoil::MarksLength => wrong_length(&mut t.marks, 1, random),
        Spoil::RightsLength => wrong_length(&mut t.rights, m, random),
        Spoil::GrantsLength => wrong_length(&mut t.grants, m, random),
        Spoil::DivisionsOtherThanLists => {
            // With no cells the lists are empty and suit any M.
            if t.first.is_empty() {
                return None;
            }
            t.m = if m == 1 || (m < 32 && random.one_in(2)) { m + 1 } else { m - 1 };
        }
        _ => return spoil_some_cell(t, way, random),
    }
    Some((1, 0))
}

/// Another M, with lists of the lengths that belong to it.
fn with_divisions(t: &mut Tables, m: usize) {
    let n = t.first.len();
    t.m = m;
    t.rights = vec![0; n * m];
    t.grants = vec![0; n * m];
}

/// More cells than there may be, sound in everything but their number.
fn too_many_cells(t: &mut Tables, random: &mut Random) {
    let n = random.pick(&[257, 258, 300]);
    t.first = (0..n).collect();
    t.last = (0..n).collect();
    t.offset = (0..n).collect();
    let n = n as usize;
    t.marks = vec![1; n];
    t.rights = vec![1; n * t.m];
    t.grants = vec![0; n * t.m];
    t.memory.resize(t.memory.len().max(n), 0);
}

/// Makes a list one entry or one row longer or shorter, or empty.
fn wrong_length<T: Copy + Default>(list: &mut Vec<T>, row: usize, random: &mut Random) {
    let length = list.len();
    let other = match random.below(5) {
        0 => length + row,
        1 if length >= row => length - row,
        2 if length > 0 => 0,
        3 if length > 0 => length - 1,
        _ => length + 1,
    };
    list.resize(other, T::default());
}
