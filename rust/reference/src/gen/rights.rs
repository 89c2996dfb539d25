//! Rights and grants of sound tables: who holds what in a cell, and who has granted it to whom.

use super::Random;
use crate::machine::grant_entry;

/// One cell's rights. The current division holds one in most cells, so that
/// calls get past check 9; an invalid cell has one holder at most.
pub(super) fn fill_rights(row: &mut [u8], mark: u8, current: usize, random: &mut Random) {
    let m = row.len();
    let lone = mark == 0;
    match random.below(8) {
        0 => {}
        1 | 2 => row[current] = random.rights(),
        3 => row[random.index(m)] = random.rights(),
        4 | 5 => {
            row[current] = random.rights();
            if !lone {
                row[random.index(m)] = random.rights();
            }
        }
        6 if !lone => row.iter_mut().for_each(|entry| *entry = random.below(8) as u8),
        7 if !lone => row.fill(7),
        _ => row[random.index(m)] = 7,
    }
}

/// One cell's standing grants, many of them to the current division.
pub(super) fn fill_grants(row: &mut [u16], current: usize, random: &mut Random) {
    let m = row.len();
    if m < 2 {
        return;
    }
    let thinness = random.pick(&[0, 1, 2, 8]);
    if thinness == 0 {
        return;
    }
    for (granter, entry) in row.iter_mut().enumerate() {
        if !random.one_in(thinness) {
            continue;
        }
        let to_current = granter != current && random.one_in(2);
        let target = if to_current { current } else { random.another(m, granter) };
        *entry = grant_entry(target as u32, random.rights());
    }
}

/// A cell's entries in the rights or the grant list, one for each of `m`
/// divisions.
pub(super) fn row_of<T>(list: &mut [T], cell: usize, m: usize) -> &mut [T] {
    &mut list[cell * m..][..m]
}
