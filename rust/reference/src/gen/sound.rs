//! Sound tables, with registers in range: the states from which all others are made.

use super::cells::{fill_memory, lay_cells};
use super::rights::{fill_grants, fill_rights, row_of};
use super::Random;
use crate::machine::{Registers, Tables, MOST_CELLS, MOST_DIVISIONS, MOST_MEMORY};

/// Sound tables and registers in range, of varied sizes.
pub fn tables(seed: u64) -> (Tables, Registers) {
    tables_from(&mut Random::new(seed))
}

/// The same, going on with a sequence.
pub fn tables_from(random: &mut Random) -> (Tables, Registers) {
    let (m, n, l) = sizes(random);
    let mut t = Tables {
        m,
        first: Vec::with_capacity(n),
        last: Vec::with_capacity(n),
        offset: Vec::with_capacity(n),
        marks: vec![1; n],
        rights: vec![0; n * m],
        grants: vec![0; n * m],
        memory: vec![0; l],
    };
    let current = random.index(m);
    let r = Registers {
        current: current as u32,
        caller: random.index(m) as u32,
        place: random.number() as u32,
    };
    lay_cells(&mut t, n, random);
    fill_memory(&mut t, random);
    for cell in 0..n {
        if random.one_in(4) {
            t.marks[cell] = 0;
        }
        let mark = t.marks[cell];
        fill_rights(row_of(&mut t.rights, cell, m), mark, current, random);
        fill_grants(row_of(&mut t.grants, cell, m), current, random);
    }
    (t, r)
}

/// M, N and L with L at least N, so that every cell finds room. Mostly small,
/// now and then everything at its bound.
fn sizes(random: &mut Random) -> (usize, usize, usize) {
    let any_m = random.between(1, MOST_DIVISIONS as u64) as usize;
    match random.below(64) {
        0 => (MOST_DIVISIONS, MOST_CELLS, MOST_MEMORY),
        1 => (any_m, 0, random.index(MOST_MEMORY + 1)),
        2 => (any_m, 0, 0),
        3 => (any_m, 1, MOST_MEMORY),
        4 => (1, random.index(5), 64),
        5 => (any_m, MOST_CELLS, MOST_CELLS),
        6..=12 => {
            let n = random.index(MOST_CELLS + 1);
            (any_m, n, random.between(n as u64, MOST_MEMORY as u64) as usize)
        }
        _ => {
            let n = random.between(1, 8) as usize;
            let m = random.between(1, 6) as usize;
            (m, n, n + random.index(32 * n))
        }
    }
}
