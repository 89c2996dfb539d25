//! Full tables: 256 cells, 32 divisions, 65,536 bytes of memory, everything sound. Listings of nearly 65,536 bytes over the
//! same cells. All of it is a function of a seed.

use measure::listing::{put_line, MOST_TEXT};
use cells::{Registers, Tables};
use measure::quick::{MOST_CELLS, MOST_DIVISIONS, MOST_MEMORY};

/// The one cell that is long enough for a block or view of 4 KB; every other has 240 bytes.
pub const LONG_CELL: usize = 128;
pub const BLOCK: usize = 4096;
const SHORT: usize = 240;
/// The first address of cell 0. Cells lie a short gap apart, so that an address can also lie in none.
const BASE: u32 = 1 << 20;
const GAP: u32 = 16;

/// The division that makes the calls.
pub const CURRENT: usize = 7;
pub const REGISTERS: Registers = Registers { current: CURRENT as u32, caller: 3, place: 0 };

/// Splitmix64.
pub struct Random(pub u64);

impl Random {
    pub fn below(&mut self, bound: u32) -> u32 {
        self.0 = self.0.wrapping_add(0x9E37_79B9_7F4A_7C15);
        let mut mixed = self.0;
        mixed = (mixed ^ (mixed >> 30)).wrapping_mul(0xBF58_476D_1CE4_E5B9);
        mixed = (mixed ^ (mixed >> 27)).wrapping_mul(0x94D0_49BB_1331_11EB);
        (((mixed ^ (mixed >> 31)) >> 32) * u64::from(bound) >> 32) as u32
    }

    fn between(&mut self, low: u32, high: u32) -> u32 {
        low + self.below(high - low + 1)
    }

    /// A division that is not `other`.
    fn another(&mut self, other: usize) -> u32 {
        let division = self.below(MOST_DIVISIONS as u32 - 1);
        division + u32::from(division as usize >= other)
    }
}

/// Cells that fill the memory but for 240 bytes at its end, with no right and no grant, over a memory of any bytes.
fn cells_only(random: &mut Random) -> Tables {
    let entries = MOST_CELLS * MOST_DIVISIONS;
    let mut t = Tables {
        m: MOST_DIVISIONS,
        first: Vec::new(),
        last: Vec::new(),
        offset: Vec::new(),
        marks: vec![1; MOST_CELLS],
        rights: vec![0; entries],
        grants: vec![0; entries],
        memory: (0..MOST_MEMORY).map(|_| random.below(256) as u8).collect(),
    };
    let (mut address, mut place) = (BASE, 0);
    for cell in 0..MOST_CELLS {
        let length = if cell == LONG_CELL { BLOCK } else { SHORT } as u32;
        t.first.push(address);
        t.last.push(address + length - 1);
        t.offset.push(place);
        address += length + GAP;
        place += length;
    }
    t
}

/// Full tables: every division holds a right on every valid cell, the current one all of them, and has a grant standing.
/// Every `invalid`th cell is not valid (none where `invalid` is 0), and has the current division for its one holder.
pub fn tables(seed: u64, invalid: usize) -> Tables {
    let random = &mut Random(seed);
    let mut t = cells_only(random);
    for cell in 0..MOST_CELLS {
        let valid = invalid == 0 || cell % invalid != 1;
        t.marks[cell] = u8::from(valid);
        for division in 0..MOST_DIVISIONS {
            let entry = cell * MOST_DIVISIONS + division;
            if division == CURRENT {
                t.rights[entry] = 7;
            } else if valid {
                t.rights[entry] = random.between(1, 7) as u8;
            }
            t.grants[entry] = (random.another(division) + 256 * random.between(1, 7)) as u16;
        }
    }
    t
}

/// An address in each of the cells with this mark, in no order.
pub fn addresses(t: &Tables, mark: u8, seed: u64) -> Vec<u32> {
    let random = &mut Random(seed);
    let cells = (0..MOST_CELLS).filter(|&cell| t.marks[cell] == mark);
    let mut list: Vec<u32> = cells.map(|cell| t.first[cell] + random.below(SHORT as u32)).collect();
    for at in (1..list.len()).rev() {
        list.swap(at, random.below(at as u32 + 1) as usize);
    }
    list
}

/// An instruction that is well formed and mostly accepted on full tables: more loads and stores than anything else.
pub fn instruction(t: &Tables, random: &mut Random) -> [u32; 4] {
    let cell = random.below(MOST_CELLS as u32) as usize;
    let address = t.first[cell] + random.below(SHORT as u32);
    let word = (t.first[cell] + random.below(SHORT as u32)) / 4 * 4;
    let another = random.another(CURRENT);
    match random.below(16) {
        0..=4 => [0, address, 0, 0],
        5..=8 => [1, address, random.below(256), 0],
        9 | 10 => [2, word, 0, 0],
        11 => [5, address, another, random.between(1, 7)],
        12 => [6, address, another, 0],
        13 => [10, address, 0, 0],
        14 => [4, address, random.between(3, 6), 0],
        _ => [8 + random.below(2), address, 0, 0],
    }
}

/// How many lines of each kind a listing has for each cell, and how many `byte` lines in all. `do` lines fill what is left.
pub struct Shape {
    pub rights: usize,
    pub grants: usize,
    pub bytes: usize,
}

/// A listing as long as a listing may be, but for part of a line.
pub fn listing(seed: u64, shape: &Shape) -> Vec<u8> {
    let random = &mut Random(seed);
    let t = cells_only(random);
    let mut out = Vec::new();
    put_line(&mut out, b"cells", &[1]);
    put_line(&mut out, b"size", &[MOST_DIVISIONS as u32, MOST_MEMORY as u32]);
    for cell in 0..MOST_CELLS {
        put_line(&mut out, b"cell", &[t.first[cell], t.last[cell], t.offset[cell], 1]);
    }
    for cell in 0..MOST_CELLS as u32 {
        for at in 0..shape.rights as u32 {
            put_line(&mut out, b"right", &[cell, CURRENT as u32 + at, if at == 0 { 7 } else { random.between(1, 7) }]);
        }
    }
    for cell in 0..MOST_CELLS as u32 {
        for from in 0..shape.grants as u32 {
            put_line(&mut out, b"grant", &[cell, from, CURRENT as u32, random.between(1, 7)]);
        }
    }
    let apart = (MOST_MEMORY / (shape.bytes + 1)) as u32;
    for at in 0..shape.bytes as u32 {
        put_line(&mut out, b"byte", &[at * apart, random.between(1, 255)]);
    }
    put_line(&mut out, b"core", &[REGISTERS.current, REGISTERS.caller, REGISTERS.place]);
    fill_with_steps(&mut out, &t, random);
    out
}

fn fill_with_steps(out: &mut Vec<u8>, t: &Tables, random: &mut Random) {
    loop {
        let end = out.len();
        put_line(out, b"do", &instruction(t, random));
        if out.len() > MOST_TEXT {
            out.truncate(end);
            return;
        }
    }
}
