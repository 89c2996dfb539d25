//! The machine of document 01.
//!
//! Every public function that takes tables first makes checks 1 and 2. The
//! functions ending in `_checked` leave these two out, for a caller that has
//! already had `(0, 0)` from [`check`] and has altered the tables only through
//! this module since. That is enough, because no accepted call makes sound
//! tables unsound: cells are never moved, rights stay within 7, a grant entry
//! is only written from operands that have passed check 5, and a cell only
//! becomes invalid when nobody else holds a right on it, while on an invalid
//! cell rights cannot change (protect, receive and transfer refuse with 7).

/// Bounds on the numbers of divisions, cells and memory bytes.
pub const MOST_DIVISIONS: usize = 32;
pub const MOST_CELLS: usize = 256;
pub const MOST_MEMORY: usize = 65_536;

/// The three rights, to be added; 7 is all of them.
pub const READ: u8 = 1;
pub const WRITE: u8 = 2;
pub const EXECUTE: u8 = 4;
pub const ALL_RIGHTS: u8 = 7;

/// The word that must stand where a switch goes.
pub const ENTRY_WORD: u32 = 11;

/// The refusal list, in the order in which the checks are made. 0 is acceptance.
pub mod refusal {
    pub const ACCEPTED: u32 = 0;
    pub const BOUNDS: u32 = 1;
    pub const UNSOUND: u32 = 2;
    pub const REGISTERS: u32 = 3;
    pub const INSTRUCTION: u32 = 4;
    pub const OPERAND: u32 = 5;
    pub const NO_CELL: u32 = 6;
    pub const VALIDITY: u32 = 7;
    pub const NOT_WHOLE: u32 = 8;
    pub const RIGHT_MISSING: u32 = 9;
    pub const NO_GRANT: u32 = 10;
    pub const ANOTHER_HOLDS: u32 = 11;
    pub const NOT_ENTRY: u32 = 12;
    pub const SAME_RIGHTS: u32 = 13;
    /// Only the program `cellrun` gives this one.
    pub const LISTING: u32 = 14;
}

use refusal::*;

/// One core's registers. Only an accepted switch alters them.
#[derive(Clone, Copy, PartialEq, Eq, Debug)]
pub struct Registers {
    pub current: u32,
    pub caller: u32,
    /// Any number; it is never checked.
    pub place: u32,
}

/// The lent lists. N is the length of `first`, L the length of `memory`.
#[derive(Clone, PartialEq, Eq, Debug)]
pub struct Tables {
    pub m: usize,
    pub first: Vec<u32>,
    pub last: Vec<u32>,
    pub offset: Vec<u32>,
    /// 1 valid, 0 not.
    pub marks: Vec<u8>,
    /// Entry cell × M + division.
    pub rights: Vec<u8>,
    /// Entry cell × M + granter: 0 for none, else target + 256 × rights.
    pub grants: Vec<u16>,
    pub memory: Vec<u8>,
}

impl Tables {
    /// Where a cell's entry for a division stands in the rights and grant lists.
    fn entry(&self, cell: usize, division: usize) -> usize {
        cell * self.m + division
    }

    /// A cell's rights entries, one for each division.
    fn rights_row(&self, cell: usize) -> &[u8] {
        &self.rights[cell * self.m..][..self.m]
    }

    /// The place in memory of a byte whose address the cell covers.
    fn place(&self, cell: usize, address: u32) -> usize {
        self.offset[cell] as usize + (address - self.first[cell]) as usize
    }

    /// The word at an address, low byte first; the cell must hold it whole.
    fn word(&self, cell: usize, address: u32) -> u32 {
        let place = self.place(cell, address);
        let bytes = &self.memory[place..place + 4];
        u32::from_le_bytes([bytes[0], bytes[1], bytes[2], bytes[3]])
    }
}

/// A grant entry for a target and rights.
pub fn grant_entry(target: u32, rights: u8) -> u16 {
    target as u16 + 256 * u16::from(rights)
}

/// Target and rights of a grant entry, nothing for the entry 0. The entry 0
/// must be told apart first: taken to pieces it would name division 0.
pub fn grant_parts(entry: u16) -> Option<(u32, u8)> {
    if entry == 0 {
        None
    } else {
        Some((u32::from(entry & 255), (entry >> 8) as u8))
    }
}

// ---------------------------------------------------------------------------
// Checks 1 and 2

/// Checks 1 and 2: `(0, 0)` for sound tables, `(1, 0)` for bounds or lengths,
/// `(2, cell)` with the lowest unsound cell.
pub fn check(t: &Tables) -> (u32, u32) {
    if !lengths_right(t) {
        return (BOUNDS, 0);
    }
    match lowest_unsound_cell(t) {
        Some(cell) => (UNSOUND, cell),
        None => (ACCEPTED, 0),
    }
}

/// Check 1. M and N are bounded before they are multiplied, so that the
/// product cannot overflow whatever M the caller passes.
fn lengths_right(t: &Tables) -> bool {
    let n = t.first.len();
    (1..=MOST_DIVISIONS).contains(&t.m)
        && n <= MOST_CELLS
        && t.memory.len() <= MOST_MEMORY
        && t.last.len() == n
        && t.offset.len() == n
        && t.marks.len() == n
        && t.rights.len() == n * t.m
        && t.grants.len() == n * t.m
}

/// Check 2, one pass over all lists. A cell's soundness speaks of itself and
/// of the cell before, so the pass stops at the lowest unsound cell, and every
/// cell before the one looked at is sound.
fn lowest_unsound_cell(t: &Tables) -> Option<u32> {
    let l = t.memory.len() as u64;
    // The lowest address and the lowest place in memory that the next cell may
    // begin at. 0 puts no demand on cell 0. Both can pass 32 bits.
    let mut free_address = 0u64;
    let mut free_place = 0u64;
    let rows = t.rights.chunks_exact(t.m).zip(t.grants.chunks_exact(t.m));
    for (cell, (rights, grants)) in rows.enumerate() {
        let first = u64::from(t.first[cell]);
        let last = u64::from(t.last[cell]);
        let offset = u64::from(t.offset[cell]);
        let mark = t.marks[cell];
        if first > last {
            return Some(cell as u32);
        }
        let end = offset + (last - first);
        let sound = end < l
            && mark <= 1
            && first >= free_address
            && offset >= free_place
            && rights_row_sound(rights, mark)
            && grants_row_sound(grants);
        if !sound {
            return Some(cell as u32);
        }
        free_address = last + 1;
        free_place = end + 1;
    }
    None
}

/// Each entry at most 7, and at most one holder if the mark is 0. No entry is
/// above 7 exactly if all of them laid together are not.
fn rights_row_sound(row: &[u8], mark: u8) -> bool {
    let mut together = 0u8;
    let mut holders = 0u8;
    for &entry in row {
        together |= entry;
        holders += u8::from(entry != 0);
    }
    together <= ALL_RIGHTS && (mark != 0 || holders <= 1)
}

/// Each entry is 0, or has rights 1 to 7 and a target below M that is not the
/// granter. Faults are gathered without leaving the loop early, which lets the
/// whole row be looked at several entries at a time.
fn grants_row_sound(row: &[u16]) -> bool {
    let m = row.len() as u16;
    let mut faults = false;
    for (granter, &entry) in (0u16..).zip(row) {
        let target = entry & 255;
        let rights = entry >> 8;
        let proper = (rights >= 1) & (rights <= 7) & (target < m) & (target != granter);
        faults |= (entry != 0) & !proper;
    }
    !faults
}

// ---------------------------------------------------------------------------
// Instructions

/// A well-formed instruction: check 5 has passed for its operands.
#[derive(Clone, Copy, PartialEq, Eq, Debug)]
pub enum Instruction {
    Load { address: u32 },
    Store { address: u32, byte: u8 },
    Fetch { address: u32 },
    Switch { address: u32, division: u32 },
    Protect { address: u32, rights: u8 },
    Grant { address: u32, division: u32, rights: u8 },
    Receive { address: u32, division: u32 },
    Transfer { address: u32, division: u32, rights: u8 },
    Invalidate { address: u32 },
    Revalidate { address: u32 },
    Exclusive { address: u32 },
}

/// Checks 4 and 5 for current division `d` below M: the four numbers become
/// one of eleven kinds. Own division is allowed in a switch only.
pub fn decode(m: usize, d: u32, number: u32, x: u32, y: u32, z: u32) -> Result<Instruction, u32> {
    let address = x;
    let exists = (y as usize) < m;
    let another = exists && y != d;
    let instruction = match (number, y, z) {
        (0, 0, 0) => Instruction::Load { address },
        (1, 0..=255, 0) => Instruction::Store { address, byte: y as u8 },
        (2, 0, 0) => Instruction::Fetch { address },
        (3, _, 0) if exists => Instruction::Switch { address, division: y },
        (4, 0..=7, 0) => Instruction::Protect { address, rights: y as u8 },
        (5, _, 1..=7) if another => Instruction::Grant { address, division: y, rights: z as u8 },
        (6, _, 0) if another => Instruction::Receive { address, division: y },
        (7, _, 1..=7) if another => Instruction::Transfer { address, division: y, rights: z as u8 },
        (8, 0, 0) => Instruction::Invalidate { address },
        (9, 0, 0) => Instruction::Revalidate { address },
        (10, 0, 0) => Instruction::Exclusive { address },
        (0..=10, _, _) => return Err(OPERAND),
        _ => return Err(INSTRUCTION),
    };
    Ok(instruction)
}

/// One instruction with all checks: the answer's number and value. A refusal
/// changes nothing.
pub fn execute(
    t: &mut Tables,
    r: &mut Registers,
    number: u32,
    x: u32,
    y: u32,
    z: u32,
) -> (u32, u32) {
    let found = check(t);
    if found.0 != ACCEPTED {
        return found;
    }
    execute_checked(t, r, number, x, y, z)
}

/// One instruction on tables that have passed checks 1 and 2; the checks from
/// 3 on are made.
pub fn execute_checked(
    t: &mut Tables,
    r: &mut Registers,
    number: u32,
    x: u32,
    y: u32,
    z: u32,
) -> (u32, u32) {
    let outcome = divisions_exist(t, r)
        .and_then(|()| decode(t.m, r.current, number, x, y, z))
        .and_then(|instruction| perform(t, r, instruction));
    answer(outcome)
}

/// Checks from 6 on, then the effect; the answer's value. In the function of
/// every kind nothing is written before the last check has passed.
fn perform(t: &mut Tables, r: &mut Registers, instruction: Instruction) -> Result<u32, u32> {
    let d = r.current as usize;
    match instruction {
        Instruction::Load { address } => load(t, d, address),
        Instruction::Store { address, byte } => store(t, d, address, byte),
        Instruction::Fetch { address } => fetch(t, d, address),
        Instruction::Switch { address, division } => switch(t, r, address, division),
        Instruction::Protect { address, rights } => protect(t, d, address, rights),
        Instruction::Grant { address, division, rights } => grant(t, d, address, division, rights),
        Instruction::Receive { address, division } => receive(t, d, address, division),
        Instruction::Transfer { address, division, rights } => {
            transfer(t, d, address, division, rights)
        }
        Instruction::Invalidate { address } => invalidate(t, d, address),
        Instruction::Revalidate { address } => revalidate(t, d, address),
        Instruction::Exclusive { address } => exclusive(t, d, address),
    }
}

fn load(t: &Tables, d: usize, address: u32) -> Result<u32, u32> {
    let cell = valid_cell(t, address)?;
    need(t.rights[t.entry(cell, d)], READ)?;
    Ok(u32::from(t.memory[t.place(cell, address)]))
}

fn store(t: &mut Tables, d: usize, address: u32, byte: u8) -> Result<u32, u32> {
    let cell = valid_cell(t, address)?;
    need(t.rights[t.entry(cell, d)], WRITE)?;
    let place = t.place(cell, address);
    t.memory[place] = byte;
    Ok(0)
}

fn fetch(t: &Tables, d: usize, address: u32) -> Result<u32, u32> {
    let cell = valid_cell(t, address)?;
    whole_word(t, cell, address)?;
    need(t.rights[t.entry(cell, d)], EXECUTE)?;
    Ok(t.word(cell, address))
}

fn switch(t: &Tables, r: &mut Registers, address: u32, division: u32) -> Result<u32, u32> {
    let cell = valid_cell(t, address)?;
    whole_word(t, cell, address)?;
    // The target's right counts here, not the switcher's.
    need(t.rights[t.entry(cell, division as usize)], EXECUTE)?;
    if t.word(cell, address) != ENTRY_WORD {
        return Err(NOT_ENTRY);
    }
    let before = r.current;
    *r = Registers { current: division, caller: before, place: address };
    Ok(before)
}

fn protect(t: &mut Tables, d: usize, address: u32, rights: u8) -> Result<u32, u32> {
    let cell = valid_cell(t, address)?;
    let own = t.entry(cell, d);
    need(t.rights[own], rights)?;
    if t.rights[own] == rights {
        return Err(SAME_RIGHTS);
    }
    t.rights[own] = rights;
    Ok(u32::from(rights))
}

fn grant(t: &mut Tables, d: usize, address: u32, division: u32, rights: u8) -> Result<u32, u32> {
    let own = make_grant(t, d, address, division, rights)?;
    Ok(u32::from(t.rights[own]))
}

/// As grant, then the rights go. They must stay until every check has passed,
/// and a grant that has been made has passed them all.
fn transfer(t: &mut Tables, d: usize, address: u32, division: u32, rights: u8) -> Result<u32, u32> {
    let own = make_grant(t, d, address, division, rights)?;
    t.rights[own] = 0;
    Ok(0)
}

/// What grant and transfer have in common; the granter's entry.
fn make_grant(
    t: &mut Tables,
    d: usize,
    address: u32,
    division: u32,
    rights: u8,
) -> Result<usize, u32> {
    let cell = valid_cell(t, address)?;
    let own = t.entry(cell, d);
    need(t.rights[own], rights)?;
    t.grants[own] = grant_entry(division, rights);
    Ok(own)
}

fn receive(t: &mut Tables, d: usize, address: u32, division: u32) -> Result<u32, u32> {
    let cell = valid_cell(t, address)?;
    let source = t.entry(cell, division as usize);
    match grant_parts(t.grants[source]) {
        Some((target, rights)) if target as usize == d => {
            let own = t.entry(cell, d);
            t.rights[own] |= rights;
            t.grants[source] = 0;
            Ok(u32::from(t.rights[own]))
        }
        _ => Err(NO_GRANT),
    }
}

fn invalidate(t: &mut Tables, d: usize, address: u32) -> Result<u32, u32> {
    let cell = valid_cell(t, address)?;
    let held = t.rights[t.entry(cell, d)];
    need_any(held)?;
    if another_holds(t, cell, d) {
        return Err(ANOTHER_HOLDS);
    }
    t.marks[cell] = 0;
    Ok(u32::from(held))
}

fn revalidate(t: &mut Tables, d: usize, address: u32) -> Result<u32, u32> {
    // Here check 7 is the other way round, so `valid_cell` is of no use.
    let cell = covering_cell(t, address)?;
    if t.marks[cell] != 0 {
        return Err(VALIDITY);
    }
    let held = t.rights[t.entry(cell, d)];
    need_any(held)?;
    t.marks[cell] = 1;
    Ok(u32::from(held))
}

fn exclusive(t: &Tables, d: usize, address: u32) -> Result<u32, u32> {
    let cell = valid_cell(t, address)?;
    need_any(t.rights[t.entry(cell, d)])?;
    Ok(u32::from(!another_holds(t, cell, d)))
}

// ---------------------------------------------------------------------------
// Block write and read view

/// Block write with all checks.
pub fn write_block(t: &mut Tables, r: &Registers, x: u32, bytes: &[u8]) -> (u32, u32) {
    let found = check(t);
    if found.0 != ACCEPTED {
        return found;
    }
    write_block_checked(t, r, x, bytes)
}

/// Block write on tables that have passed checks 1 and 2.
pub fn write_block_checked(t: &mut Tables, r: &Registers, x: u32, bytes: &[u8]) -> (u32, u32) {
    let outcome = part(t, r, x, bytes.len(), WRITE).map(|place| {
        fill(&mut t.memory[place..place + bytes.len()], bytes);
        0
    });
    answer(outcome)
}

/// Fills the lent part of the memory; bytes outside it are out of reach here.
fn fill(part: &mut [u8], bytes: &[u8]) {
    part.copy_from_slice(bytes);
}

/// Read view with all checks: number, value, and the part of the memory itself,
/// an empty part on a refusal.
pub fn view<'a>(t: &'a Tables, r: &Registers, x: u32, n: usize) -> (u32, u32, &'a [u8]) {
    let found = check(t);
    if found.0 != ACCEPTED {
        return (found.0, found.1, &[]);
    }
    view_checked(t, r, x, n)
}

/// Read view on tables that have passed checks 1 and 2.
pub fn view_checked<'a>(t: &'a Tables, r: &Registers, x: u32, n: usize) -> (u32, u32, &'a [u8]) {
    match part(t, r, x, n, READ) {
        Ok(place) => (ACCEPTED, 0, &t.memory[place..place + n]),
        Err(number) => (number, 0, &[]),
    }
}

/// Checks 3, 6, 7, 8 and 9 for a part of the memory; where the part begins.
/// Nothing is added to the address, so a long length cannot wrap round. A part
/// of no bytes cannot run past last. There is no demand on alignment.
fn part(t: &Tables, r: &Registers, x: u32, length: usize, right: u8) -> Result<usize, u32> {
    divisions_exist(t, r)?;
    let cell = valid_cell(t, x)?;
    let after = u64::from(t.last[cell] - x);
    if length > 0 && length as u64 - 1 > after {
        return Err(NOT_WHOLE);
    }
    need(t.rights[t.entry(cell, r.current as usize)], right)?;
    Ok(t.place(cell, x))
}

// ---------------------------------------------------------------------------
// Single checks

/// An outcome as number and value; from check 3 on a refusal's value is 0.
fn answer(outcome: Result<u32, u32>) -> (u32, u32) {
    match outcome {
        Ok(value) => (ACCEPTED, value),
        Err(number) => (number, 0),
    }
}

/// Check 3.
fn divisions_exist(t: &Tables, r: &Registers) -> Result<(), u32> {
    let below = |division: u32| (division as usize) < t.m;
    if below(r.current) && below(r.caller) {
        Ok(())
    } else {
        Err(REGISTERS)
    }
}

/// Check 6. Sound cells lie in rising address order, so the only cell that can
/// cover the address is the last one that does not begin above it.
fn covering_cell(t: &Tables, address: u32) -> Result<usize, u32> {
    let begun = t.first.partition_point(|&first| first <= address);
    match begun.checked_sub(1) {
        Some(cell) if address <= t.last[cell] => Ok(cell),
        _ => Err(NO_CELL),
    }
}

/// Checks 6 and 7 for all but revalidate.
fn valid_cell(t: &Tables, address: u32) -> Result<usize, u32> {
    let cell = covering_cell(t, address)?;
    if t.marks[cell] == 0 {
        return Err(VALIDITY);
    }
    Ok(cell)
}

/// Check 8 for a word. `last - address` cannot wrap: the cell covers the address.
fn whole_word(t: &Tables, cell: usize, address: u32) -> Result<(), u32> {
    if address % 4 != 0 || t.last[cell] - address < 3 {
        return Err(NOT_WHOLE);
    }
    Ok(())
}

/// Check 9: every needed right is held.
fn need(held: u8, needed: u8) -> Result<(), u32> {
    if needed & !held != 0 {
        return Err(RIGHT_MISSING);
    }
    Ok(())
}

/// Check 9 where any right will do.
fn need_any(held: u8) -> Result<(), u32> {
    if held == 0 {
        return Err(RIGHT_MISSING);
    }
    Ok(())
}

/// Whether a division other than `d` holds a right on the cell. Standing grants
/// do not count.
fn another_holds(t: &Tables, cell: usize, d: usize) -> bool {
    let row = t.rights_row(cell);
    let holders = row.iter().filter(|&&held| held != 0).count();
    holders > usize::from(row[d] != 0)
}
