//! The calls of document 01, written to be quick: every call makes checks 1, 2 and 3 in full over the lent lists, allocates
//! nothing, and looks at the tables in loops without an early way out, which the compiler turns into vector instructions.

use cells::{Lent, Registers, Reply};

/// Bounds on the numbers of divisions, cells and memory bytes.
pub const MOST_DIVISIONS: usize = 32;
pub const MOST_CELLS: usize = 256;
pub const MOST_MEMORY: usize = 65_536;

const READ: u8 = 1;
const WRITE: u8 = 2;
const EXECUTE: u8 = 4;
const ENTRY_WORD: u32 = 11;

/// A number of the refusal list and its value.
pub type Refusal = (u32, u32);

// ---- checks 1 and 2

/// Checks 1 and 2. Tables are nearly always sound, so they are passed as a whole first; only where that fails is the lowest
/// unsound cell looked for.
pub fn check(t: &Lent) -> Result<(), Refusal> {
    if !well_sized(t) {
        return Err((1, 0));
    }
    if all_sound(t) {
        return Ok(());
    }
    Err((2, lowest_unsound(t)))
}

/// The bounds go first: N × M could wrap.
fn well_sized(t: &Lent) -> bool {
    let n = t.first.len();
    (1..=MOST_DIVISIONS).contains(&t.m)
        && n <= MOST_CELLS
        && t.memory.len() <= MOST_MEMORY
        && t.last.len() == n
        && t.offset.len() == n
        && t.marks.len() == n
        && t.rights.len() == n * t.m
        && t.grants.len() == n * t.m
}

fn all_sound(t: &Lent) -> bool {
    ranges_sound(t.first, t.last, t.offset, t.memory.len() as u32)
        && order_sound(t.first, t.last, t.offset)
        && t.marks.iter().fold(0, |all, &mark| all | mark) <= 1
        && t.rights.iter().fold(0, |all, &rights| all | rights) <= 7
        && holders_sound(t.m, t.marks, t.rights)
        && t.grants.chunks_exact(t.m).all(grants_sound)
}

/// Every cell lies within the memory. `l` is at most 65,536: once offset and length are below it, their sum cannot wrap.
fn ranges_sound(first: &[u32], last: &[u32], offset: &[u32], l: u32) -> bool {
    let mut fault = false;
    for ((&first, &last), &offset) in first.iter().zip(last).zip(offset) {
        let length = last.wrapping_sub(first);
        fault |= (first > last) | (length >= l) | (offset >= l) | (offset.wrapping_add(length) >= l);
    }
    !fault
}

/// Every cell but the first lies above the one before. Only asked once the ranges are sound, so that no sum wraps.
fn order_sound(first: &[u32], last: &[u32], offset: &[u32]) -> bool {
    let before = first.iter().zip(last).zip(offset);
    let after = first.iter().zip(offset).skip(1);
    let mut fault = false;
    for (((&first, &last), &offset), (&next, &place)) in before.zip(after) {
        let end = offset.wrapping_add(last.wrapping_sub(first));
        fault |= (next <= last) | (place <= end);
    }
    !fault
}

/// No cell with the mark 0 has two holders.
fn holders_sound(m: usize, marks: &[u8], rights: &[u8]) -> bool {
    if !marks.contains(&0) {
        return true;
    }
    let mut fault = false;
    for (&mark, row) in marks.iter().zip(rights.chunks_exact(m)) {
        fault |= mark == 0 && holders(row) > 1;
    }
    !fault
}

/// How many of at most 32 divisions hold a right. Counted in bytes, so that a vector holds as many counts as it can.
fn holders(row: &[u8]) -> u8 {
    row.iter().fold(0, |count, &rights| count + u8::from(rights != 0))
}

/// One cell's grants: the row has an entry for each division. Targets compare as signed numbers, which vectors do at once.
fn grants_sound(row: &[u16]) -> bool {
    let m = row.len() as i16;
    let mut fault = false;
    for (granter, &entry) in (0i16..).zip(row) {
        let target = (entry & 255) as i16;
        let rights_wrong = entry.wrapping_sub(256) >= 7 * 256;
        fault |= (entry != 0) & (rights_wrong | (target >= m) | (target == granter));
    }
    !fault
}

/// The lowest unsound cell of tables that have one, or N.
fn lowest_unsound(t: &Lent) -> u32 {
    let n = t.first.len();
    (0..n).find(|&cell| !cell_sound(t, cell)).unwrap_or(n) as u32
}

fn cell_sound(t: &Lent, cell: usize) -> bool {
    let rights = &t.rights[cell * t.m..][..t.m];
    let end = |cell: usize| u64::from(t.offset[cell]) + u64::from(t.last[cell]) - u64::from(t.first[cell]);
    t.first[cell] <= t.last[cell]
        && end(cell) < t.memory.len() as u64
        && t.marks[cell] <= 1
        && rights.iter().all(|&entry| entry <= 7)
        && (t.marks[cell] == 1 || holders(rights) <= 1)
        && grants_sound(&t.grants[cell * t.m..][..t.m])
        && (cell == 0 || t.first[cell] > t.last[cell - 1] && u64::from(t.offset[cell]) > end(cell - 1))
}

// ---- the calls

/// Checks 1, 2 and 3, with which every call begins.
fn begin(t: &Lent, r: &Registers) -> Result<(), Refusal> {
    check(t)?;
    divisions_exist(t.m, r).map_err(|number| (number, 0))
}

fn reply(outcome: Result<(u32, Registers), Refusal>, r: Registers) -> Reply {
    match outcome {
        Ok((value, registers)) => Reply { number: 0, value, registers },
        Err((number, value)) => Reply { number, value, registers: r },
    }
}

/// One instruction, given as four numbers.
#[inline(never)]
pub fn execute(t: &mut Lent, r: Registers, instruction: [u32; 4]) -> Reply {
    let outcome = check(t).and_then(|()| perform(t, r, instruction).map_err(|number| (number, 0)));
    reply(outcome, r)
}

/// The same on tables that have passed checks 1 and 2: no accepted instruction makes them unsound.
#[inline]
pub fn execute_sound(t: &mut Lent, r: Registers, instruction: [u32; 4]) -> Reply {
    reply(perform(t, r, instruction).map_err(|number| (number, 0)), r)
}

/// Instructions in turn, on tables that are checked once; the answer of each.
#[inline(never)]
pub fn execute_all(t: &mut Lent, r: Registers, instructions: &[u32], numbers: &mut [u32], values: &mut [u32]) -> Registers {
    let mut registers = r;
    let checked = begin(t, &r);
    let room = numbers.iter_mut().zip(values);
    for (instruction, (number, value)) in instructions.chunks_exact(4).zip(room) {
        (*number, *value) = match checked {
            Err(refusal) => refusal,
            Ok(()) => {
                let [n, x, y, z] = [instruction[0], instruction[1], instruction[2], instruction[3]];
                let answer = execute_sound(t, registers, [n, x, y, z]);
                registers = answer.registers;
                (answer.number, answer.value)
            }
        };
    }
    registers
}

/// The bytes of the memory from the place of `x` on become `block`.
#[inline(never)]
pub fn write_block(t: &mut Lent, r: Registers, x: u32, block: &[u8]) -> Reply {
    let outcome = begin(t, &r).and_then(|()| {
        let place = part(t, &r, x, block.len(), WRITE).map_err(|number| (number, 0))?;
        t.memory[place..][..block.len()].copy_from_slice(block);
        Ok((0, r))
    });
    reply(outcome, r)
}

/// Number, value, and the part of the memory with the `n` bytes from `x` on: an empty part on a refusal.
#[inline(never)]
pub fn view<'a>(t: &'a Lent, r: Registers, x: u32, n: usize) -> (u32, u32, &'a [u8]) {
    let place = begin(t, &r).and_then(|()| part(t, &r, x, n, READ).map_err(|number| (number, 0)));
    match place {
        Ok(place) => (0, 0, &t.memory[place..][..n]),
        Err((number, value)) => (number, value, &[]),
    }
}

// ---- checks from 3 on

/// Check 3.
fn divisions_exist(m: usize, r: &Registers) -> Result<(), u32> {
    if (r.current as usize) < m && (r.caller as usize) < m {
        Ok(())
    } else {
        Err(3)
    }
}

/// Checks 4 and 5.
fn operands(m: u32, d: u32, [number, _, y, z]: [u32; 4]) -> Result<(), u32> {
    let another = y < m && y != d;
    let in_range = match number {
        0 | 2 | 8 | 9 | 10 => y == 0 && z == 0,
        1 => y <= 255 && z == 0,
        3 => y < m && z == 0,
        4 => y <= 7 && z == 0,
        5 | 7 => another && (1..=7).contains(&z),
        6 => another && z == 0,
        _ => return Err(4),
    };
    if in_range { Ok(()) } else { Err(5) }
}

/// Checks 6 and 7. Sound cells rise, so only the last cell that does not begin above the address can cover it.
fn cell_at(t: &Lent, x: u32, mark: u8) -> Result<usize, u32> {
    let begun = t.first.partition_point(|&first| first <= x);
    let cell = begun.checked_sub(1).filter(|&cell| x <= t.last[cell]).ok_or(6u32)?;
    if t.marks[cell] == mark { Ok(cell) } else { Err(7) }
}

/// Check 9.
fn need(needed: u8, held: u8) -> Result<(), u32> {
    if needed & !held == 0 { Ok(()) } else { Err(9) }
}

fn need_any(held: u8) -> Result<(), u32> {
    if held == 0 { Err(9) } else { Ok(()) }
}

/// Checks 6 to 9 for a part of the memory, and where it begins. Nothing is added to the address, so nothing can wrap.
fn part(t: &Lent, r: &Registers, x: u32, length: usize, right: u8) -> Result<usize, u32> {
    let cell = cell_at(t, x, 1)?;
    if length > (t.last[cell] - x) as usize + 1 {
        return Err(8);
    }
    need(right, t.rights[cell * t.m + r.current as usize])?;
    Ok(place(t, cell, x))
}

fn place(t: &Lent, cell: usize, x: u32) -> usize {
    t.offset[cell] as usize + (x - t.first[cell]) as usize
}

/// Check 8 for a word, then check 9 for who fetches it, and the word.
fn word(t: &Lent, cell: usize, x: u32, held: u8) -> Result<u32, u32> {
    if x % 4 != 0 || t.last[cell] - x < 3 {
        return Err(8);
    }
    need(EXECUTE, held)?;
    let bytes = &t.memory[place(t, cell, x)..][..4];
    Ok(u32::from_le_bytes([bytes[0], bytes[1], bytes[2], bytes[3]]))
}

fn another_holds(t: &Lent, cell: usize, held: u8) -> bool {
    holders(&t.rights[cell * t.m..][..t.m]) > u8::from(held != 0)
}

/// Checks from 3 on and then the effect: the value, and the registers afterwards. Nothing is written before the last check.
fn perform(t: &mut Lent, r: Registers, instruction: [u32; 4]) -> Result<(u32, Registers), u32> {
    divisions_exist(t.m, &r)?;
    operands(t.m as u32, r.current, instruction)?;
    let [number, x, y, _] = instruction;
    let cell = cell_at(t, x, u8::from(number != 9))?;
    if number == 3 {
        if word(t, cell, x, t.rights[cell * t.m + y as usize])? != ENTRY_WORD {
            return Err(12);
        }
        return Ok((r.current, Registers { current: y, caller: r.current, place: x }));
    }
    let value = match number {
        0..=2 => on_memory(t, r.current as usize, cell, instruction),
        4..=7 => on_rights(t, r.current as usize, cell, instruction),
        _ => on_mark(t, r.current as usize, cell, number),
    };
    value.map(|value| (value, r))
}

/// Load, store and fetch.
fn on_memory(t: &mut Lent, d: usize, cell: usize, [number, x, y, _]: [u32; 4]) -> Result<u32, u32> {
    let held = t.rights[cell * t.m + d];
    match number {
        0 => {
            need(READ, held)?;
            Ok(u32::from(t.memory[place(t, cell, x)]))
        }
        1 => {
            need(WRITE, held)?;
            let place = place(t, cell, x);
            t.memory[place] = y as u8;
            Ok(0)
        }
        _ => word(t, cell, x, held),
    }
}

/// Protect, grant, receive and transfer.
fn on_rights(t: &mut Lent, d: usize, cell: usize, [number, _, y, z]: [u32; 4]) -> Result<u32, u32> {
    let own = cell * t.m + d;
    let held = t.rights[own];
    let after = match number {
        4 => {
            need(y as u8, held)?;
            if y as u8 == held {
                return Err(13);
            }
            y as u8
        }
        6 => {
            let entry = &mut t.grants[cell * t.m + y as usize];
            if *entry == 0 || usize::from(*entry & 255) != d {
                return Err(10);
            }
            let granted = (*entry >> 8) as u8;
            *entry = 0;
            held | granted
        }
        _ => {
            need(z as u8, held)?;
            t.grants[own] = (y + 256 * z) as u16;
            if number == 7 { 0 } else { held }
        }
    };
    t.rights[own] = after;
    Ok(u32::from(after))
}

/// Invalidate, revalidate and exclusive.
fn on_mark(t: &mut Lent, d: usize, cell: usize, number: u32) -> Result<u32, u32> {
    let held = t.rights[cell * t.m + d];
    need_any(held)?;
    match number {
        8 => {
            if another_holds(t, cell, held) {
                return Err(11);
            }
            t.marks[cell] = 0;
        }
        9 => t.marks[cell] = 1,
        _ => return Ok(u32::from(!another_holds(t, cell, held))),
    }
    Ok(u32::from(held))
}
