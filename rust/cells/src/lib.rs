//! The proved library's calls, as include/cells.h declares them, behind safe functions. The static library must have been
//! built before: `rt lib` in crates/cells.

/// One core's registers, laid out as include/cells.h has them.
#[repr(C)]
#[derive(Clone, Copy, PartialEq, Eq, Debug)]
pub struct Registers {
    pub current: u32,
    pub caller: u32,
    pub place: u32,
}

/// What a call answers, laid out as include/cells.h has it.
#[repr(C)]
#[derive(Clone, Copy, PartialEq, Eq, Debug)]
pub struct Reply {
    pub number: u32,
    pub value: u32,
    pub registers: Registers,
}

/// The lists that a caller lends. N is the length of `first`, L the length of `memory`.
pub struct Lent<'a> {
    pub m: usize,
    pub first: &'a [u32],
    pub last: &'a [u32],
    pub offset: &'a [u32],
    pub marks: &'a mut [u8],
    pub rights: &'a mut [u8],
    pub grants: &'a mut [u16],
    pub memory: &'a mut [u8],
}

/// Lists of a caller's own, to be lent.
#[derive(Clone, PartialEq, Eq)]
pub struct Tables {
    pub m: usize,
    pub first: Vec<u32>,
    pub last: Vec<u32>,
    pub offset: Vec<u32>,
    pub marks: Vec<u8>,
    pub rights: Vec<u8>,
    pub grants: Vec<u16>,
    pub memory: Vec<u8>,
}

impl Tables {
    pub fn lent(&mut self) -> Lent<'_> {
        Lent {
            m: self.m,
            first: &self.first,
            last: &self.last,
            offset: &self.offset,
            marks: &mut self.marks,
            rights: &mut self.rights,
            grants: &mut self.grants,
            memory: &mut self.memory,
        }
    }
}

/// Where a view's part begins in the memory, and how many bytes it has.
#[repr(C)]
#[derive(Clone, Copy, PartialEq, Eq, Debug)]
pub struct ViewPlace {
    pub number: u32,
    pub value: u32,
    pub start: usize,
    pub count: usize,
}

#[link(name = "cells", kind = "static")]
extern "C" {
    fn cells_execute(
        m: usize,
        first: *const u32, firsts: usize,
        last: *const u32, lasts: usize,
        offset: *const u32, offsets: usize,
        marks: *mut u8, marked: usize,
        rights: *mut u8, righted: usize,
        grants: *mut u16, granted: usize,
        memory: *mut u8, bytes: usize,
        registers: Registers,
        number: u32, x: u32, y: u32, z: u32,
    ) -> Reply;
    fn cells_execute_all(
        m: usize,
        first: *const u32, firsts: usize,
        last: *const u32, lasts: usize,
        offset: *const u32, offsets: usize,
        marks: *mut u8, marked: usize,
        rights: *mut u8, righted: usize,
        grants: *mut u16, granted: usize,
        memory: *mut u8, bytes: usize,
        registers: Registers,
        instructions: *const u32, count: usize,
        numbers: *mut u32, numbered: usize,
        values: *mut u32, valued: usize,
    ) -> Registers;
    fn cells_write_block(
        m: usize,
        first: *const u32, firsts: usize,
        last: *const u32, lasts: usize,
        offset: *const u32, offsets: usize,
        marks: *const u8, marked: usize,
        rights: *const u8, righted: usize,
        grants: *const u16, granted: usize,
        memory: *mut u8, bytes: usize,
        registers: Registers,
        x: u32,
        block: *const u8, length: usize,
    ) -> Reply;
    fn cells_view(
        m: usize,
        first: *const u32, firsts: usize,
        last: *const u32, lasts: usize,
        offset: *const u32, offsets: usize,
        marks: *const u8, marked: usize,
        rights: *const u8, righted: usize,
        grants: *const u16, granted: usize,
        memory: *const u8, bytes: usize,
        registers: Registers,
        x: u32,
        n: usize,
    ) -> ViewPlace;
}

// In every call below each pointer comes with the length of the list that it points to, and a list that is lent by `&mut`
// overlaps no other.

/// One instruction, given as four numbers.
pub fn execute(t: &mut Lent, r: Registers, [number, x, y, z]: [u32; 4]) -> Reply {
    unsafe {
        cells_execute(
            t.m,
            t.first.as_ptr(), t.first.len(), t.last.as_ptr(), t.last.len(), t.offset.as_ptr(), t.offset.len(),
            t.marks.as_mut_ptr(), t.marks.len(), t.rights.as_mut_ptr(), t.rights.len(),
            t.grants.as_mut_ptr(), t.grants.len(), t.memory.as_mut_ptr(), t.memory.len(),
            r, number, x, y, z,
        )
    }
}

/// Instructions in turn, four numbers each, with their answers in two lists.
pub fn execute_all(t: &mut Lent, r: Registers, instructions: &[u32], numbers: &mut [u32], values: &mut [u32]) -> Registers {
    unsafe {
        cells_execute_all(
            t.m,
            t.first.as_ptr(), t.first.len(), t.last.as_ptr(), t.last.len(), t.offset.as_ptr(), t.offset.len(),
            t.marks.as_mut_ptr(), t.marks.len(), t.rights.as_mut_ptr(), t.rights.len(),
            t.grants.as_mut_ptr(), t.grants.len(), t.memory.as_mut_ptr(), t.memory.len(),
            r, instructions.as_ptr(), instructions.len(),
            numbers.as_mut_ptr(), numbers.len(), values.as_mut_ptr(), values.len(),
        )
    }
}

/// The bytes of the memory from the place of `x` on become those of the block.
pub fn write_block(t: &mut Lent, r: Registers, x: u32, block: &[u8]) -> Reply {
    unsafe {
        cells_write_block(
            t.m,
            t.first.as_ptr(), t.first.len(), t.last.as_ptr(), t.last.len(), t.offset.as_ptr(), t.offset.len(),
            t.marks.as_ptr(), t.marks.len(), t.rights.as_ptr(), t.rights.len(),
            t.grants.as_ptr(), t.grants.len(), t.memory.as_mut_ptr(), t.memory.len(),
            r, x, block.as_ptr(), block.len(),
        )
    }
}

/// Where the part of the memory lies that a read view of `n` bytes from `x` on hands back.
pub fn view(t: &Lent, r: Registers, x: u32, n: usize) -> ViewPlace {
    unsafe {
        cells_view(
            t.m,
            t.first.as_ptr(), t.first.len(), t.last.as_ptr(), t.last.len(), t.offset.as_ptr(), t.offset.len(),
            t.marks.as_ptr(), t.marks.len(), t.rights.as_ptr(), t.rights.len(),
            t.grants.as_ptr(), t.grants.len(), t.memory.as_ptr(), t.memory.len(),
            r, x, n,
        )
    }
}
