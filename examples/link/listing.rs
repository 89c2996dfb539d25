// Document 01's worked listing, run through the library from Rust. Prints what the C program prints.
#[repr(C)]
#[derive(Clone, Copy)]
struct Registers {
    current: u32,
    caller: u32,
    place: u32,
}

#[repr(C)]
struct Reply {
    number: u32,
    value: u32,
    registers: Registers,
}

#[link(name = "cells", kind = "static")]
extern "C" {
    fn cells_execute(
        m: usize, first: *const u32, firsts: usize, last: *const u32, lasts: usize, offset: *const u32, offsets: usize,
        marks: *mut u8, marked: usize, rights: *mut u8, righted: usize, grants: *mut u16, granted: usize,
        memory: *mut u8, bytes: usize, registers: Registers, number: u32, x: u32, y: u32, z: u32,
    ) -> Reply;
}

fn main() {
    let (first, last, offset) = ([4096u32, 8192], [4103u32, 8195], [0u32, 8]);
    let (mut marks, mut rights, mut grants, mut memory) = ([1u8, 1], [3u8, 0, 0, 0, 0, 4], [0u16; 6], [0u8; 16]);
    memory[8] = 11;
    let mut core = Registers { current: 0, caller: 0, place: 0 };
    println!("cells\t1");
    let steps = [[1, 4096, 65, 0], [7, 4096, 2, 7], [7, 4096, 1, 3], [3, 8192, 2, 0], [6, 4096, 0, 0]];
    for (k, [number, x, y, z]) in steps.into_iter().enumerate() {
        let reply = unsafe {
            cells_execute(
                3, first.as_ptr(), 2, last.as_ptr(), 2, offset.as_ptr(), 2, marks.as_mut_ptr(), 2, rights.as_mut_ptr(), 6,
                grants.as_mut_ptr(), 6, memory.as_mut_ptr(), 16, core, number, x, y, z,
            )
        };
        core = reply.registers;
        println!("answer\t{}\t{}\t{}", k + 1, reply.number, reply.value);
    }
    println!("core\t{}\t{}\t{}", core.current, core.caller, core.place);
    for (e, held) in rights.iter().enumerate().filter(|(_, held)| **held != 0) {
        println!("right\t{}\t{}\t{}", e / 3, e % 3, held);
    }
    for (e, grant) in grants.iter().enumerate().filter(|(_, grant)| **grant != 0) {
        println!("grant\t{}\t{}\t{}\t{}", e / 3, e % 3, grant % 256, grant / 256);
    }
}
