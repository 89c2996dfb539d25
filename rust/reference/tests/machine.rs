//! Document 01's bench cases, every kind of unsound or malformed tables, and
//! the rules of the single instructions.

use reference::machine::grant_entry;
use reference::{
    check, execute, execute_checked, view, view_checked, write_block, write_block_checked,
    Registers, Tables,
};

const TOP: u32 = u32::MAX;

/// The worked listing before its `do` lines.
fn bench() -> (Tables, Registers) {
    let mut memory = vec![0; 16];
    memory[8] = 11;
    let t = Tables {
        m: 3,
        first: vec![4096, 8192],
        last: vec![4103, 8195],
        offset: vec![0, 8],
        marks: vec![1, 1],
        rights: vec![3, 0, 0, 0, 0, 4],
        grants: vec![0; 6],
        memory,
    };
    (t, Registers { current: 0, caller: 0, place: 0 })
}

/// Makes one call that must be refused and sees that nothing has changed.
fn refused(t: &mut Tables, r: &mut Registers, call: [u32; 4], number: u32) {
    let (t_before, r_before) = (t.clone(), *r);
    assert_eq!(execute(t, r, call[0], call[1], call[2], call[3]), (number, 0), "{call:?}");
    assert_eq!((&*t, *r), (&t_before, r_before), "{call:?}");
}

/// The same from the bench state.
fn bench_refused(call: [u32; 4], number: u32) {
    let (mut t, mut r) = bench();
    refused(&mut t, &mut r, call, number);
}

// ---------------------------------------------------------------------------
// Bench cases

#[test]
fn bench_load() {
    let (mut t, mut r) = bench();
    assert_eq!(execute(&mut t, &mut r, 0, 4096, 0, 0), (0, 0));
    assert_eq!(execute(&mut t, &mut r, 0, 4103, 0, 0), (0, 0));
    assert_eq!((t, r), bench());
    bench_refused([0, 4104, 0, 0], 6);
    bench_refused([0, 8192, 0, 0], 9);
    bench_refused([0, 4096, 1, 0], 5);
    bench_refused([0, 9000, 1, 0], 5);
}

#[test]
fn bench_store() {
    bench_refused([1, 4096, 256, 0], 5);
}

#[test]
fn bench_switch() {
    let (mut t, mut r) = bench();
    assert_eq!(execute(&mut t, &mut r, 3, 8192, 2, 0), (0, 0));
    assert_eq!(r, Registers { current: 2, caller: 0, place: 8192 });
    assert_eq!(t, bench().0);
    bench_refused([3, 8193, 2, 0], 8);
    bench_refused([3, 8192, 1, 0], 9);
    let (mut t, mut r) = bench();
    t.memory[8] = 10;
    refused(&mut t, &mut r, [3, 8192, 2, 0], 12);
}

#[test]
fn bench_protect() {
    let (mut t, mut r) = bench();
    assert_eq!(execute(&mut t, &mut r, 4, 4096, 1, 0), (0, 1));
    let (mut expected, _) = bench();
    expected.rights[0] = 1;
    assert_eq!(t, expected);
    bench_refused([4, 4096, 3, 0], 13);
    bench_refused([4, 4096, 4, 0], 9);
    bench_refused([4, 4096, 8, 0], 5);
}

#[test]
fn bench_transfer_receive_fetch() {
    bench_refused([7, 4096, 2, 7], 9);
    let (mut t, mut r) = bench();
    r.current = 1;
    refused(&mut t, &mut r, [6, 4096, 0, 0], 10);
    r.current = 2;
    assert_eq!(execute(&mut t, &mut r, 2, 8192, 0, 0), (0, 11));
}

#[test]
fn bench_invalidate() {
    let (mut t, mut r) = bench();
    assert_eq!(execute(&mut t, &mut r, 8, 4096, 0, 0), (0, 3));
    assert_eq!(t.marks, [0, 1]);
    refused(&mut t, &mut r, [0, 4096, 0, 0], 7);
    assert_eq!(execute(&mut t, &mut r, 9, 4096, 0, 0), (0, 3));
    assert_eq!((t, r), bench());
    let (mut t, mut r) = bench();
    t.rights[1] = 1;
    refused(&mut t, &mut r, [8, 4096, 0, 0], 11);
}

#[test]
fn bench_number() {
    bench_refused([11, 4096, 0, 0], 4);
    let (mut t, mut r) = bench();
    r.current = 3;
    refused(&mut t, &mut r, [11, 4096, 0, 0], 3);
}

// ---------------------------------------------------------------------------
// Check 1

/// Alters the bench tables; every call must then be refused with 1.
fn out_of_bounds(alter: &dyn Fn(&mut Tables)) {
    let (mut t, mut r) = bench();
    alter(&mut t);
    let (t_before, r_before) = (t.clone(), r);
    assert_eq!(check(&t), (1, 0));
    for number in [0, 3, 10, 11, TOP] {
        assert_eq!(execute(&mut t, &mut r, number, 4096, 0, 0), (1, 0));
    }
    assert_eq!(write_block(&mut t, &r, 4096, &[1]), (1, 0));
    assert_eq!(view(&t, &r, 4096, 1), (1, 0, &[][..]));
    assert_eq!((t, r), (t_before, r_before));
}

#[test]
fn divisions_out_of_bounds() {
    out_of_bounds(&|t| t.m = 0);
    out_of_bounds(&|t| {
        t.m = 0;
        t.rights.clear();
        t.grants.clear();
    });
    out_of_bounds(&|t| {
        t.m = 33;
        t.rights = vec![0; 66];
        t.grants = vec![0; 66];
    });
    out_of_bounds(&|t| t.m = usize::MAX);
    out_of_bounds(&|t| t.m = usize::MAX / 2 + 1);
    out_of_bounds(&|t| t.m = 2);
    out_of_bounds(&|t| t.m = 4);
    // Unsound as well: 1 comes first.
    out_of_bounds(&|t| {
        t.marks[0] = 9;
        t.m = 4;
    });
}

#[test]
fn cells_and_memory_out_of_bounds() {
    out_of_bounds(&|t| t.memory = vec![0; 65_537]);
    out_of_bounds(&|t| {
        // 257 cells, sound otherwise.
        t.first = (0..257).collect();
        t.last = (0..257).collect();
        t.offset = (0..257).collect();
        t.marks = vec![1; 257];
        t.rights = vec![0; 257 * 3];
        t.grants = vec![0; 257 * 3];
        t.memory = vec![0; 300];
    });
}

#[test]
fn lists_too_short() {
    out_of_bounds(&|t| t.first.truncate(1));
    out_of_bounds(&|t| t.last.truncate(1));
    out_of_bounds(&|t| t.offset.truncate(1));
    out_of_bounds(&|t| t.marks.truncate(1));
    out_of_bounds(&|t| t.rights.truncate(5));
    out_of_bounds(&|t| t.grants.truncate(5));
}

#[test]
fn lists_too_long() {
    out_of_bounds(&|t| t.first.push(9000));
    out_of_bounds(&|t| t.last.push(9000));
    out_of_bounds(&|t| t.offset.push(12));
    out_of_bounds(&|t| t.marks.push(1));
    out_of_bounds(&|t| t.rights.extend([0; 3]));
    out_of_bounds(&|t| t.grants.extend([0; 3]));
}

#[test]
fn lower_bounds_hold() {
    let mut t = Tables {
        m: 1,
        first: vec![],
        last: vec![],
        offset: vec![],
        marks: vec![],
        rights: vec![],
        grants: vec![],
        memory: vec![],
    };
    let mut r = Registers { current: 0, caller: 0, place: TOP };
    assert_eq!(check(&t), (0, 0));
    refused(&mut t, &mut r, [0, 0, 0, 0], 6);
    assert_eq!(write_block(&mut t, &r, 0, &[]), (6, 0));
    assert_eq!(view(&t, &r, TOP, 0), (6, 0, &[][..]));
    t.m = 32;
    assert_eq!(check(&t), (0, 0));
    t.m = 33;
    assert_eq!(check(&t), (1, 0));
}

/// M, N and L at their upper bounds, and the last cell at the highest address.
fn full() -> Tables {
    Tables {
        m: 32,
        first: (0..256u32).map(|cell| TOP - 65_535 + 256 * cell).collect(),
        last: (1..=256u32).map(|cell| TOP - 65_536 + 256 * cell).collect(),
        offset: (0..256u32).map(|cell| 256 * cell).collect(),
        marks: vec![1; 256],
        rights: vec![7; 8192],
        grants: (0..8192u32).map(|entry| grant_entry((entry + 1) % 32, 7)).collect(),
        memory: vec![11; 65_536],
    }
}

#[test]
fn upper_bounds_hold() {
    let mut t = full();
    let mut r = Registers { current: 0, caller: 0, place: TOP };
    assert_eq!(t.last[255], TOP);
    assert_eq!(check(&t), (0, 0));
    assert_eq!(execute(&mut t, &mut r, 0, TOP, 0, 0), (0, 11));
    assert_eq!(write_block(&mut t, &r, TOP, &[5]), (0, 0));
    assert_eq!(t.memory[65_535], 5);
    assert_eq!(view(&t, &r, TOP - 1, 2), (0, 0, &[11, 5][..]));
    for length in [3, 1 << 32, (1 << 32) + 1, usize::MAX] {
        assert_eq!(view(&t, &r, TOP - 1, length), (8, 0, &[][..]));
    }
    // One byte of memory less, and the last cell no longer fits.
    let mut t = full();
    t.memory.pop();
    assert_eq!(check(&t), (2, 255));
}

// ---------------------------------------------------------------------------
// Check 2

/// Four adjacent cells of four bytes, three divisions.
fn four() -> (Tables, Registers) {
    let t = Tables {
        m: 3,
        first: vec![100, 104, 108, 112],
        last: vec![103, 107, 111, 115],
        offset: vec![0, 4, 8, 12],
        marks: vec![1; 4],
        rights: vec![7; 12],
        grants: vec![0; 12],
        memory: vec![0; 16],
    };
    (t, Registers { current: 1, caller: 2, place: 5 })
}

fn unsound_at(cell: u32, alter: &dyn Fn(&mut Tables)) {
    let (mut t, mut r) = four();
    assert_eq!(check(&t), (0, 0));
    alter(&mut t);
    let (t_before, r_before) = (t.clone(), r);
    assert_eq!(check(&t), (2, cell));
    // 2 comes before all the later checks, and every call gives the cell.
    r.current = 9;
    assert_eq!(execute(&mut t, &mut r, 99, 0, 9, 9), (2, cell));
    r.current = 1;
    assert_eq!(execute(&mut t, &mut r, 1, 100, 5, 0), (2, cell));
    assert_eq!(write_block(&mut t, &r, 100, &[1]), (2, cell));
    assert_eq!(view(&t, &r, 100, 1), (2, cell, &[][..]));
    assert_eq!((t, r), (t_before, r_before));
}

fn still_sound(alter: &dyn Fn(&mut Tables)) {
    let (mut t, _) = four();
    alter(&mut t);
    assert_eq!(check(&t), (0, 0));
}

#[test]
fn unsound_extent() {
    unsound_at(1, &|t| t.first[1] = 108);
    unsound_at(0, &|t| t.last[0] = 99);
    unsound_at(3, &|t| t.last[3] = 0);
    still_sound(&|t| t.last[1] = 104);
}

#[test]
fn unsound_place() {
    unsound_at(3, &|t| t.last[3] = 116);
    unsound_at(3, &|t| t.offset[3] = 13);
    unsound_at(3, &|t| {
        t.memory.pop();
    });
    unsound_at(2, &|t| t.memory.truncate(11));
    unsound_at(0, &|t| t.memory.clear());
    // Sums that would come out small again in 32 bits.
    unsound_at(1, &|t| t.offset[1] = TOP);
    unsound_at(1, &|t| t.offset[1] = TOP - 2);
    unsound_at(3, &|t| t.last[3] = TOP);
    unsound_at(3, &|t| {
        t.offset[3] = TOP;
        t.last[3] = TOP;
    });
    unsound_at(0, &|t| {
        t.first[0] = 0;
        t.last[0] = TOP;
        t.offset[0] = 1;
    });
    still_sound(&|t| t.memory.push(0));
    still_sound(&|t| {
        t.memory.resize(65_536, 0);
        t.offset[3] = 65_532;
    });
}

#[test]
fn unsound_marks_rights_holders() {
    unsound_at(2, &|t| t.marks[2] = 2);
    unsound_at(0, &|t| t.marks[0] = 255);
    unsound_at(1, &|t| t.rights[5] = 8);
    unsound_at(1, &|t| t.rights[3] = 255);
    unsound_at(3, &|t| t.rights[9] = 128);
    unsound_at(2, &|t| t.marks[2] = 0);
    unsound_at(2, &|t| {
        t.marks[2] = 0;
        t.rights[7] = 0;
    });
    still_sound(&|t| {
        t.marks[2] = 0;
        t.rights[7] = 0;
        t.rights[8] = 0;
    });
    // No holder at all, and grants, do no harm to an invalid cell.
    still_sound(&|t| {
        t.marks[2] = 0;
        t.rights[6..9].fill(0);
        t.grants[6] = grant_entry(1, 7);
        t.grants[7] = grant_entry(2, 7);
        t.grants[8] = grant_entry(0, 7);
    });
}

#[test]
fn unsound_grants() {
    // No rights with a target; rights above 7; no such target; the granter.
    unsound_at(1, &|t| t.grants[3] = 1);
    unsound_at(1, &|t| t.grants[3] = 2);
    unsound_at(1, &|t| t.grants[3] = 255);
    unsound_at(2, &|t| t.grants[7] = 8 * 256);
    unsound_at(2, &|t| t.grants[7] = 255 * 256 + 2);
    unsound_at(2, &|t| t.grants[7] = 9 * 256);
    unsound_at(3, &|t| t.grants[11] = grant_entry(3, 1));
    unsound_at(3, &|t| t.grants[11] = grant_entry(255, 7));
    unsound_at(0, &|t| t.grants[0] = grant_entry(0, 1));
    unsound_at(0, &|t| t.grants[1] = grant_entry(1, 7));
    unsound_at(3, &|t| t.grants[11] = grant_entry(2, 3));
    unsound_at(0, &|t| t.grants[2] = u16::MAX);
    still_sound(&|t| t.grants[11] = grant_entry(0, 7));
    still_sound(&|t| t.grants[11] = grant_entry(1, 1));
    still_sound(&|t| t.grants[0] = grant_entry(2, 7));
    // A grant of rights the granter does not hold is sound.
    still_sound(&|t| {
        t.rights[0] = 0;
        t.grants[0] = grant_entry(2, 7);
    });
}

#[test]
fn unsound_single_division_grant() {
    let (mut t, _) = four();
    t.m = 1;
    t.rights = vec![1; 4];
    t.grants = vec![0; 4];
    assert_eq!(check(&t), (0, 0));
    t.grants[2] = grant_entry(0, 1);
    assert_eq!(check(&t), (2, 2));
    t.grants[2] = grant_entry(1, 1);
    assert_eq!(check(&t), (2, 2));
}

#[test]
fn unsound_order() {
    unsound_at(1, &|t| t.first[1] = 103);
    unsound_at(2, &|t| t.last[1] = 108);
    unsound_at(1, &|t| {
        t.first.swap(0, 1);
        t.last.swap(0, 1);
    });
    unsound_at(1, &|t| {
        t.first[1] = 50;
        t.last[1] = 53;
    });
    unsound_at(2, &|t| {
        t.first[2] = 104;
        t.last[2] = 107;
    });
    unsound_at(1, &|t| t.offset[1] = 3);
    unsound_at(2, &|t| t.offset[2] = 0);
    unsound_at(1, &|t| t.offset.swap(0, 1));
    // After a cell that ends at the highest address there is no room.
    unsound_at(3, &|t| {
        t.first[2] = TOP - 3;
        t.last[2] = TOP;
        t.first[3] = 0;
        t.last[3] = 3;
    });
}

#[test]
fn the_lowest_unsound_cell() {
    unsound_at(1, &|t| {
        t.marks[3] = 7;
        t.grants[6] = 1;
        t.rights[4] = 9;
    });
    unsound_at(0, &|t| {
        t.first[1] = 0;
        t.rights[2] = 8;
    });
}

// ---------------------------------------------------------------------------
// Check 3 and the order of checks

#[test]
fn registers_out_of_range() {
    for (current, caller) in [(3, 0), (0, 3), (TOP, 0), (0, TOP), (3, 3), (256, 0), (0, 256)] {
        let (mut t, _) = bench();
        let mut r = Registers { current, caller, place: 0 };
        refused(&mut t, &mut r, [0, 4096, 0, 0], 3);
        refused(&mut t, &mut r, [11, 4096, 0, 0], 3);
        refused(&mut t, &mut r, [0, 9000, 1, 1], 3);
        assert_eq!(write_block(&mut t, &r, 9000, &[1]), (3, 0));
        assert_eq!(view(&t, &r, 9000, 1), (3, 0, &[][..]));
    }
}

#[test]
fn operand_ranges() {
    let unused_y = [0, 2, 8, 9, 10];
    for number in unused_y {
        for y in [1, 256, 65_536, TOP] {
            bench_refused([number, 4096, y, 0], 5);
        }
    }
    for number in [0, 1, 2, 3, 4, 6, 8, 9, 10] {
        let y = if number == 6 { 1 } else { 0 };
        for z in [1, 256, TOP] {
            bench_refused([number, 4096, y, z], 5);
        }
    }
    for y in [256, 257, 65_536, TOP] {
        bench_refused([1, 4096, y, 0], 5);
    }
    for number in [3, 5, 6, 7] {
        let z = if number == 5 || number == 7 { 1 } else { 0 };
        for y in [3, 4, 256, 257, 65_536, TOP] {
            bench_refused([number, 4096, y, z], 5);
        }
    }
    // Own division: allowed in a switch (9 here, for want of execute).
    bench_refused([3, 4096, 0, 0], 9);
    bench_refused([5, 4096, 0, 1], 5);
    bench_refused([6, 4096, 0, 0], 5);
    bench_refused([7, 4096, 0, 1], 5);
    for z in [0, 8, 256, 257, TOP] {
        bench_refused([5, 4096, 1, z], 5);
        bench_refused([7, 4096, 1, z], 5);
    }
    for y in [8, 256, 257, TOP] {
        bench_refused([4, 4096, y, 0], 5);
    }
    for number in [11, 12, 256, TOP] {
        bench_refused([number, 9000, 7, 7], 4);
    }
}

#[test]
fn order_of_later_checks() {
    // 6 before 8, 7 before 8 and 9, 8 before 9, 9 before 11 and 12.
    bench_refused([2, 9001, 0, 0], 6);
    let (mut t, mut r) = bench();
    t.marks[1] = 0;
    refused(&mut t, &mut r, [2, 8193, 0, 0], 7);
    refused(&mut t, &mut r, [3, 8193, 2, 0], 7);
    assert_eq!(write_block(&mut t, &r, 8192, &[0; 9]), (7, 0));
    assert_eq!(view(&t, &r, 8192, 9), (7, 0, &[][..]));
    refused(&mut t, &mut r, [9, 8192, 0, 0], 9);
    bench_refused([2, 8193, 0, 0], 8);
    bench_refused([3, 8193, 1, 0], 8);
    bench_refused([8, 8192, 0, 0], 9);
    let (mut t, mut r) = bench();
    t.memory[8] = 10;
    refused(&mut t, &mut r, [3, 8192, 1, 0], 9);
    assert_eq!(write_block(&mut t, &r, 8192, &[0; 5]), (8, 0));
    assert_eq!(view(&t, &r, 8192, 5), (8, 0, &[][..]));
    assert_eq!(write_block(&mut t, &r, 8192, &[0; 4]), (9, 0));
    assert_eq!(view(&t, &r, 8192, 4), (9, 0, &[][..]));
    bench_refused([9, 4096, 0, 0], 7);
}

// ---------------------------------------------------------------------------
// Single instructions

#[test]
fn store_and_load() {
    let (mut t, mut r) = bench();
    assert_eq!(execute(&mut t, &mut r, 1, 4103, 255, 0), (0, 0));
    assert_eq!(execute(&mut t, &mut r, 0, 4103, 0, 0), (0, 255));
    let (mut expected, _) = bench();
    expected.memory[7] = 255;
    assert_eq!(t, expected);
    t.rights[0] = 1;
    refused(&mut t, &mut r, [1, 4096, 1, 0], 9);
    t.rights[0] = 2;
    refused(&mut t, &mut r, [0, 4096, 0, 0], 9);
}

#[test]
fn words() {
    // A cell from 4098 to 4107 with an odd offset: words at 4100 and 4104.
    let (mut t, mut r) = bench();
    t.first[0] = 4098;
    t.last[0] = 4107;
    t.offset = vec![1, 12];
    t.rights[0] = 4;
    t.memory = (0..16).collect();
    assert_eq!(check(&t), (0, 0));
    assert_eq!(execute(&mut t, &mut r, 2, 4100, 0, 0), (0, 0x0605_0403));
    assert_eq!(execute(&mut t, &mut r, 2, 4104, 0, 0), (0, 0x0a09_0807));
    for address in [4098, 4099, 4101, 4102, 4103, 4105, 4106, 4107] {
        refused(&mut t, &mut r, [2, address, 0, 0], 8);
    }
    t.last[0] = 4106;
    refused(&mut t, &mut r, [2, 4104, 0, 0], 8);
    refused(&mut t, &mut r, [3, 4104, 0, 0], 8);
    // At the highest address: a word whose fourth byte is the last of all.
    t.first[1] = TOP - 3;
    t.last[1] = TOP;
    t.rights[3] = 4;
    t.memory[12..16].copy_from_slice(&[255, 0, 0, 128]);
    assert_eq!(execute(&mut t, &mut r, 2, TOP - 3, 0, 0), (0, 0x8000_00ff));
    refused(&mut t, &mut r, [2, TOP, 0, 0], 8);
    t.last[1] = TOP - 1;
    refused(&mut t, &mut r, [2, TOP - 3, 0, 0], 8);
}

#[test]
fn switches() {
    let (mut t, _) = bench();
    let mut r = Registers { current: 1, caller: 2, place: 77 };
    assert_eq!(execute(&mut t, &mut r, 3, 8192, 2, 0), (0, 1));
    assert_eq!(r, Registers { current: 2, caller: 1, place: 8192 });
    // To one's own division: the caller becomes it too.
    assert_eq!(execute(&mut t, &mut r, 3, 8192, 2, 0), (0, 2));
    assert_eq!(r, Registers { current: 2, caller: 2, place: 8192 });
    // The switcher's execute right does not count.
    refused(&mut t, &mut r, [3, 8192, 0, 0], 9);
    for (place, byte) in [(8, 0), (8, 139), (9, 1), (10, 1), (11, 1), (11, 11)] {
        let (mut t, mut r) = bench();
        t.memory[place] = byte;
        refused(&mut t, &mut r, [3, 8192, 2, 0], 12);
    }
}

#[test]
fn protects() {
    for held in 0..8u32 {
        for wanted in 0..8u32 {
            let (mut t, mut r) = bench();
            t.rights[0] = held as u8;
            if wanted & !held != 0 {
                refused(&mut t, &mut r, [4, 4096, wanted, 0], 9);
            } else if wanted == held {
                refused(&mut t, &mut r, [4, 4096, wanted, 0], 13);
            } else {
                assert_eq!(execute(&mut t, &mut r, 4, 4096, wanted, 0), (0, wanted));
                let (mut expected, _) = bench();
                expected.rights[0] = wanted as u8;
                assert_eq!((t, r), (expected, bench().1));
            }
        }
    }
}

#[test]
fn grants_and_transfers() {
    for number in [5, 7] {
        for held in 0..8u32 {
            for given in 1..8u32 {
                let (mut t, mut r) = bench();
                t.rights[0] = held as u8;
                // An earlier grant, which a refusal must leave.
                t.grants[0] = grant_entry(1, 2);
                if given & !held != 0 {
                    refused(&mut t, &mut r, [number, 4096, 2, given], 9);
                    continue;
                }
                let after = if number == 5 { held } else { 0 };
                assert_eq!(execute(&mut t, &mut r, number, 4100, 2, given), (0, after));
                let (mut expected, _) = bench();
                expected.rights[0] = after as u8;
                expected.grants[0] = grant_entry(2, given as u8);
                assert_eq!((t, r), (expected, bench().1));
            }
        }
    }
}

#[test]
fn receives() {
    for held in 0..8u32 {
        for given in 1..8u32 {
            let (mut t, mut r) = bench();
            r.current = 1;
            t.rights[1] = held as u8;
            t.grants[0] = grant_entry(1, given as u8);
            t.grants[2] = grant_entry(0, 1);
            let mut expected = t.clone();
            expected.rights[1] = (held | given) as u8;
            expected.grants[0] = 0;
            assert_eq!(execute(&mut t, &mut r, 6, 4096, 0, 0), (0, held | given));
            assert_eq!(t, expected);
            // Taken once, it is gone; a grant to somebody else cannot be taken.
            refused(&mut t, &mut r, [6, 4096, 0, 0], 10);
            refused(&mut t, &mut r, [6, 4096, 2, 0], 10);
        }
    }
    // No grant is not a grant to division 0.
    let (mut t, mut r) = bench();
    refused(&mut t, &mut r, [6, 4096, 1, 0], 10);
    refused(&mut t, &mut r, [6, 8192, 2, 0], 10);
    // A grant on another cell does not help.
    t.grants[1] = grant_entry(0, 1);
    refused(&mut t, &mut r, [6, 8192, 1, 0], 10);
}

#[test]
fn grants_outlive_their_maker_and_invalidation() {
    let (mut t, mut r) = bench();
    assert_eq!(execute(&mut t, &mut r, 5, 4096, 1, 2), (0, 3));
    assert_eq!(execute(&mut t, &mut r, 8, 4096, 0, 0), (0, 3));
    r.current = 1;
    refused(&mut t, &mut r, [6, 4096, 0, 0], 7);
    refused(&mut t, &mut r, [9, 4096, 0, 0], 9);
    r.current = 0;
    assert_eq!(execute(&mut t, &mut r, 9, 4096, 0, 0), (0, 3));
    assert_eq!(execute(&mut t, &mut r, 4, 4096, 0, 0), (0, 0));
    r.current = 1;
    assert_eq!(execute(&mut t, &mut r, 6, 4096, 0, 0), (0, 2));
    assert_eq!(check(&t), (0, 0));
}

#[test]
fn exclusives() {
    let (mut t, mut r) = bench();
    assert_eq!(execute(&mut t, &mut r, 10, 4096, 0, 0), (0, 1));
    t.rights[2] = 4;
    assert_eq!(execute(&mut t, &mut r, 10, 4096, 0, 0), (0, 0));
    t.rights[2] = 0;
    // A standing grant is no held right.
    t.grants[0] = grant_entry(1, 1);
    assert_eq!(execute(&mut t, &mut r, 10, 4096, 0, 0), (0, 1));
    assert_eq!(execute(&mut t, &mut r, 8, 4096, 0, 0), (0, 3));
    refused(&mut t, &mut r, [10, 4096, 0, 0], 7);
    refused(&mut t, &mut r, [8, 4096, 0, 0], 7);
    refused(&mut t, &mut r, [10, 8192, 0, 0], 9);
}

#[test]
fn block_writes() {
    let (mut t, r) = bench();
    assert_eq!(write_block(&mut t, &r, 4098, &[1, 2, 3]), (0, 0));
    assert_eq!(t.memory[..8], [0, 0, 1, 2, 3, 0, 0, 0]);
    assert_eq!(write_block(&mut t, &r, 4096, &[9; 8]), (0, 0));
    assert_eq!(t.memory, [9, 9, 9, 9, 9, 9, 9, 9, 11, 0, 0, 0, 0, 0, 0, 0]);
    let before = t.clone();
    assert_eq!(write_block(&mut t, &r, 4103, &[]), (0, 0));
    assert_eq!(write_block(&mut t, &r, 4104, &[]), (6, 0));
    assert_eq!(write_block(&mut t, &r, 8192, &[]), (9, 0));
    assert_eq!(write_block(&mut t, &r, 4097, &[1; 8]), (8, 0));
    assert_eq!(write_block(&mut t, &r, 4096, &vec![1; 70_000]), (8, 0));
    assert_eq!(t, before);
    t.rights[0] = 5;
    assert_eq!(write_block(&mut t, &r, 4096, &[1]), (9, 0));
    assert_eq!(write_block(&mut t, &r, 4096, &[]), (9, 0));
    assert_eq!(t.memory, before.memory);
}

#[test]
fn views() {
    let (mut t, r) = bench();
    t.memory = (0..16).collect();
    let (number, value, part) = view(&t, &r, 4097, 7);
    assert_eq!((number, value, part), (0, 0, &[1, 2, 3, 4, 5, 6, 7][..]));
    // It is the part of the lent memory itself.
    assert_eq!(part.as_ptr(), t.memory[1..].as_ptr());
    assert_eq!(view(&t, &r, 4103, 0), (0, 0, &[][..]));
    assert_eq!(view(&t, &r, 4103, 1), (0, 0, &[7][..]));
    for length in [2, 1 << 32, usize::MAX, usize::MAX - 4102] {
        assert_eq!(view(&t, &r, 4103, length), (8, 0, &[][..]));
    }
    assert_eq!(view(&t, &r, 4104, 0), (6, 0, &[][..]));
    assert_eq!(view(&t, &r, 8192, 0), (9, 0, &[][..]));
    t.rights[0] = 6;
    assert_eq!(view(&t, &r, 4096, 0), (9, 0, &[][..]));
}

#[test]
fn checked_calls_agree_on_sound_tables() {
    let (t, r) = bench();
    for number in 0..12 {
        for x in [4096, 4100, 4104, 8192, 8193] {
            for (y, z) in [(0, 0), (1, 0), (2, 0), (1, 1), (2, 3), (3, 0)] {
                let (mut t1, mut r1) = (t.clone(), r);
                let (mut t2, mut r2) = (t.clone(), r);
                let one = execute(&mut t1, &mut r1, number, x, y, z);
                let two = execute_checked(&mut t2, &mut r2, number, x, y, z);
                assert_eq!((one, t1, r1), (two, t2, r2));
            }
        }
    }
    let (mut t1, mut t2) = (t.clone(), t.clone());
    assert_eq!(write_block(&mut t1, &r, 4097, &[1]), write_block_checked(&mut t2, &r, 4097, &[1]));
    assert_eq!(view(&t1, &r, 4097, 1), view_checked(&t2, &r, 4097, 1));
}
