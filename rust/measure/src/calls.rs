//! The library's calls on full tables, each beside the same call in optimised Rust. A row is only made once both sides have
//! given the same answers on what it measures.

use crate::clock::Row;
use crate::full::{addresses, instruction, tables, Random, BLOCK, CURRENT, LONG_CELL, REGISTERS};
use cells::{Registers, Tables};
use measure::quick;
use std::hint::black_box;

const BAR: Option<f64> = Some(1.2);
const REPEATS: usize = 200;

pub fn rows() -> Vec<Row> {
    let valid = tables(1, 0);
    let everywhere = addresses(&valid, 1, 2);
    let half = tables(1, 2);
    vec![
        single("load, in any cell", &valid, loads(&everywhere)),
        single("load, in the last cell", &valid, loads(&[valid.last[255]; REPEATS])),
        single("grant, in any cell", &valid, grants(&everywhere)),
        block(&valid),
        view(&valid),
        single("load, where every second cell is not valid", &half, loads(&addresses(&half, 1, 3))),
        list(&valid),
    ]
}

fn loads(list: &[u32]) -> Vec<[u32; 4]> {
    list.iter().map(|&x| [0, x, 0, 0]).collect()
}

/// Grants of one right or more to a division that alters from call to call.
fn grants(list: &[u32]) -> Vec<[u32; 4]> {
    (0..).zip(list).map(|(at, &x)| [5, x, (CURRENT as u32 + 1 + at % 31) % 32, 1 + at % 7]).collect()
}

/// Whether both sides accept every instruction, answer the same and leave the same lists.
fn both_accept(list: &[[u32; 4]], t: &Tables) -> bool {
    let (mut t, mut u) = (t.clone(), t.clone());
    let same = list.iter().all(|&i| {
        let ours = cells::execute(&mut t.lent(), REGISTERS, i);
        ours == quick::execute(&mut u.lent(), REGISTERS, i) && ours.number == 0
    });
    same && t == u
}

/// Single calls, each with all checks.
fn single(name: &str, t: &Tables, list: Vec<[u32; 4]>) -> Row {
    assert!(both_accept(&list, t), "{name}: the two sides differ, or a call is refused");
    let (mut t, mut u) = (t.clone(), t.clone());
    let (ours, rust) = (list.clone(), list);
    let calls = ours.len();
    let ours = move || {
        for &i in &ours {
            black_box(cells::execute(black_box(&mut t.lent()), black_box(REGISTERS), black_box(i)));
        }
    };
    let rust = move || {
        for &i in &rust {
            black_box(quick::execute(black_box(&mut u.lent()), black_box(REGISTERS), black_box(i)));
        }
    };
    Row::new(name, BAR, calls, Box::new(ours), Box::new(rust))
}

/// Two blocks in turn, so that every write alters the memory.
fn block(t: &Tables) -> Row {
    const BLOCKS: [[u8; BLOCK]; 2] = [[0x5A; BLOCK], [0xA5; BLOCK]];
    let x = t.first[LONG_CELL];
    let (mut t, mut u) = (t.clone(), t.clone());
    for block in &BLOCKS {
        let ours = cells::write_block(&mut t.lent(), REGISTERS, x, block);
        let rust = quick::write_block(&mut u.lent(), REGISTERS, x, block);
        assert!(ours == rust && ours.number == 0 && t == u, "block write: the two sides differ");
    }
    let ours = move || {
        for block in BLOCKS.iter().cycle().take(REPEATS) {
            black_box(cells::write_block(black_box(&mut t.lent()), black_box(REGISTERS), x, black_box(block)));
        }
    };
    let rust = move || {
        for block in BLOCKS.iter().cycle().take(REPEATS) {
            black_box(quick::write_block(black_box(&mut u.lent()), black_box(REGISTERS), x, black_box(block)));
        }
    };
    Row::new("block write of 4 KB", BAR, REPEATS, Box::new(ours), Box::new(rust))
}

fn view(t: &Tables) -> Row {
    let x = t.first[LONG_CELL];
    let (mut t, mut u) = (t.clone(), t.clone());
    let ours = cells::view(&t.lent(), REGISTERS, x, BLOCK);
    let answer = (ours.number, ours.value, &t.memory[ours.start..][..ours.count]);
    assert!(answer == quick::view(&u.lent(), REGISTERS, x, BLOCK) && ours.count == BLOCK, "read view: the two sides differ");
    let ours = move || {
        for _ in 0..REPEATS {
            black_box(cells::view(black_box(&t.lent()), black_box(REGISTERS), x, black_box(BLOCK)));
        }
    };
    let rust = move || {
        for _ in 0..REPEATS {
            black_box(quick::view(black_box(&u.lent()), black_box(REGISTERS), x, black_box(BLOCK)));
        }
    };
    Row::new("read view of 4 KB", BAR, REPEATS, Box::new(ours), Box::new(rust))
}

type ExecuteAll = fn(&mut cells::Lent, Registers, &[u32], &mut [u32], &mut [u32]) -> Registers;

/// What one side makes of a list of instructions: the registers, the answers and the lists afterwards.
fn run_list(t: &Tables, list: &[u32], execute_all: ExecuteAll) -> (Registers, Vec<u32>, Vec<u32>, Tables) {
    let mut t = t.clone();
    let (mut numbers, mut values) = (vec![0; list.len() / 4], vec![0; list.len() / 4]);
    let registers = execute_all(&mut t.lent(), REGISTERS, list, &mut numbers, &mut values);
    (registers, numbers, values, t)
}

/// Many instructions in one call, on tables that are checked once. It has no bar: it shows what an instruction costs beside
/// the check of the tables, which is what `cellrun` pays for each `do` line.
fn list(t: &Tables) -> Row {
    const COUNT: usize = 2000;
    let random = &mut Random(4);
    let list: Vec<u32> = (0..COUNT).flat_map(|_| instruction(t, random)).collect();
    let (ours, rust) = (run_list(t, &list, cells::execute_all), run_list(t, &list, quick::execute_all));
    assert!(ours == rust, "list of instructions: the two sides differ");
    let side = |execute_all: ExecuteAll| {
        let (mut t, list) = (t.clone(), list.clone());
        let (mut numbers, mut values) = (vec![0; COUNT], vec![0; COUNT]);
        move || {
            black_box(execute_all(&mut t.lent(), black_box(REGISTERS), black_box(&list), &mut numbers, &mut values));
        }
    };
    let (ours, rust) = (side(cells::execute_all), side(quick::execute_all));
    Row::new("one of 2,000 instructions in one call", None, COUNT, Box::new(ours), Box::new(rust))
}
