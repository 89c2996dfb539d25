//! The proved library's calls on the reference's types.

use compare::lent;
use reference::gen::Call;
use reference::{Registers, Tables};

fn core(r: &Registers) -> cells::Registers {
    cells::Registers { current: r.current, caller: r.caller, place: r.place }
}

fn registers(c: cells::Registers) -> Registers {
    Registers { current: c.current, caller: c.caller, place: c.place }
}

/// Makes a call: number, value, and the bytes that a view hands back.
pub fn apply(call: &Call, t: &mut Tables, r: &mut Registers) -> (u32, u32, Vec<u8>) {
    let reply = match call {
        Call::Execute { number, x, y, z } => cells::execute(&mut lent(t), core(r), [*number, *x, *y, *z]),
        Call::WriteBlock { x, bytes } => cells::write_block(&mut lent(t), core(r), *x, bytes),
        Call::View { x, n } => {
            let place = cells::view(&lent(t), core(r), *x, *n);
            return (place.number, place.value, t.memory[place.start..place.start + place.count].to_vec());
        }
    };
    *r = registers(reply.registers);
    (reply.number, reply.value, Vec::new())
}

/// Runs instructions in turn on tables that are checked once; the answers of each.
pub fn execute_all(t: &mut Tables, r: &mut Registers, instructions: &[[u32; 4]]) -> Vec<(u32, u32)> {
    let flat: Vec<u32> = instructions.iter().flatten().copied().collect();
    let mut numbers = vec![u32::MAX; instructions.len()];
    let mut values = vec![u32::MAX; instructions.len()];
    *r = registers(cells::execute_all(&mut lent(t), core(r), &flat, &mut numbers, &mut values));
    numbers.into_iter().zip(values).collect()
}
