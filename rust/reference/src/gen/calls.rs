//! Calls: what a call is, how it is made here, and one drawn to suit a state.

use super::instructions::{instruction_call, number_above};
use super::parts::{block_call, view_call};
use super::Random;
use crate::machine::{execute, view, write_block, Registers, Tables};

/// One call on the machine.
#[derive(Clone, PartialEq, Eq, Debug)]
pub enum Call {
    Execute { number: u32, x: u32, y: u32, z: u32 },
    WriteBlock { x: u32, bytes: Vec<u8> },
    View { x: u32, n: usize },
}

/// Makes a call on this implementation: number, value, and a view's bytes.
pub fn apply(call: &Call, t: &mut Tables, r: &mut Registers) -> (u32, u32, Vec<u8>) {
    match *call {
        Call::Execute { number, x, y, z } => {
            let (number, value) = execute(t, r, number, x, y, z);
            (number, value, Vec::new())
        }
        Call::WriteBlock { x, ref bytes } => {
            let (number, value) = write_block(t, r, x, bytes);
            (number, value, Vec::new())
        }
        Call::View { x, n } => {
            let (number, value, part) = view(t, r, x, n);
            (number, value, part.to_vec())
        }
    }
}

/// A random call that suits the state. The tables may be spoilt in any way:
/// every list is read with care.
pub fn call(t: &Tables, r: &Registers, random: &mut Random) -> Call {
    match random.below(16) {
        0 => number_above(t, random),
        1 => block_call(t, r, random),
        2 => view_call(t, r, random),
        _ => {
            let number = random.below(11) as u32;
            instruction_call(t, r, number, random)
        }
    }
}
