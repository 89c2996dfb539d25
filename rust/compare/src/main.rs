//! Compares the proved library with the independent implementation, call by call and entry by entry, over seeded states:
//! sound, unsound and malformed. Prints how often each kind of call gave each answer, and fails where the two differ, where
//! an answer that can be given was not reached, or where one that cannot be given was.
//!
//! Then it compares the program `cellrun` itself over seeded listings.
//!
//! Usage: compare CALLS LISTINGS PROGRAM [ARGUMENTS]

mod library;
mod listings;

use reference::answers::{possible, row_of, ROWS};
use reference::gen::{self, Call, Random};
use std::process::ExitCode;

/// One state with its calls: the answers counted, or what differed.
fn one_state(seed: u64, counts: &mut [[u64; 14]; 14]) -> Result<u64, String> {
    let mut random = Random::new(seed);
    let (mut t, mut r) = gen::tables_from(&mut random);
    if random.one_in(6) {
        gen::spoil_any(&mut t, &mut r, &mut random);
    }
    let (start, core) = (t.clone(), r);
    let (mut u, mut q) = (t.clone(), r);
    let mut instructions = Vec::new();
    let mut answers = Vec::new();
    for step in 0..40 {
        let call = gen::call(&t, &r, &mut random);
        let expected = gen::apply(&call, &mut t, &mut r);
        let given = library::apply(&call, &mut u, &mut q);
        if expected != given || t != u || r != q {
            return Err(format!("seed {seed}, call {step}: {call:?}\n expected {expected:?} {r:?}\n given {given:?} {q:?}"));
        }
        counts[row_of(&call)][expected.0 as usize] += 1;
        if let Call::Execute { number, x, y, z } = call {
            if instructions.len() == step {
                instructions.push([number, x, y, z]);
                answers.push((expected.0, expected.1));
            }
        }
    }
    // the instructions before the first block or view, once more as one list
    let (mut v, mut p) = (start.clone(), core);
    let listed = library::execute_all(&mut v, &mut p, &instructions);
    let (mut w, mut o) = (start, core);
    for [number, x, y, z] in &instructions {
        reference::execute(&mut w, &mut o, *number, *x, *y, *z);
    }
    if listed != answers || v != w || p != o {
        return Err(format!("seed {seed}: the list of {} instructions", instructions.len()));
    }
    Ok(40 + instructions.len() as u64)
}

/// All calls compared; what was reached of each kind is printed. How many answers are amiss: one that can be given and was
/// not reached, or one that cannot be given and was.
fn calls(wanted: u64) -> Result<u32, String> {
    let mut counts = [[0u64; 14]; 14];
    let (mut made, mut seed) = (0, 1);
    while made < wanted {
        made += one_state(seed, &mut counts)?;
        seed += 1;
    }
    let mut amiss = 0;
    for (row, name) in ROWS.iter().enumerate() {
        print!("{name:<13}");
        for (number, count) in counts[row].iter().enumerate() {
            amiss += u32::from(possible(row, number) != (*count > 0));
            print!("{:>8}", if possible(row, number) { count.to_string() } else { "-".to_string() });
        }
        println!();
    }
    println!("{made} calls compared, {amiss} answers amiss: not reached, or reached where they cannot be given");
    Ok(amiss)
}

/// Both comparisons. A listing's run is of use only where some texts were wrong and some were not.
fn run(wanted: u64, listings: u64, program: &[String]) -> Result<(), String> {
    if calls(wanted)? != 0 {
        return Err("the answers reached are not those that can be given".to_string());
    }
    let wrong = listings::compare(program, listings)?;
    println!("{listings} listings compared through cellrun, {wrong} of them wrong text");
    if wrong == 0 || wrong == listings {
        return Err("the listings are all of one kind".to_string());
    }
    Ok(())
}

/// The two numbers that are asked for, and the program with its arguments.
fn asked(words: &[String]) -> Option<(u64, u64, &[String])> {
    match words {
        [calls, listings, program @ ..] if !program.is_empty() => {
            Some((calls.parse().ok()?, listings.parse().ok()?, program))
        }
        _ => None,
    }
}

fn main() -> ExitCode {
    let words: Vec<String> = std::env::args().skip(1).collect();
    let outcome = match asked(&words) {
        Some((wanted, listings, program)) => run(wanted, listings, program),
        None => Err("usage: compare CALLS LISTINGS PROGRAM [ARGUMENTS]".to_string()),
    };
    match outcome {
        Ok(()) => ExitCode::SUCCESS,
        Err(difference) => {
            println!("{difference}");
            ExitCode::FAILURE
        }
    }
}
