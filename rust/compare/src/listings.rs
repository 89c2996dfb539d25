//! The program `cellrun` itself against the independent implementation, over seeded listings: sound, unsound and damaged.

use reference::gen;
use std::io::{self, Write};
use std::process::{Command, Stdio};

/// What the program, given with its arguments, writes of a text that it is handed through a pipe.
fn written(program: &[String], text: &[u8]) -> io::Result<Vec<u8>> {
    let mut child = Command::new(&program[0]).args(&program[1..]).stdin(Stdio::piped()).stdout(Stdio::piped()).spawn()?;
    // The program reads no more than it needs of a text that is too long, so that the rest may find nobody to take it.
    let given = child.stdin.take().expect("it was asked for").write_all(text);
    match given {
        Err(error) if error.kind() != io::ErrorKind::BrokenPipe => Err(error),
        _ => Ok(child.wait_with_output()?.stdout),
    }
}

/// The listing of a seed: every third is damaged.
fn text_of(seed: u64) -> Vec<u8> {
    let text = gen::listing(seed);
    if seed % 3 == 0 {
        gen::damage(&text, seed)
    } else {
        text
    }
}

/// Compares `count` listings, and says how many of them were wrong text.
pub fn compare(program: &[String], count: u64) -> Result<u64, String> {
    let mut wrong = 0;
    for seed in 1..=count {
        let text = text_of(seed);
        let expected = reference::run_listing(&text);
        let given = written(program, &text).map_err(|error| format!("{program:?}: {error}"))?;
        if given != expected {
            return Err(format!("listing of seed {seed}: cellrun and the independent implementation differ"));
        }
        wrong += u64::from(expected.starts_with(b"cells\t1\nbad\t"));
    }
    Ok(wrong)
}
