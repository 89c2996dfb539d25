//! Measures the proved library, and the program `cellrun`, against optimised Rust that does the same, and prints a ratio for
//! each. A time by itself says more about the machine than about the library, so the ratio is the result.
//!
//! Usage: measure [the project's cellrun]

mod calls;
mod clock;
mod full;
mod programs;

use std::path::Path;
use std::process::ExitCode;

fn main() -> ExitCode {
    let ours = std::env::args().nth(1).unwrap_or_else(|| "crates/cellrun/out/cellrun".to_string());
    println!("Full tables: 256 cells, 32 divisions, 65,536 bytes of memory. Every single call makes every check.");
    clock::measure(calls::rows(), 20, 40);
    let rust = std::env::current_exe().map(|path| path.with_file_name("quick-cellrun"));
    match rust.and_then(|rust| programs::rows(Path::new(&ours), &rust)) {
        Ok(()) => ExitCode::SUCCESS,
        Err(error) => {
            println!("cellrun: not measured: {error}");
            ExitCode::FAILURE
        }
    }
}
