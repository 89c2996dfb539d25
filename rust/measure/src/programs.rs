//! The program `cellrun` of this project against the one in optimised Rust, as processes.

use crate::clock::{measure, Row};
use crate::full::{listing, Shape};
use std::fs::{self, File};
use std::io;
use std::path::{Path, PathBuf};
use std::process::{Command, Stdio};

const BAR: Option<f64> = Some(1.5);

/// Every cell with ten rights and two grants, then some 600 instructions.
const MOSTLY_RIGHTS: Shape = Shape { rights: 10, grants: 2, bytes: 200 };
/// Every cell with one right, then some 3,000 instructions.
const MOSTLY_STEPS: Shape = Shape { rights: 1, grants: 0, bytes: 64 };
/// No cell and no instruction: what of the other rows is the start and the end of a process.
const SMALLEST: &[u8] = b"cells\t1\nsize\t1\t0\ncore\t0\t0\t0\n";

/// A folder of its own for the listings, gone at the end.
struct Folder(PathBuf);

impl Folder {
    fn new() -> io::Result<Folder> {
        let path = std::env::temp_dir().join(format!("measure-{}", std::process::id()));
        fs::create_dir_all(&path)?;
        Ok(Folder(path))
    }
}

impl Drop for Folder {
    fn drop(&mut self) {
        // Nothing is lost if it stays.
        let _ = fs::remove_dir_all(&self.0);
    }
}

/// One run of a program with a listing on standard input. The output goes to a file, or nowhere.
fn run(program: &Path, text: &Path, output: Option<&Path>) -> io::Result<()> {
    let stdout = match output {
        Some(path) => Stdio::from(File::create(path)?),
        None => Stdio::null(),
    };
    let status = Command::new(program).stdin(File::open(text)?).stdout(stdout).status()?;
    if status.success() {
        Ok(())
    } else {
        Err(io::Error::other(format!("{} ended in {status}", program.display())))
    }
}

fn output(program: &Path, text: &Path) -> io::Result<Vec<u8>> {
    let file = text.with_extension("out");
    run(program, text, Some(&file))?;
    fs::read(file)
}

/// The row of one listing, once both programs have taken it for right and written the same.
fn row(name: &str, bar: Option<f64>, text: &[u8], programs: [&Path; 2], folder: &Path) -> io::Result<Row> {
    let file = folder.join(name.replace(' ', "-"));
    fs::write(&file, text)?;
    let written = output(programs[0], &file)?;
    if written.starts_with(b"cells\t1\nbad") || written != output(programs[1], &file)? {
        return Err(io::Error::other(format!("{name}: the two programs do not write the same")));
    }
    let [ours, rust] = programs.map(|program| {
        let (program, file) = (program.to_path_buf(), file.clone());
        Box::new(move || run(&program, &file, None).expect("it ran before"))
    });
    Ok(Row::new(name, bar, 1, ours, rust))
}

/// Measures `cellrun` where it is there.
pub fn rows(ours: &Path, rust: &Path) -> io::Result<()> {
    if !ours.exists() {
        println!("cellrun: not measured, there is no program {}", ours.display());
        return Ok(());
    }
    let folder = Folder::new()?;
    let (programs, at) = ([ours, rust], folder.0.as_path());
    let rows = vec![
        row("cellrun, three lines", None, SMALLEST, programs, at)?,
        row("cellrun, 65 KB, mostly right lines", BAR, &listing(5, &MOSTLY_RIGHTS), programs, at)?,
        row("cellrun, 65 KB, mostly do lines", BAR, &listing(6, &MOSTLY_STEPS), programs, at)?,
    ];
    measure(rows, 10, 50);
    Ok(())
}
