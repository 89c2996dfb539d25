//! Damaged lines: lines lost, moved, added or altered.

use super::fields::edit_field;
use super::{Damage, Random};
use crate::machine::MOST_CELLS;

/// The ways that lose, move or add whole lines or alter all of them; all others
/// are for the one line at `at`. There is at least one line.
pub(super) fn damage_lines(lines: &mut Vec<Vec<u8>>, at: usize, way: Damage, random: &mut Random) {
    let end = lines.len();
    let core = lines.iter().position(|line| line.starts_with(b"core\t")).unwrap_or(end);
    match way {
        Damage::NoLastLf => {
            lines[end - 1].pop();
        }
        Damage::CrEverywhere => lines.iter_mut().for_each(|line| before_lf(line, b"\r")),
        Damage::DropLine => {
            lines.remove(at);
        }
        Damage::RepeatLine => lines.insert(at, lines[at].clone()),
        Damage::SwapLines => lines.swap(at, (at + 1) % end),
        Damage::MoveLine => {
            let line = lines.remove(at);
            put_in(lines, 0, end - 1, &line, random);
        }
        Damage::BlankLine => put_in(lines, 0, end, b"\n", random),
        Damage::CutAtLine => lines.truncate(at),
        Damage::CutBeforeCore => lines.truncate(core),
        Damage::ManyCells => many_cells(lines, random),
        Damage::SecondCore => put_in(lines, core, end, b"core\t0\t0\t0\n", random),
        Damage::SecondSize => put_in(lines, 0, end, b"size\t1\t16\n", random),
        Damage::DoBeforeCore => put_in(lines, 0, core, b"do\t0\t0\t0\t0\n", random),
        _ => damage_line(&mut lines[at], way, random),
    }
}

/// Puts a line in between two places, both included.
fn put_in(lines: &mut Vec<Vec<u8>>, low: usize, high: usize, line: &[u8], random: &mut Random) {
    let to = random.between(low as u64, high as u64) as usize;
    lines.insert(to, line.to_vec());
}

/// Up to 256 or 257 `cell` lines, so that the last is right or wrong.
fn many_cells(lines: &mut Vec<Vec<u8>>, random: &mut Random) {
    let is_cell = |line: &Vec<u8>| line.starts_with(b"cell\t");
    let there = lines.iter().filter(|line| is_cell(line)).count();
    let after = lines.iter().rposition(is_cell).map_or(2.min(lines.len()), |at| at + 1);
    let wanted = random.pick(&[MOST_CELLS, MOST_CELLS + 1, MOST_CELLS + 1]);
    for _ in there..wanted {
        lines.insert(after, b"cell\t1\t0\t0\t0\n".to_vec());
    }
}

/// The ways that alter one line; all others are for one of its fields.
fn damage_line(line: &mut Vec<u8>, way: Damage, random: &mut Random) {
    match way {
        Damage::CrBeforeLf => before_lf(line, b"\r"),
        Damage::TrailingTab => before_lf(line, b"\t"),
        Damage::TrailingSpace => before_lf(line, b" "),
        Damage::ExtraField => before_lf(line, b"\t0"),
        Damage::LeadingTab => line.insert(0, b'\t'),
        Damage::DoubleTab => edit_tab(line, b"\t\t", random),
        Damage::SpaceForTab => edit_tab(line, b" ", random),
        Damage::DropField => {
            let cut = line.iter().rposition(|&byte| byte == b'\t').unwrap_or(0);
            line.truncate(cut);
            line.push(b'\n');
        }
        Damage::Keyword => {
            let word: &[u8] = random.pick(&WORDS);
            let cut = line.iter().position(|&byte| byte == b'\t').unwrap_or(0);
            line.splice(..cut, word.iter().copied());
        }
        _ => edit_field(line, way, random),
    }
}

/// Words that a line may begin with by mistake, some of them right elsewhere.
const WORDS: [&[u8]; 15] = [
    b"Cells", b"cell", b"cells", b"right", b"grant", b"byte", b"core", b"do", b"d", b"doo",
    b"size", b"", b"#", b"answer", b"mark",
];

/// Puts bytes before a line's LF, or at its end if it has none.
fn before_lf(line: &mut Vec<u8>, bytes: &[u8]) {
    let end = line.len() - usize::from(line.ends_with(b"\n"));
    line.splice(end..end, bytes.iter().copied());
}

/// Puts other bytes in the place of one of a line's tabs.
fn edit_tab(line: &mut Vec<u8>, bytes: &[u8], random: &mut Random) {
    let tabs: Vec<usize> = (0..line.len()).filter(|&at| line[at] == b'\t').collect();
    if tabs.is_empty() {
        return;
    }
    let at = random.pick(&tabs);
    line.splice(at..at + 1, bytes.iter().copied());
}
