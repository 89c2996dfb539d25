//! The listing: its text form, and the program `cellrun` as a function from
//! text to text.

use crate::machine::{
    check, execute_checked, grant_entry, grant_parts, refusal, Registers, Tables, MOST_CELLS,
    MOST_DIVISIONS, MOST_MEMORY,
};

/// A longer text is wrong as a whole, whatever its lines say.
pub const MOST_TEXT: usize = 65_536;

/// A `do` line's four numbers beside its position, counted from 1.
#[derive(Clone, Copy, PartialEq, Eq, Debug)]
pub struct Step {
    pub position: u32,
    pub number: u32,
    pub x: u32,
    pub y: u32,
    pub z: u32,
}

/// All that a right listing says. The tables need not be sound.
#[derive(Clone, PartialEq, Eq, Debug)]
pub struct Listing {
    pub tables: Tables,
    pub registers: Registers,
    pub steps: Vec<Step>,
}

/// The kinds of line, in the order in which they come.
#[derive(Clone, Copy, PartialEq, Eq, PartialOrd, Ord, Debug)]
enum Kind {
    Cells,
    Size,
    Cell,
    Right,
    Grant,
    Byte,
    Core,
    Do,
}

/// Reads a listing; for wrong text the value of refusal 14: the lowest wrong
/// line, or 0 if the text is too long.
pub fn read_listing(text: &[u8]) -> Result<Listing, u32> {
    if text.len() > MOST_TEXT {
        return Err(0);
    }
    let mut reader = Reader::new();
    let mut line = 0u32;
    let mut rest = text;
    while !rest.is_empty() {
        line += 1;
        // A last line without LF is wrong itself.
        let end = rest.iter().position(|&byte| byte == b'\n').ok_or(line)?;
        reader.take_line(&rest[..end]).ok_or(line)?;
        rest = &rest[end + 1..];
    }
    if reader.latest < Some(Kind::Core) {
        return Err(line + 1);
    }
    Ok(reader.listing)
}

/// What has been read so far.
struct Reader {
    listing: Listing,
    /// The kind of the line before, none before the first line.
    latest: Option<Kind>,
    /// The sort key of the line before, where it was of the same kind.
    key: Option<(u32, u32)>,
}

impl Reader {
    fn new() -> Self {
        let tables = Tables {
            m: 0,
            first: Vec::new(),
            last: Vec::new(),
            offset: Vec::new(),
            marks: Vec::new(),
            rights: Vec::new(),
            grants: Vec::new(),
            memory: Vec::new(),
        };
        let registers = Registers { current: 0, caller: 0, place: 0 };
        Reader {
            listing: Listing { tables, registers, steps: Vec::new() },
            latest: None,
            key: None,
        }
    }

    /// Takes one line without its LF; nothing if the line is wrong here.
    fn take_line(&mut self, line: &[u8]) -> Option<()> {
        let (kind, fields, count) = split(line)?;
        if !may_follow(self.latest, kind) {
            return None;
        }
        if self.latest != Some(kind) {
            self.key = None;
        }
        self.latest = Some(kind);
        match (kind, &fields[..count]) {
            (Kind::Cells, &[1]) => Some(()),
            (Kind::Size, &[m, l]) => self.take_size(m, l),
            (Kind::Cell, &[first, last, offset, mark]) => self.take_cell(first, last, offset, mark),
            (Kind::Right, &[cell, division, rights]) => self.take_right(cell, division, rights),
            (Kind::Grant, &[cell, from, to, rights]) => self.take_grant(cell, from, to, rights),
            (Kind::Byte, &[offset, value]) => self.take_byte(offset, value),
            (Kind::Core, &[current, caller, place]) => {
                self.listing.registers = Registers { current, caller, place };
                Some(())
            }
            (Kind::Do, &[number, x, y, z]) => {
                let position = self.listing.steps.len() as u32 + 1;
                self.listing.steps.push(Step { position, number, x, y, z });
                Some(())
            }
            // A field too few or too many, or `cells` with another number.
            _ => None,
        }
    }

    fn take_size(&mut self, m: u32, l: u32) -> Option<()> {
        let (m, l) = (m as usize, l as usize);
        if m < 1 || m > MOST_DIVISIONS || l > MOST_MEMORY {
            return None;
        }
        self.listing.tables.m = m;
        self.listing.tables.memory.resize(l, 0);
        Some(())
    }

    /// First, last and offset may be any numbers here: what does not fit
    /// together makes unsound tables, not wrong text.
    fn take_cell(&mut self, first: u32, last: u32, offset: u32, mark: u32) -> Option<()> {
        let t = &mut self.listing.tables;
        if t.first.len() == MOST_CELLS || mark > 1 {
            return None;
        }
        t.first.push(first);
        t.last.push(last);
        t.offset.push(offset);
        t.marks.push(mark as u8);
        t.rights.resize(t.rights.len() + t.m, 0);
        t.grants.resize(t.grants.len() + t.m, 0);
        Some(())
    }

    fn take_right(&mut self, cell: u32, division: u32, rights: u32) -> Option<()> {
        let entry = self.entry(cell, division)?;
        self.rises((cell, division))?;
        self.listing.tables.rights[entry] = some_rights(rights)?;
        Some(())
    }

    /// The target must exist. That it is not the granter is a matter of
    /// soundness, not of the text.
    fn take_grant(&mut self, cell: u32, from: u32, to: u32, rights: u32) -> Option<()> {
        let entry = self.entry(cell, from)?;
        self.entry(cell, to)?;
        self.rises((cell, from))?;
        self.listing.tables.grants[entry] = grant_entry(to, some_rights(rights)?);
        Some(())
    }

    fn take_byte(&mut self, offset: u32, value: u32) -> Option<()> {
        self.rises((offset, 0))?;
        if !(1..=255).contains(&value) {
            return None;
        }
        *self.listing.tables.memory.get_mut(offset as usize)? = value as u8;
        Some(())
    }

    /// Where the entry of an existing cell and an existing division stands.
    fn entry(&self, cell: u32, division: u32) -> Option<usize> {
        let t = &self.listing.tables;
        let (cell, division) = (cell as usize, division as usize);
        if cell < t.first.len() && division < t.m {
            Some(cell * t.m + division)
        } else {
            None
        }
    }

    /// Lines of one kind rise strictly by their key.
    fn rises(&mut self, key: (u32, u32)) -> Option<()> {
        if self.key.map_or(false, |before| before >= key) {
            return None;
        }
        self.key = Some(key);
        Some(())
    }
}

/// Whether a line of this kind may come after the line before. `cells`, `size`
/// and `core` come once; the kinds between may be missing.
fn may_follow(before: Option<Kind>, kind: Kind) -> bool {
    match before {
        None => kind == Kind::Cells,
        Some(Kind::Cells) => kind == Kind::Size,
        Some(Kind::Core) | Some(Kind::Do) => kind == Kind::Do,
        Some(between) => kind >= between && kind != Kind::Size && kind <= Kind::Core,
    }
}

/// Kind, numbers and their count; nothing if a field is not a number or there
/// are more than four.
fn split(line: &[u8]) -> Option<(Kind, [u32; 4], usize)> {
    let mut parts = line.split(|&byte| byte == b'\t');
    let kind = match parts.next()? {
        b"cells" => Kind::Cells,
        b"size" => Kind::Size,
        b"cell" => Kind::Cell,
        b"right" => Kind::Right,
        b"grant" => Kind::Grant,
        b"byte" => Kind::Byte,
        b"core" => Kind::Core,
        b"do" => Kind::Do,
        _ => return None,
    };
    let mut fields = [0u32; 4];
    let mut count = 0;
    for part in parts {
        *fields.get_mut(count)? = number(part)?;
        count += 1;
    }
    Some((kind, fields, count))
}

/// A decimal number without leading zeros, at most 4,294,967,295. With at most
/// ten digits the sum stays far inside 64 bits.
fn number(field: &[u8]) -> Option<u32> {
    if field.is_empty() || field.len() > 10 || (field[0] == b'0' && field.len() > 1) {
        return None;
    }
    let mut sum = 0u64;
    for &byte in field {
        if !byte.is_ascii_digit() {
            return None;
        }
        sum = sum * 10 + u64::from(byte - b'0');
    }
    u32::try_from(sum).ok()
}

/// Rights 1 to 7.
fn some_rights(rights: u32) -> Option<u8> {
    if (1..=7).contains(&rights) {
        Some(rights as u8)
    } else {
        None
    }
}

// ---------------------------------------------------------------------------
// The program

/// The whole program `cellrun`: listing text in, output text out, for every
/// byte text.
pub fn run_listing(text: &[u8]) -> Vec<u8> {
    let mut out = Vec::new();
    put_line(&mut out, "cells", &[1]);
    match read_listing(text) {
        Err(line) => put_line(&mut out, "bad", &[line]),
        Ok(mut listing) => {
            run_steps(&mut listing, &mut out);
            put_state(&listing.tables, &listing.registers, &mut out);
        }
    }
    out
}

/// Runs all steps and writes their answers. The tables are checked once: if
/// they are sound they stay so, and if they are not, every step is refused and
/// they stay as they are.
fn run_steps(listing: &mut Listing, out: &mut Vec<u8>) {
    let Listing { tables, registers, steps } = listing;
    let found = check(tables);
    for step in steps.iter() {
        let (number, value) = if found.0 == refusal::ACCEPTED {
            execute_checked(tables, registers, step.number, step.x, step.y, step.z)
        } else {
            found
        };
        put_line(out, "answer", &[step.position, number, value]);
    }
}

/// The registers, then all rights, then all grants, in order.
fn put_state(t: &Tables, r: &Registers, out: &mut Vec<u8>) {
    put_line(out, "core", &[r.current, r.caller, r.place]);
    for (cell, row) in (0u32..).zip(t.rights.chunks_exact(t.m)) {
        for (division, &rights) in (0u32..).zip(row) {
            if rights != 0 {
                put_line(out, "right", &[cell, division, u32::from(rights)]);
            }
        }
    }
    for (cell, row) in (0u32..).zip(t.grants.chunks_exact(t.m)) {
        for (from, &entry) in (0u32..).zip(row) {
            if let Some((to, rights)) = grant_parts(entry) {
                put_line(out, "grant", &[cell, from, to, u32::from(rights)]);
            }
        }
    }
}

/// One line: a word and numbers, parted by tabs, ended by LF.
pub(crate) fn put_line(out: &mut Vec<u8>, word: &str, numbers: &[u32]) {
    out.extend_from_slice(word.as_bytes());
    for &number in numbers {
        out.push(b'\t');
        put_number(out, number);
    }
    out.push(b'\n');
}

/// A number in decimal, written from its last digit into a small store first.
fn put_number(out: &mut Vec<u8>, number: u32) {
    let mut digits = [0u8; 10];
    let mut start = digits.len();
    let mut rest = number;
    loop {
        start -= 1;
        digits[start] = b'0' + (rest % 10) as u8;
        rest /= 10;
        if rest == 0 {
            break;
        }
    }
    out.extend_from_slice(&digits[start..]);
}
