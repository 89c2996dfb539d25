//! The program `cellrun` as a function from text to text. The text is gone over once, byte by byte: each `do` line is run as
//! soon as it is read, on tables that were checked once, and its answer goes straight into the one output buffer. Where a
//! later line turns out wrong, what the buffer holds is dropped.

use crate::quick::{self, MOST_CELLS, MOST_DIVISIONS, MOST_MEMORY};
use cells::{Lent, Registers, Tables};

/// A longer text is wrong as a whole.
pub const MOST_TEXT: usize = 65_536;

/// The place of an entry in the rights or the grants, for a cell and a division that exist.
fn entry(t: &Tables, cell: u32, division: u32) -> Option<usize> {
    let (cell, division) = (cell as usize, division as usize);
    (cell < t.first.len() && division < t.m).then(|| cell * t.m + division)
}

/// The text that is left to read, and the number of the line that it begins in.
struct Reader<'a> {
    rest: &'a [u8],
    line: u32,
}

impl Reader<'_> {
    /// Steps over a line's word and the tab after it, if the line begins so.
    #[inline]
    fn word(&mut self, word: &[u8]) -> bool {
        match self.rest.strip_prefix(word) {
            Some(rest) => {
                self.rest = rest;
                true
            }
            None => false,
        }
    }

    /// Steps over a number without leading zeros, and the byte after it, which must be `end`. Ten digits stay far inside 64
    /// bits; an eleventh is not `end`.
    #[inline]
    fn number(&mut self, end: u8) -> Option<u32> {
        let digit = |at: usize| self.rest.get(at).map_or(u8::MAX, |byte| byte.wrapping_sub(b'0'));
        let lead = digit(0);
        let mut sum = u64::from(lead);
        let mut digits = 1;
        while lead != 0 && digits < 10 && digit(digits) <= 9 {
            sum = 10 * sum + u64::from(digit(digits));
            digits += 1;
        }
        if lead > 9 || self.rest.get(digits) != Some(&end) {
            return None;
        }
        self.rest = &self.rest[digits + 1..];
        u32::try_from(sum).ok()
    }

    /// The numbers that end a line. The next line has begun once they are read.
    #[inline]
    fn numbers<const COUNT: usize>(&mut self) -> Option<[u32; COUNT]> {
        let mut numbers = [0; COUNT];
        for (at, number) in numbers.iter_mut().enumerate() {
            *number = self.number(if at + 1 == COUNT { b'\n' } else { b'\t' })?;
        }
        Some(numbers)
    }
}

/// The whole program: listing text in, output text out, for every byte text.
pub fn run(text: &[u8]) -> Vec<u8> {
    let mut out = Vec::with_capacity(2 * MOST_TEXT);
    put_line(&mut out, b"cells", &[1]);
    let start = out.len();
    let mut reader = Reader { rest: text, line: 1 };
    if text.len() > MOST_TEXT {
        put_line(&mut out, b"bad", &[0]);
    } else if run_lines(&mut reader, &mut out).is_none() {
        out.truncate(start);
        put_line(&mut out, b"bad", &[reader.line]);
    }
    out
}

/// Reads and runs all lines. The reader stays in the line that is wrong.
fn run_lines(reader: &mut Reader, out: &mut Vec<u8>) -> Option<()> {
    let mut tables = read_head(reader)?;
    read_rights(reader, &mut tables)?;
    read_grants(reader, &mut tables)?;
    read_bytes(reader, &mut tables.memory)?;
    if !reader.word(b"core\t") {
        return None;
    }
    let [current, caller, place] = reader.numbers()?;
    reader.line += 1;
    let registers = run_steps(reader, &mut tables.lent(), Registers { current, caller, place }, out)?;
    put_state(&tables, &registers, out);
    Some(())
}

/// `cells`, `size` and the `cell` lines: tables with no right, no grant and no byte but 0.
fn read_head(reader: &mut Reader) -> Option<Tables> {
    if !reader.word(b"cells\t1\n") {
        return None;
    }
    reader.line += 1;
    if !reader.word(b"size\t") {
        return None;
    }
    let [m, l] = reader.numbers()?;
    let (m, l) = (m as usize, l as usize);
    if !(1..=MOST_DIVISIONS).contains(&m) || l > MOST_MEMORY {
        return None;
    }
    reader.line += 1;
    let room = || Vec::with_capacity(MOST_CELLS);
    let (mut first, mut last, mut offset) = (room(), room(), room());
    let mut marks = Vec::with_capacity(MOST_CELLS);
    while reader.word(b"cell\t") {
        let [begin, end, place, mark] = reader.numbers()?;
        if first.len() == MOST_CELLS || mark > 1 {
            return None;
        }
        first.push(begin);
        last.push(end);
        offset.push(place);
        marks.push(mark as u8);
        reader.line += 1;
    }
    let entries = first.len() * m;
    Some(Tables { m, first, last, offset, marks, rights: vec![0; entries], grants: vec![0; entries], memory: vec![0; l] })
}

/// Lines rise strictly by their entry, which is where they lie in the list.
fn read_rights(reader: &mut Reader, tables: &mut Tables) -> Option<()> {
    let mut free = 0;
    while reader.word(b"right\t") {
        let [cell, division, rights] = reader.numbers()?;
        let entry = entry(tables, cell, division)?;
        if entry < free || !(1..=7).contains(&rights) {
            return None;
        }
        tables.rights[entry] = rights as u8;
        free = entry + 1;
        reader.line += 1;
    }
    Some(())
}

fn read_grants(reader: &mut Reader, tables: &mut Tables) -> Option<()> {
    let mut free = 0;
    while reader.word(b"grant\t") {
        let [cell, from, to, rights] = reader.numbers()?;
        let entry = entry(tables, cell, from)?;
        if entry < free || to as usize >= tables.m || !(1..=7).contains(&rights) {
            return None;
        }
        tables.grants[entry] = (to + 256 * rights) as u16;
        free = entry + 1;
        reader.line += 1;
    }
    Some(())
}

fn read_bytes(reader: &mut Reader, memory: &mut [u8]) -> Option<()> {
    let mut free = 0;
    while reader.word(b"byte\t") {
        let [offset, value] = reader.numbers()?;
        let offset = offset as usize;
        if offset < free || !(1..=255).contains(&value) {
            return None;
        }
        *memory.get_mut(offset)? = value as u8;
        free = offset + 1;
        reader.line += 1;
    }
    Some(())
}

/// Runs the `do` lines, which are all that may be left; the registers afterwards.
fn run_steps(reader: &mut Reader, lent: &mut Lent, start: Registers, out: &mut Vec<u8>) -> Option<Registers> {
    let checked = quick::check(lent);
    let mut registers = start;
    let mut position = 0;
    while reader.word(b"do\t") {
        let instruction = reader.numbers()?;
        position += 1;
        let (number, value) = match checked {
            Err(refusal) => refusal,
            Ok(()) => {
                let reply = quick::execute_sound(lent, registers, instruction);
                registers = reply.registers;
                (reply.number, reply.value)
            }
        };
        put_line(out, b"answer", &[position, number, value]);
        reader.line += 1;
    }
    reader.rest.is_empty().then_some(registers)
}

// ---- the output

/// The registers, then the rights and the grants that are not 0.
fn put_state(t: &Tables, r: &Registers, out: &mut Vec<u8>) {
    put_line(out, b"core", &[r.current, r.caller, r.place]);
    for (cell, row) in (0..).zip(t.rights.chunks_exact(t.m)) {
        for (division, &rights) in (0..).zip(row) {
            if rights != 0 {
                put_line(out, b"right", &[cell, division, u32::from(rights)]);
            }
        }
    }
    for (cell, row) in (0..).zip(t.grants.chunks_exact(t.m)) {
        for (from, &entry) in (0..).zip(row) {
            if entry != 0 {
                put_line(out, b"grant", &[cell, from, u32::from(entry & 255), u32::from(entry >> 8)]);
            }
        }
    }
}

/// One line: a word and at most four numbers, parted by tabs. It is put together in a small store first, so that the output
/// grows once for a line.
#[inline]
pub fn put_line(out: &mut Vec<u8>, word: &[u8], numbers: &[u32]) {
    let mut line = [b'\t'; 64];
    line[..word.len()].copy_from_slice(word);
    let mut end = word.len();
    for &number in numbers {
        end += 1 + put_number(&mut line[end + 1..], number);
    }
    line[end] = b'\n';
    out.extend_from_slice(&line[..=end]);
}

/// Writes a number from its last digit on; how many digits it has. Most numbers of a listing have one.
#[inline]
fn put_number(line: &mut [u8], number: u32) -> usize {
    if number < 10 {
        line[0] = b'0' + number as u8;
        return 1;
    }
    let digits = number.ilog10() as usize + 1;
    let mut rest = number;
    for place in line[..digits].iter_mut().rev() {
        *place = b'0' + (rest % 10) as u8;
        rest /= 10;
    }
    digits
}
