//! Compares the machine, on what the generator makes, with a slow second
//! writing of document 01 that shares no code with it: whole numbers of 128
//! bits, every cell looked at, sets instead of sums of rights, and results made
//! anew instead of altered in place. Also holds the generator to its promises.

use reference::gen::{self, Call, Damage, Random, Spoil};
use reference::{check, run_listing, Registers, Tables};
use std::collections::{BTreeMap, BTreeSet};

type Set = BTreeSet<u8>;

/// Rights as a set of 1, 2 and 4.
fn set(rights: u32) -> Set {
    [1u8, 2, 4].into_iter().filter(|&one| rights & u32::from(one) != 0).collect()
}

fn sum(rights: &Set) -> u32 {
    rights.iter().map(|&one| u32::from(one)).sum()
}

fn slow_lengths(t: &Tables) -> bool {
    let (m, n, l) = (t.m as i128, t.first.len() as i128, t.memory.len() as i128);
    let right = |length: usize, wanted: i128| length as i128 == wanted;
    m >= 1
        && m <= 32
        && n <= 256
        && l <= 65_536
        && right(t.last.len(), n)
        && right(t.offset.len(), n)
        && right(t.marks.len(), n)
        && right(t.rights.len(), n * m)
        && right(t.grants.len(), n * m)
}

fn slow_cell_sound(t: &Tables, cell: usize) -> bool {
    let first = |cell: usize| i128::from(t.first[cell]);
    let last = |cell: usize| i128::from(t.last[cell]);
    let offset = |cell: usize| i128::from(t.offset[cell]);
    let mut sound = first(cell) <= last(cell);
    sound &= offset(cell) + last(cell) - first(cell) < t.memory.len() as i128;
    sound &= t.marks[cell] == 0 || t.marks[cell] == 1;
    let mut holders = 0;
    for division in 0..t.m {
        let rights = t.rights[cell * t.m + division];
        sound &= rights <= 7;
        if rights > 0 {
            holders += 1;
        }
        let grant = t.grants[cell * t.m + division];
        if grant != 0 {
            let (target, rights) = ((grant % 256) as usize, grant / 256);
            sound &= (1..=7).contains(&rights) && target < t.m && target != division;
        }
    }
    sound &= t.marks[cell] != 0 || holders <= 1;
    if cell != 0 {
        let before = cell - 1;
        sound &= first(cell) > last(before);
        sound &= offset(cell) >= offset(before) + last(before) - first(before) + 1;
    }
    sound
}

fn slow_check(t: &Tables) -> (u32, u32) {
    if !slow_lengths(t) {
        return (1, 0);
    }
    match (0..t.first.len()).find(|&cell| !slow_cell_sound(t, cell)) {
        Some(cell) => (2, cell as u32),
        None => (0, 0),
    }
}

/// Answer, view and state afterwards.
type Outcome = ((u32, u32), Vec<u8>, Tables, Registers);

fn slow(t: &Tables, r: &Registers, call: &Call) -> Outcome {
    let refuse = |refusal: (u32, u32)| (refusal, Vec::new(), t.clone(), *r);
    let found = slow_check(t);
    if found.0 != 0 {
        return refuse(found);
    }
    let outcome = slow_cell(t, r, call).and_then(|cell| slow_effect(t, r, call, cell));
    outcome.unwrap_or_else(|number| refuse((number, 0)))
}

/// Checks 3 to 9 in their order; the cell that covers the address.
fn slow_cell(t: &Tables, r: &Registers, call: &Call) -> Result<usize, u32> {
    let refuse_if = |failed: bool, number: u32| if failed { Err(number) } else { Ok(()) };
    let m = t.m as u64;
    refuse_if(u64::from(r.current) >= m || u64::from(r.caller) >= m, 3)?;
    if let Call::Execute { number, y, z, .. } = *call {
        refuse_if(number > 10, 4)?;
        refuse_if(!slow_operands_right(m, r.current, [number, y, z]), 5)?;
    }
    let x = address(call);
    let covering: Vec<usize> =
        (0..t.first.len()).filter(|&cell| t.first[cell] <= x && x <= t.last[cell]).collect();
    let cell = match covering[..] {
        [] => return Err(6),
        [cell] => cell,
        _ => panic!("two cells cover {x} in sound tables"),
    };
    let wanted_mark = if matches!(call, Call::Execute { number: 9, .. }) { 0 } else { 1 };
    refuse_if(t.marks[cell] != wanted_mark, 7)?;
    refuse_if(slow_beyond(i128::from(t.last[cell]), call), 8)?;
    refuse_if(slow_lacking(t, r, call, cell), 9)?;
    Ok(cell)
}

fn address(call: &Call) -> u32 {
    match *call {
        Call::Execute { x, .. } | Call::WriteBlock { x, .. } | Call::View { x, .. } => x,
    }
}

fn slow_operands_right(m: u64, d: u32, [number, y, z]: [u32; 3]) -> bool {
    let division = u64::from(y) < m;
    let other = division && y != d;
    match number {
        1 => y < 256 && z == 0,
        3 => division && z == 0,
        4 => y < 8 && z == 0,
        5 | 7 => other && z > 0 && z < 8,
        6 => other && z == 0,
        _ => y == 0 && z == 0,
    }
}

/// Whether check 8 fails, with the length or the four bytes of a word.
fn slow_beyond(last: i128, call: &Call) -> bool {
    let runs_past = |x: u32, length: usize| i128::from(x) + length as i128 - 1 > last;
    match *call {
        Call::Execute { number: 2 | 3, x, .. } => x % 4 != 0 || runs_past(x, 4),
        Call::Execute { .. } => false,
        Call::WriteBlock { x, ref bytes } => !bytes.is_empty() && runs_past(x, bytes.len()),
        Call::View { x, n } => n != 0 && runs_past(x, n),
    }
}

fn slow_rights(t: &Tables, cell: usize, division: usize) -> Set {
    set(u32::from(t.rights[cell * t.m + division]))
}

/// Whether check 9 fails.
fn slow_lacking(t: &Tables, r: &Registers, call: &Call, cell: usize) -> bool {
    let own = slow_rights(t, cell, r.current as usize);
    match *call {
        Call::Execute { number, y, z, .. } => match number {
            0 => !own.contains(&1),
            1 => !own.contains(&2),
            2 => !own.contains(&4),
            3 => !slow_rights(t, cell, y as usize).contains(&4),
            4 => !set(y).is_subset(&own),
            5 | 7 => !set(z).is_subset(&own),
            6 => false,
            _ => own.is_empty(),
        },
        Call::WriteBlock { .. } => !own.contains(&2),
        Call::View { .. } => !own.contains(&1),
    }
}

/// What comes of a call that has passed check 9.
fn slow_effect(t: &Tables, r: &Registers, call: &Call, cell: usize) -> Result<Outcome, u32> {
    let x = i128::from(address(call));
    let begin = (i128::from(t.offset[cell]) + x - i128::from(t.first[cell])) as usize;
    match *call {
        Call::WriteBlock { ref bytes, .. } => {
            let memory = slow_written(&t.memory, begin, bytes);
            Ok(((0, 0), Vec::new(), Tables { memory, ..t.clone() }, *r))
        }
        Call::View { n, .. } => {
            let seen = t.memory.iter().copied().skip(begin).take(n).collect();
            Ok(((0, 0), seen, t.clone(), *r))
        }
        Call::Execute { number: 3, x, y, .. } => {
            if slow_word(&t.memory, begin) != 11 {
                return Err(12);
            }
            let registers = Registers { current: y, caller: r.current, place: x };
            Ok(((0, r.current), Vec::new(), t.clone(), registers))
        }
        Call::Execute { number, y, z, .. } => {
            let (value, after) = match number {
                0 => (u32::from(t.memory[begin]), t.clone()),
                1 => {
                    let memory = slow_written(&t.memory, begin, &[y as u8]);
                    (0, Tables { memory, ..t.clone() })
                }
                2 => (slow_word(&t.memory, begin), t.clone()),
                _ => slow_tables_after(t, r.current, cell, [number, y, z])?,
            };
            Ok(((0, value), Vec::new(), after, *r))
        }
    }
}

fn slow_written(memory: &[u8], begin: usize, bytes: &[u8]) -> Vec<u8> {
    let new = |place: usize| bytes.get(place.checked_sub(begin)?).copied();
    (0..memory.len()).map(|place| new(place).unwrap_or(memory[place])).collect()
}

fn slow_word(memory: &[u8], begin: usize) -> u32 {
    (0..4).map(|i| u32::from(memory[begin + i]) << (8 * i)).sum()
}

/// Value and tables after an instruction from protect on.
fn slow_tables_after(
    t: &Tables,
    d: u32,
    cell: usize,
    [number, y, z]: [u32; 3],
) -> Result<(u32, Tables), u32> {
    let entry = |division: u32| cell * t.m + division as usize;
    let own = slow_rights(t, cell, d as usize);
    let alone = (0..t.m)
        .all(|division| division == d as usize || slow_rights(t, cell, division).is_empty());
    let mut after = t.clone();
    let left = match number {
        4 if set(y) == own => return Err(13),
        4 => set(y),
        5 | 7 => {
            after.grants[entry(d)] = (y + 256 * z) as u16;
            if number == 5 { own } else { Set::new() }
        }
        6 => {
            let made = u32::from(t.grants[entry(y)]);
            if made == 0 || made % 256 != d {
                return Err(10);
            }
            after.grants[entry(y)] = 0;
            own.union(&set(made / 256)).copied().collect()
        }
        8 if !alone => return Err(11),
        8 | 9 => {
            after.marks[cell] = if number == 8 { 0 } else { 1 };
            own
        }
        _ => return Ok((u32::from(alone), after)),
    };
    after.rights[entry(d)] = sum(&left) as u8;
    Ok((sum(&left), after))
}

fn compare_call(t: &mut Tables, r: &mut Registers, call: &Call, seed: u64) -> (u32, u32) {
    let expected = slow(t, r, call);
    let (number, value, seen) = gen::apply(call, t, r);
    let shown = || format!("seed {seed}, {call:?}");
    assert_eq!((number, value), expected.0, "{}", shown());
    assert_eq!(seen, expected.1, "{}", shown());
    assert!(*t == expected.2, "tables, {}", shown());
    assert_eq!(*r, expected.3, "{}", shown());
    (number, value)
}

#[test]
fn sound_states_compared() {
    for seed in 0..3000 {
        let random = &mut Random::new(seed);
        let (mut t, mut r) = gen::tables_from(random);
        assert_eq!(check(&t), (0, 0), "seed {seed}");
        for _ in 0..40 {
            let call = gen::call(&t, &r, random);
            let (number, _) = compare_call(&mut t, &mut r, &call, seed);
            assert!(number == 0 || number >= 4);
        }
        assert_eq!(check(&t), (0, 0), "seed {seed}");
    }
}

#[test]
fn spoilt_states_compared() {
    let mut done = BTreeMap::new();
    for seed in 0..6000 {
        let random = &mut Random::new(seed);
        let (mut t, mut r) = gen::tables_from(random);
        let before = (t.clone(), r);
        let way = Spoil::ALL[seed as usize % Spoil::ALL.len()];
        let expected = match gen::spoil(&mut t, &mut r, way, random) {
            Some(expected) => expected,
            None => {
                assert_eq!((t, r), before, "{way:?} left something changed");
                continue;
            }
        };
        *done.entry(format!("{way:?}")).or_insert(0) += 1;
        let found = if expected.0 == 3 { (0, 0) } else { expected };
        assert_eq!(check(&t), found, "seed {seed}, {way:?}");
        assert_eq!(slow_check(&t), found, "seed {seed}, {way:?}");
        for _ in 0..8 {
            let call = gen::call(&t, &r, random);
            assert_eq!(compare_call(&mut t, &mut r, &call, seed), expected, "seed {seed}, {way:?}");
        }
    }
    assert_eq!(done.len(), Spoil::ALL.len());
    assert!(done.values().all(|&count| count >= 50), "{done:?}");
}

/// Tables altered at random places: some stay sound, most do not.
#[test]
fn random_alterations_compared() {
    let mut sound = 0;
    for seed in 0..20_000u64 {
        let random = &mut Random::new(seed);
        let (mut t, mut r) = gen::tables_from(random);
        let n = t.first.len();
        if n == 0 || n > 20 {
            continue;
        }
        let near = |value: u32, random: &mut Random| {
            value.wrapping_add(random.pick(&[1, 2, 4, 0, u32::MAX, u32::MAX - 1, u32::MAX - 3]))
        };
        for _ in 0..random.between(1, 3) {
            let cell = random.index(n);
            let entry = random.index(n * t.m);
            match random.below(7) {
                0 => t.first[cell] = near(t.first[cell], random),
                1 => t.last[cell] = near(t.last[cell], random),
                2 => t.offset[cell] = near(t.offset[cell], random),
                3 => t.marks[cell] = random.below(3) as u8,
                4 => t.rights[entry] = random.below(9) as u8,
                5 => t.grants[entry] = (random.below(9) * 256 + random.below(t.m as u64 + 1)) as u16,
                _ => t.memory.truncate(t.memory.len() - random.index(3).min(t.memory.len())),
            }
        }
        assert_eq!(check(&t), slow_check(&t), "seed {seed}");
        sound += u32::from(check(&t) == (0, 0));
        let call = gen::call(&t, &r, random);
        compare_call(&mut t, &mut r, &call, seed);
    }
    assert!(sound > 1000, "{sound}");
}

/// Which edges tables as a whole meet.
fn edges_of_tables(t: &Tables) -> [(&'static str, bool); 7] {
    let n = t.first.len();
    let end = |cell: usize| t.offset[cell] + (t.last[cell] - t.first[cell]);
    [
        ("full", t.m == 32 && n == 256 && t.memory.len() == 65_536),
        ("no cells", n == 0),
        ("no memory", t.memory.is_empty()),
        ("one division", t.m == 1 && n > 0),
        ("top", t.last.last() == Some(&u32::MAX)),
        ("bottom", t.first.first() == Some(&0)),
        ("exact end", n > 0 && end(n - 1) as usize + 1 == t.memory.len()),
    ]
}

/// Which edges one cell meets.
fn edges_of_cell(t: &Tables, cell: usize) -> [(&'static str, bool); 5] {
    let rights = &t.rights[cell * t.m..][..t.m];
    let grants = &t.grants[cell * t.m..][..t.m];
    let holders = rights.iter().filter(|&&held| held > 0).count();
    // 0 for the cell that has none before it.
    let gap = if cell == 0 { 0 } else { t.first[cell] - t.last[cell - 1] };
    [
        ("lone", t.marks[cell] == 0 && holders == 1),
        ("granted", grants.iter().any(|&entry| entry > 0)),
        ("odd offset", t.first[cell] % 4 != t.offset[cell] % 4),
        ("adjacent", gap == 1),
        ("apart", gap > 1),
    ]
}

#[test]
fn the_generator_reaches_the_edges() {
    let mut counts: BTreeMap<&str, u32> = BTreeMap::new();
    for seed in 0..2000 {
        let (t, _) = gen::tables(seed);
        let cells = (0..t.first.len()).flat_map(|cell| edges_of_cell(&t, cell));
        for (edge, met) in edges_of_tables(&t).into_iter().chain(cells) {
            *counts.entry(edge).or_insert(0) += u32::from(met);
        }
    }
    assert_eq!(counts.len(), 12);
    assert!(counts.values().all(|&count| count >= 10), "{counts:?}");
}

// ---------------------------------------------------------------------------
// Listings

const KINDS: [(&str, usize); 8] = [
    ("cells", 1),
    ("size", 2),
    ("cell", 4),
    ("right", 3),
    ("grant", 4),
    ("byte", 2),
    ("core", 3),
    ("do", 4),
];

/// A line's kind and numbers.
type Line = (usize, Vec<u64>);

/// A right line's kind and numbers, or nothing. A number is what decimal
/// writing gives back unchanged.
fn slow_line(line: &str) -> Option<Line> {
    let mut fields = line.split('\t');
    let word = fields.next()?;
    let kind = KINDS.iter().position(|&(name, _)| name == word)?;
    let mut numbers = Vec::new();
    for field in fields {
        let number: u32 = field.parse().ok()?;
        if number.to_string() != field {
            return None;
        }
        numbers.push(u64::from(number));
    }
    (numbers.len() == KINDS[kind].1).then_some((kind, numbers))
}

/// Whether a line is right after the lines before it.
fn slow_line_right(before: &[Line], kind: usize, numbers: &[u64]) -> bool {
    let count = |wanted: usize| before.iter().filter(|line| line.0 == wanted).count();
    // What must stand before has been seen, and nothing that comes after has.
    if before.iter().any(|line| line.0 > kind) {
        return false;
    }
    if (kind > 0 && count(0) == 0) || (kind > 1 && count(1) == 0) || (kind == 7 && count(6) == 0) {
        return false;
    }
    if [0, 1, 6].contains(&kind) && count(kind) > 0 {
        return false;
    }
    let key = |numbers: &[u64]| match kind {
        3 | 4 => (numbers[0], numbers[1]),
        _ => (numbers[0], 0),
    };
    if [3, 4, 5].contains(&kind)
        && before.iter().any(|line| line.0 == kind && key(&line.1) >= key(numbers))
    {
        return false;
    }
    let n = count(2) as u64;
    let size = before.iter().find(|line| line.0 == 1).map_or((0, 0), |line| (line.1[0], line.1[1]));
    match kind {
        0 => numbers[0] == 1,
        1 => (1..=32).contains(&numbers[0]) && numbers[1] <= 65_536,
        2 => n < 256 && numbers[3] < 2,
        3 => numbers[0] < n && numbers[1] < size.0 && (1..8).contains(&numbers[2]),
        4 => {
            numbers[0] < n
                && numbers[1] < size.0
                && numbers[2] < size.0
                && (1..8).contains(&numbers[3])
        }
        5 => numbers[0] < size.1 && (1..256).contains(&numbers[1]),
        _ => true,
    }
}

fn slow_listing(text: &[u8]) -> String {
    match slow_lines(text) {
        Ok(lines) => slow_run(&lines),
        Err(line) => format!("cells\t1\nbad\t{line}\n"),
    }
}

/// The lines of a right text; for a wrong one the number after `bad`.
fn slow_lines(text: &[u8]) -> Result<Vec<Line>, usize> {
    if text.len() > 65_536 {
        return Err(0);
    }
    // Each byte as one sign, so that no byte text is beyond a string.
    let text: String = text.iter().map(|&byte| char::from(byte)).collect();
    let mut pieces: Vec<&str> = text.split('\n').collect();
    // What stands after the last LF is a line without its LF, unless empty.
    let unended = pieces.pop().unwrap_or("");
    let mut lines: Vec<Line> = Vec::new();
    for (i, piece) in pieces.iter().enumerate() {
        match slow_line(piece) {
            Some((kind, numbers)) if slow_line_right(&lines, kind, &numbers) => {
                lines.push((kind, numbers))
            }
            _ => return Err(i + 1),
        }
    }
    if !unended.is_empty() || !lines.iter().any(|line| line.0 == 6) {
        return Err(pieces.len() + 1);
    }
    Ok(lines)
}

/// The numbers of the lines of one kind.
fn of(lines: &[Line], kind: usize) -> impl Iterator<Item = &Vec<u64>> {
    lines.iter().filter(move |line| line.0 == kind).map(|line| &line.1)
}

/// Zeros but for the entries that the lines of one kind name, each by its place
/// and its value.
fn slow_list(
    lines: &[Line],
    kind: usize,
    length: u64,
    entry: impl Fn(&[u64]) -> (u64, u64),
) -> Vec<u64> {
    let mut list = vec![0; length as usize];
    for line in of(lines, kind) {
        let (place, value) = entry(line);
        list[place as usize] = value;
    }
    list
}

/// The state that the lines before the steps describe.
fn slow_state(lines: &[Line]) -> (Tables, Registers) {
    let size = of(lines, 1).next().unwrap();
    let core = of(lines, 6).next().unwrap();
    let (m, l, n) = (size[0], size[1], of(lines, 2).count() as u64);
    let bytes = |list: Vec<u64>| list.into_iter().map(|entry| entry as u8).collect();
    let column = |at: usize| of(lines, 2).map(move |line| line[at] as u32).collect();
    let made = |line: &[u64]| line[2] + 256 * line[3];
    let grants = slow_list(lines, 4, n * m, |line| (line[0] * m + line[1], made(line)));
    let t = Tables {
        m: m as usize,
        first: column(0),
        last: column(1),
        offset: column(2),
        marks: bytes(of(lines, 2).map(|line| line[3]).collect()),
        rights: bytes(slow_list(lines, 3, n * m, |line| (line[0] * m + line[1], line[2]))),
        grants: grants.into_iter().map(|entry| entry as u16).collect(),
        memory: bytes(slow_list(lines, 5, l, |line| (line[0], line[1]))),
    };
    let [current, caller, place] = [core[0], core[1], core[2]].map(|field| field as u32);
    (t, Registers { current, caller, place })
}

/// What a right listing comes to.
fn slow_run(lines: &[Line]) -> String {
    let (mut t, mut r) = slow_state(lines);
    let mut out = "cells\t1\n".to_string();
    for (i, line) in of(lines, 7).enumerate() {
        let [number, x, y, z] = [line[0], line[1], line[2], line[3]].map(|field| field as u32);
        let ((number, value), _, after, registers) =
            slow(&t, &r, &Call::Execute { number, x, y, z });
        (t, r) = (after, registers);
        out += &format!("answer\t{}\t{number}\t{value}\n", i + 1);
    }
    out += &format!("core\t{}\t{}\t{}\n", r.current, r.caller, r.place);
    out += &slow_entry_lines(&t, |cell, division, entry| match t.rights[entry] {
        0 => String::new(),
        rights => format!("right\t{cell}\t{division}\t{rights}\n"),
    });
    out += &slow_entry_lines(&t, |cell, from, entry| match t.grants[entry] {
        0 => String::new(),
        made => format!("grant\t{cell}\t{from}\t{}\t{}\n", made % 256, made / 256),
    });
    out
}

/// What is written for each cell, division and entry, in order.
fn slow_entry_lines(t: &Tables, written: impl Fn(usize, usize, usize) -> String) -> String {
    let pairs = (0..t.first.len()).flat_map(|cell| (0..t.m).map(move |division| (cell, division)));
    pairs.map(|(cell, division)| written(cell, division, cell * t.m + division)).collect()
}

fn compare_listing(text: &[u8], what: &str) -> String {
    let out = String::from_utf8(run_listing(text)).unwrap();
    assert!(out == slow_listing(text), "{what}");
    out
}

#[test]
fn listings_compared() {
    let (mut unsound, mut accepted, mut exact, mut too_long) = (0, 0, 0, 0);
    for seed in 0..1500 {
        let text = gen::listing(seed);
        let out = compare_listing(&text, &format!("seed {seed}"));
        exact += u32::from(text.len() == 65_536);
        if text.len() > 65_536 {
            assert_eq!(out, "cells\t1\nbad\t0\n", "seed {seed}");
            too_long += 1;
            continue;
        }
        assert!(!out.starts_with("cells\t1\nbad"), "seed {seed}: {out}");
        unsound += u32::from(out.contains("answer\t1\t2\t"));
        accepted += u32::from(out.lines().any(|line| {
            line.starts_with("answer") && line.split('\t').nth(2) == Some("0")
        }));
    }
    assert!(unsound > 50 && accepted > 500, "{unsound} {accepted}");
    assert!(exact > 5 && too_long > 5, "{exact} {too_long}");
}

#[test]
fn damaged_listings_compared() {
    for seed in 0..6000u64 {
        let whole = gen::listing(seed / 4);
        let text = gen::damage(&whole, seed);
        compare_listing(&text, &format!("seed {seed}"));
    }
}

#[test]
fn every_damage_is_done() {
    let mut wrong: BTreeMap<String, u32> = BTreeMap::new();
    for way in Damage::ALL {
        for seed in 0..60 {
            let random = &mut Random::new(seed);
            let whole = gen::listing(seed);
            let text = gen::damage_so(&whole, way, random);
            let out = compare_listing(&text, &format!("{way:?}, seed {seed}"));
            let is_wrong = out.starts_with("cells\t1\nbad");
            *wrong.entry(format!("{way:?}")).or_insert(0) += u32::from(is_wrong);
        }
    }
    // Text of just the longest length is right; everything else is wrong often.
    for (way, count) in &wrong {
        assert!(way == "ExactLength" || *count >= 5, "{way}: {count}");
    }
    // Damage works on any bytes, and on nothing.
    for way in Damage::ALL {
        for text in [&b""[..], b"\n", b"\t", b"cells", b"\xff\xfe\n\n\t\t\n"] {
            for seed in 0..20 {
                let damaged = gen::damage_so(text, way, &mut Random::new(seed));
                compare_listing(&damaged, &format!("{way:?} on {text:?}, seed {seed}"));
            }
        }
    }
}

/// Random bytes and random pieces of lines: never a panic, always an answer.
#[test]
fn noise_is_answered() {
    let pieces = [
        "cells", "size", "cell", "right", "grant", "byte", "core", "do", "\t", "\t", "\t", "\n",
        "\n", "0", "1", "2", "3", "16", "4294967295", "4294967296", "\r", "",
    ];
    for seed in 0..20_000 {
        let random = &mut Random::new(seed);
        let mut text = Vec::new();
        if random.one_in(2) {
            text.extend_from_slice(b"cells\t1\nsize\t2\t4\ncell\t0\t3\t0\t1\n");
        }
        for _ in 0..random.index(30) {
            if random.one_in(10) {
                text.push(random.number() as u8);
            } else {
                text.extend_from_slice(random.pick(&pieces).as_bytes());
            }
        }
        compare_listing(&text, &format!("seed {seed}"));
    }
}
