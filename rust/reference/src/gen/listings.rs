//! Listings as text: tables, sound or spoilt, with registers and steps that suit them.

use super::words::{entry_address, place_of, put_word};
use super::{call, spoil, tables_from, Call, Random, Spoil};
use crate::listing::{put_line, MOST_TEXT};
use crate::machine::{execute, grant_parts, Registers, Tables, ENTRY_WORD};

/// The text of a listing: entries that are not 0, then the steps.
pub fn listing_text(t: &Tables, r: &Registers, steps: &[[u32; 4]]) -> Vec<u8> {
    let mut out = Vec::new();
    put_line(&mut out, "cells", &[1]);
    put_line(&mut out, "size", &[t.m as u32, t.memory.len() as u32]);
    for cell in 0..t.first.len() {
        let mark = u32::from(t.marks[cell]);
        put_line(&mut out, "cell", &[t.first[cell], t.last[cell], t.offset[cell], mark]);
    }
    for (entry, &rights) in t.rights.iter().enumerate() {
        if rights != 0 {
            let (cell, division) = cell_and_division(entry, t.m);
            put_line(&mut out, "right", &[cell, division, u32::from(rights)]);
        }
    }
    for (entry, &made) in t.grants.iter().enumerate() {
        if let Some((to, rights)) = grant_parts(made) {
            let (cell, from) = cell_and_division(entry, t.m);
            put_line(&mut out, "grant", &[cell, from, to, u32::from(rights)]);
        }
    }
    for (offset, &byte) in t.memory.iter().enumerate() {
        if byte != 0 {
            put_line(&mut out, "byte", &[offset as u32, u32::from(byte)]);
        }
    }
    put_line(&mut out, "core", &[r.current, r.caller, r.place]);
    for step in steps {
        put_line(&mut out, "do", step);
    }
    out
}

/// Which cell and division an entry of the rights or the grant list is for.
fn cell_and_division(entry: usize, m: usize) -> (u32, u32) {
    ((entry / m) as u32, (entry % m) as u32)
}

/// A listing, nearly always right: three of four with sound tables and
/// registers in range, the others unsound or with a core out of range. A few
/// are exactly as long as a listing may be, or one byte longer.
pub fn listing(seed: u64) -> Vec<u8> {
    let random = &mut Random::new(seed);
    let (mut t, mut r) = tables_from(random);
    // What is thinned out leaves the tables sound and the text short enough.
    thin(&mut t.rights, 1000, random);
    thin(&mut t.grants, 800, random);
    thin_memory(&mut t, 800, random);
    if random.one_in(4) {
        let way = random.pick(&Spoil::IN_LISTINGS);
        spoil(&mut t, &mut r, way, random);
    }
    let mut steps = Vec::new();
    let wanted = random.pick(&[0, 1, 5, 30, 200]);
    let (mut then, mut registers) = (t.clone(), r);
    while steps.len() < wanted {
        // Block writes and views have no line; each step suits the state that
        // the steps before it have left.
        if let Call::Execute { number, x, y, z } = call(&then, &registers, random) {
            execute(&mut then, &mut registers, number, x, y, z);
            steps.push([number, x, y, z]);
        }
    }
    let mut text = listing_text(&t, &r, &steps);
    if random.one_in(32) {
        let length = MOST_TEXT + random.pick(&[0, 0, 1]);
        lengthen(&mut text, length, random);
    }
    text
}

/// Sets entries to 0 so that about `most` stay.
fn thin<T: Copy + Default + PartialEq>(list: &mut [T], most: u64, random: &mut Random) {
    let none = T::default();
    let there = list.iter().filter(|&&entry| entry != none).count() as u64;
    for entry in list.iter_mut() {
        if *entry != none && there > most && random.below(there) >= most {
            *entry = none;
        }
    }
}

/// Thins the memory but keeps entry words, without which no switch succeeds.
fn thin_memory(t: &mut Tables, most: u64, random: &mut Random) {
    let entries: Vec<usize> = (0..t.first.len())
        .filter_map(|cell| {
            let address = entry_address(t, cell)?;
            Some(place_of(t, cell, address))
        })
        .collect();
    thin(&mut t.memory, most, random);
    for place in entries {
        put_word(t, place, ENTRY_WORD);
    }
}

/// Adds `do` lines until the text has exactly the length, if it is not already
/// too long for that. A `do` line has 11 to 47 bytes.
pub(super) fn lengthen(text: &mut Vec<u8>, length: usize, random: &mut Random) {
    while length.saturating_sub(text.len()) >= 11 {
        let missing = length - text.len();
        // Either the whole rest, or so much that a line still fits after it.
        let bytes = if missing <= 47 {
            missing
        } else {
            random.between(11, 47.min(missing as u64 - 11)) as usize
        };
        let mut more = bytes - 11;
        let mut step = [0u32; 4];
        for field in step.iter_mut() {
            let digits = more.min(9);
            more -= digits;
            *field = if digits == 0 { 0 } else { 10u32.pow(digits as u32) };
        }
        put_line(text, "do", &step);
    }
}
