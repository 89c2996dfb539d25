//! Spoilt tables and registers: the ways to spoil a sound state, and what calls are then answered.

use super::malformed::spoil_tables;
use super::{Random, TOP};
use crate::machine::{Registers, Tables};

/// The ways to spoil sound tables and registers.
#[derive(Clone, Copy, PartialEq, Eq, Debug)]
pub enum Spoil {
    // Check 1.
    NoDivisions,
    TooManyDivisions,
    HugeDivisions,
    TooManyCells,
    TooMuchMemory,
    FirstLength,
    LastLength,
    OffsetLength,
    MarksLength,
    RightsLength,
    GrantsLength,
    DivisionsOtherThanLists,
    // Check 2.
    FirstAboveLast,
    PastMemory,
    PastMemoryIfWrapped,
    PastMemoryByLast,
    MemoryShort,
    NoMemory,
    Mark,
    RightsEntry,
    GrantWithoutRights,
    GrantWithTooManyRights,
    GrantToNoDivision,
    GrantToSelf,
    TwoHolders,
    AddressOverlap,
    PlaceOverlap,
    // Check 3.
    Current,
    Caller,
}

impl Spoil {
    pub const ALL: [Spoil; 29] = [
        Spoil::NoDivisions,
        Spoil::TooManyDivisions,
        Spoil::HugeDivisions,
        Spoil::TooManyCells,
        Spoil::TooMuchMemory,
        Spoil::FirstLength,
        Spoil::LastLength,
        Spoil::OffsetLength,
        Spoil::MarksLength,
        Spoil::RightsLength,
        Spoil::GrantsLength,
        Spoil::DivisionsOtherThanLists,
        Spoil::FirstAboveLast,
        Spoil::PastMemory,
        Spoil::PastMemoryIfWrapped,
        Spoil::PastMemoryByLast,
        Spoil::MemoryShort,
        Spoil::NoMemory,
        Spoil::Mark,
        Spoil::RightsEntry,
        Spoil::GrantWithoutRights,
        Spoil::GrantWithTooManyRights,
        Spoil::GrantToNoDivision,
        Spoil::GrantToSelf,
        Spoil::TwoHolders,
        Spoil::AddressOverlap,
        Spoil::PlaceOverlap,
        Spoil::Current,
        Spoil::Caller,
    ];

    /// The ways that a listing can express.
    pub const IN_LISTINGS: [Spoil; 11] = [
        Spoil::FirstAboveLast,
        Spoil::PastMemory,
        Spoil::PastMemoryIfWrapped,
        Spoil::PastMemoryByLast,
        Spoil::MemoryShort,
        Spoil::GrantToSelf,
        Spoil::TwoHolders,
        Spoil::AddressOverlap,
        Spoil::PlaceOverlap,
        Spoil::Current,
        Spoil::Caller,
    ];
}

/// Spoils a sound state in one way. Gives the number and value every call must
/// then be answered with, or nothing, with nothing changed, where the tables
/// have no place for this fault (no cell, one division only, and so on).
///
/// A fault is put into one cell and only that cell's own entries are altered.
/// Soundness of a cell speaks of it and the cell before, so the cells before
/// stay sound, and the cell with the fault is the lowest unsound one.
pub fn spoil(
    t: &mut Tables,
    r: &mut Registers,
    way: Spoil,
    random: &mut Random,
) -> Option<(u32, u32)> {
    match way {
        Spoil::Current => r.current = past(t.m, random),
        Spoil::Caller => r.caller = past(t.m, random),
        _ => return spoil_tables(t, way, random),
    }
    Some((3, 0))
}

/// A division number at or past M.
fn past(m: usize, random: &mut Random) -> u32 {
    let m = m as u32;
    random.pick(&[m, m + 1, 32, 33, 255, 256, 65_536, TOP]).max(m)
}

/// Spoils in a way drawn at random; nothing if it could not be done here.
pub fn spoil_any(
    t: &mut Tables,
    r: &mut Registers,
    random: &mut Random,
) -> Option<(Spoil, (u32, u32))> {
    let way = random.pick(&Spoil::ALL);
    spoil(t, r, way, random).map(|expected| (way, expected))
}
