//! Instructions: a cell, an address and operands that suit the wish drawn for one.

use super::addresses::{address_in, edge_address, word_address};
use super::careful::{divisions, grant, others_hold, right, valid};
use super::operands::{rights_to_grant, rights_to_protect, wrong_operands};
use super::wishes::{find, Wish, WISHES};
use super::words::{entry_address, has_word};
use super::{Call, Random, TOP};
use crate::machine::{grant_parts, Registers, Tables, EXECUTE, READ, WRITE};

/// An instruction number above 10, with operands of an instruction that exists.
pub(super) fn number_above(t: &Tables, random: &mut Random) -> Call {
    let number = random.pick(&[11, 12, 16, 31, 255, 256, 256 + 3, 65_536, 1 << 31, TOP]);
    let operands = [0, 0, 1, 7, TOP];
    Call::Execute {
        number,
        x: edge_address(t, random),
        y: random.pick(&operands),
        z: random.pick(&operands),
    }
}

/// An instruction that leans towards a wish drawn for it.
pub(super) fn instruction_call(
    t: &Tables,
    r: &Registers,
    number: u32,
    random: &mut Random,
) -> Call {
    let wish = random.pick(&WISHES);
    let d = r.current as usize;
    let search = Search { t, d, number, wish, coin: random.one_in(2) };
    let found = find(t, random, |cell, other| search.suits(cell, other));
    let m = divisions(t);
    let (cell, named) = found.unwrap_or((0, random.index(m)));
    let x = search.address(found.is_some(), cell, random);
    // Never the current division where there is a choice, save for a switch,
    // which may name it.
    let other = if named == d && m >= 2 && d < m { random.another(m, d) } else { named };
    let division = if number == 3 && found.is_some() { named } else { other };
    let (y, z) = search.operands(cell, division as u32, random);
    let (y, z) = if wish == Wish::Operand {
        wrong_operands(number, y, z, t.m, r.current, random)
    } else {
        (y, z)
    };
    Call::Execute { number, x, y, z }
}

/// What the cell, the address and the operands of an instruction must suit.
struct Search<'a> {
    t: &'a Tables,
    d: usize,
    number: u32,
    wish: Wish,
    /// Chooses where one answer has two causes that are both worth meeting.
    coin: bool,
}

impl Search<'_> {
    /// Whether a cell, with another division where the instruction names one,
    /// leads to the wished answer.
    fn suits(&self, cell: usize, other: usize) -> bool {
        // Only revalidate is for cells that are not valid.
        let passes_check_7 = valid(self.t, cell) == (self.number != 9);
        match self.wish {
            Wish::Any => true,
            Wish::Validity => !passes_check_7,
            _ => passes_check_7 && self.later_checks_suit(cell, other),
        }
    }

    /// The same for a cell that passes check 7.
    fn later_checks_suit(&self, cell: usize, other: usize) -> bool {
        let held = right(self.t, cell, self.d);
        let missing = self.wish == Wish::RightMissing;
        match self.number {
            0 => (held & READ == 0) == missing,
            1 => (held & WRITE == 0) == missing,
            2 => has_word(self.t, cell) && (held & EXECUTE == 0) == missing,
            3 => self.switch_suits(cell, other),
            4 => match self.wish {
                Wish::RightMissing => held != 7,
                Wish::Special => (held == 0) == self.coin,
                _ => held != 0,
            },
            5 | 7 => other != self.d && (if missing { held != 7 } else { held != 0 }),
            6 => other != self.d && self.receive_suits(cell, other),
            9 => (held == 0) == missing,
            _ if missing => held == 0,
            _ => held != 0 && self.holders_suit(cell),
        }
    }

    /// A switch needs a whole word, and the division switched to the right to
    /// execute it.
    fn switch_suits(&self, cell: usize, other: usize) -> bool {
        let worded = match self.wish {
            Wish::Accepted => entry_address(self.t, cell).is_some(),
            _ => has_word(self.t, cell),
        };
        let missing = self.wish == Wish::RightMissing;
        let own = right(self.t, cell, self.d) & EXECUTE != 0;
        let theirs = right(self.t, cell, other) & EXECUTE != 0;
        // Half the missing ones are held by the switcher instead.
        worded && theirs != missing && !(missing && self.coin && !own)
    }

    /// A receive needs a grant by the source to the current division.
    fn receive_suits(&self, cell: usize, source: usize) -> bool {
        let entry = grant(self.t, cell, source);
        let named = grant_parts(entry).map_or(false, |(target, _)| target as usize == self.d);
        match self.wish {
            // No grant at all, or a grant to somebody else.
            Wish::Special => !named && (entry != 0) == self.coin,
            _ => named,
        }
    }

    /// Whether others hold a right on the cell, or nobody, as an invalidate or
    /// an exclusive wishes.
    fn holders_suit(&self, cell: usize) -> bool {
        let wanted = match self.number {
            8 => self.wish == Wish::Special,
            _ => self.coin,
        };
        others_hold(self.t, cell, self.d) == wanted
    }

    /// An address in the cell, unless none was found or none is wished for.
    fn address(&self, found: bool, cell: usize, random: &mut Random) -> u32 {
        if !found || self.wish == Wish::NoCell {
            return edge_address(self.t, random);
        }
        match self.number {
            2 | 3 => word_address(self.t, cell, self.number, self.wish, random),
            _ => address_in(self.t, cell, random),
        }
    }

    /// y and z, in their ranges if the division is.
    fn operands(&self, cell: usize, division: u32, random: &mut Random) -> (u32, u32) {
        let held = right(self.t, cell, self.d);
        let byte = random.below(256) as u32;
        match self.number {
            1 => (random.pick(&[0, 1, 11, 128, 255, byte, byte, byte]), 0),
            3 | 6 => (division, 0),
            4 => (u32::from(rights_to_protect(held, self.wish, random)), 0),
            5 | 7 => (division, u32::from(rights_to_grant(held, self.wish, random))),
            _ => (0, 0),
        }
    }
}
