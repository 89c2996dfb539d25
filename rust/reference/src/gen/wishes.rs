//! Wishes: what a call would like to come to, and the search for a cell that suits.

use super::careful::divisions;
use super::Random;
use crate::machine::Tables;

/// What a call would like to come to.
#[derive(Clone, Copy, PartialEq, Eq, Debug)]
pub(super) enum Wish {
    Accepted,
    Operand,
    NoCell,
    Validity,
    NotWhole,
    RightMissing,
    /// 10, 11, 12 or 13, each of which belongs to one instruction.
    Special,
    /// Whatever comes.
    Any,
}

/// A wish is drawn from these. Acceptance comes most often, since only accepted
/// calls alter the state that later calls meet; the special answers, which are
/// four, come twice.
pub(super) const WISHES: [Wish; 12] = [
    Wish::Accepted,
    Wish::Accepted,
    Wish::Accepted,
    Wish::Accepted,
    Wish::Operand,
    Wish::NoCell,
    Wish::Validity,
    Wish::NotWhole,
    Wish::RightMissing,
    Wish::Special,
    Wish::Special,
    Wish::Any,
];

/// A cell and another division that suit, looked for from a random start, so
/// that not always the lowest is found. Where none suits, any.
pub(super) fn find(
    t: &Tables,
    random: &mut Random,
    suits: impl Fn(usize, usize) -> bool,
) -> Option<(usize, usize)> {
    let n = t.first.len();
    if n == 0 {
        return None;
    }
    let m = divisions(t);
    let (start_cell, start_division) = (random.index(n), random.index(m));
    for i in 0..n {
        let cell = (start_cell + i) % n;
        for j in 0..m {
            let division = (start_division + j) % m;
            if suits(cell, division) {
                return Some((cell, division));
            }
        }
    }
    Some((start_cell, start_division))
}
