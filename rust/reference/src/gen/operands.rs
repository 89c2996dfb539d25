//! Operands: rights that suit a wish, and operands that no instruction takes.

use super::wishes::Wish;
use super::{Random, TOP};

/// Rights to protect down to: a strict part, the same, or not a part.
pub(super) fn rights_to_protect(held: u8, wish: Wish, random: &mut Random) -> u8 {
    let drawn = random.below(8) as u8;
    match wish {
        Wish::Special => held,
        Wish::RightMissing => not_a_part(drawn, held),
        // Without the lowest held right the part is strict.
        Wish::Accepted => drawn & held & held.wrapping_sub(1),
        _ => drawn,
    }
}

/// Rights to grant: a part of the held ones, or not a part.
pub(super) fn rights_to_grant(held: u8, wish: Wish, random: &mut Random) -> u8 {
    let drawn = random.below(8) as u8;
    let wanted = match wish {
        Wish::RightMissing => not_a_part(drawn, held),
        _ if drawn & held != 0 => drawn & held,
        _ => held,
    };
    if wanted == 0 {
        random.rights()
    } else {
        wanted
    }
}

/// Drawn rights and all that are not held, so that a right is missing. Where
/// all are held none can be, and the drawn ones stay.
fn not_a_part(drawn: u8, held: u8) -> u8 {
    drawn | (7 & !held)
}

/// Operands just past their ranges, far past them, and ones that would fall
/// back into range if upper bits were lost.
pub(super) fn wrong_operands(
    number: u32,
    y: u32,
    z: u32,
    m: usize,
    d: u32,
    random: &mut Random,
) -> (u32, u32) {
    let m = m as u32;
    let lost = |right: u32, random: &mut Random| {
        right.wrapping_add(random.pick(&[256, 65_536, 1 << 16 | 1 << 8, 1 << 31]))
    };
    if random.one_in(2) {
        let far = lost(y, random);
        let y = match number {
            1 => random.pick(&[256, 257, far, TOP]),
            3 => random.pick(&[m, m.wrapping_add(1), 32, 33, far, TOP]),
            4 => random.pick(&[8, 9, 15, far, TOP]),
            5..=7 => random.pick(&[d, d, m, m.wrapping_add(1), far, TOP]),
            _ => not_zero(far, random),
        };
        (y, z)
    } else {
        let far = lost(z, random);
        let z = match number {
            5 | 7 => random.pick(&[0, 0, 8, 9, far, TOP]),
            _ => not_zero(far, random),
        };
        (y, z)
    }
}

/// An operand where only 0 is in range.
fn not_zero(far: u32, random: &mut Random) -> u32 {
    random.pick(&[1, 2, 255, far, TOP])
}
