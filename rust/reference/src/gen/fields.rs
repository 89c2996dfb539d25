//! Damaged fields: one number of a line made wrong in form or out of range.

use super::{Damage, Random, TOP};

/// Damages one of a line's fields after its word.
pub(super) fn edit_field(line: &mut Vec<u8>, way: Damage, random: &mut Random) {
    let ended = line.ends_with(b"\n");
    if ended {
        line.pop();
    }
    let mut fields: Vec<Vec<u8>> =
        line.split(|&byte| byte == b'\t').map(<[u8]>::to_vec).collect();
    if fields.len() > 1 {
        let at = 1 + random.index(fields.len() - 1);
        damage_field(&mut fields[at], way, random);
    }
    *line = fields.join(&b'\t');
    if ended {
        line.push(b'\n');
    }
}

/// The ways that alter one field; no others are left.
fn damage_field(field: &mut Vec<u8>, way: Damage, random: &mut Random) {
    match way {
        Damage::LeadingZero => field.insert(0, b'0'),
        Damage::Sign => field.insert(0, random.pick(b"+-")),
        Damage::TooLongNumber => *field = random.pick(&TOO_LONG_NUMBERS).to_vec(),
        Damage::WrappingNumber => *field = wrapping_number(field, random).into_bytes(),
        Damage::EmptyField => field.clear(),
        Damage::EdgeField => *field = random.pick(&EDGES).to_string().into_bytes(),
        _ => unreachable!("{way:?} is not done to a field"),
    }
}

/// Numbers above 32 bits: just above, and far above.
const TOO_LONG_NUMBERS: [&[u8]; 6] = [
    b"4294967296",
    b"4294967297",
    b"9999999999",
    b"10000000000",
    b"42949672950",
    b"99999999999999999999999999999999999999999",
];

/// Numbers at and about the bounds of the fields of all lines.
const EDGES: [u32; 16] =
    [0, 1, 2, 3, 7, 8, 31, 32, 33, 255, 256, 257, 65_535, 65_536, 65_537, TOP];

/// A number that is the field's own again if only 32 or 64 bits are kept, or 0 if only 128 are.
fn wrapping_number(field: &[u8], random: &mut Random) -> String {
    let value = std::str::from_utf8(field).ok().and_then(|text| text.parse::<u128>().ok());
    let value = value.unwrap_or(0) % (1 << 64);
    match random.below(3) {
        0 => (value + (1 << 32)).to_string(),
        1 => (value + (1 << 64)).to_string(),
        _ => "340282366920938463463374607431768211456".to_string(),
    }
}
