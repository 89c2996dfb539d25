//! Damaged texts: the ways to damage a listing, and those that are done to the text as a whole.

use super::lines::damage_lines;
use super::listings::lengthen;
use super::Random;
use crate::listing::MOST_TEXT;

/// The ways to damage a listing. Some leave the text right now and then.
#[derive(Clone, Copy, PartialEq, Eq, Debug)]
pub enum Damage {
    EmptyText,
    NoLastLf,
    CrBeforeLf,
    CrEverywhere,
    DoubleTab,
    TrailingTab,
    LeadingTab,
    SpaceForTab,
    TrailingSpace,
    LeadingZero,
    Sign,
    TooLongNumber,
    WrappingNumber,
    EmptyField,
    DropField,
    ExtraField,
    DropLine,
    RepeatLine,
    SwapLines,
    MoveLine,
    BlankLine,
    CutAtLine,
    CutAtByte,
    CutBeforeCore,
    FlipByte,
    InsertByte,
    DeleteByte,
    Keyword,
    EdgeField,
    ManyCells,
    SecondCore,
    SecondSize,
    DoBeforeCore,
    ExactLength,
    TooLong,
    Noise,
}

impl Damage {
    pub const ALL: [Damage; 36] = [
        Damage::EmptyText,
        Damage::NoLastLf,
        Damage::CrBeforeLf,
        Damage::CrEverywhere,
        Damage::DoubleTab,
        Damage::TrailingTab,
        Damage::LeadingTab,
        Damage::SpaceForTab,
        Damage::TrailingSpace,
        Damage::LeadingZero,
        Damage::Sign,
        Damage::TooLongNumber,
        Damage::WrappingNumber,
        Damage::EmptyField,
        Damage::DropField,
        Damage::ExtraField,
        Damage::DropLine,
        Damage::RepeatLine,
        Damage::SwapLines,
        Damage::MoveLine,
        Damage::BlankLine,
        Damage::CutAtLine,
        Damage::CutAtByte,
        Damage::CutBeforeCore,
        Damage::FlipByte,
        Damage::InsertByte,
        Damage::DeleteByte,
        Damage::Keyword,
        Damage::EdgeField,
        Damage::ManyCells,
        Damage::SecondCore,
        Damage::SecondSize,
        Damage::DoBeforeCore,
        Damage::ExactLength,
        Damage::TooLong,
        Damage::Noise,
    ];
}

/// Damages a text in one way or, now and then, in two.
pub fn damage(text: &[u8], seed: u64) -> Vec<u8> {
    let random = &mut Random::new(seed);
    let once = damage_any(text, random);
    if random.one_in(4) {
        return damage_any(&once, random);
    }
    once
}

/// Damages a text in a way drawn at random.
fn damage_any(text: &[u8], random: &mut Random) -> Vec<u8> {
    let way = random.pick(&Damage::ALL);
    damage_so(text, way, random)
}

/// Damages a text in a chosen way. Any byte text will do.
pub fn damage_so(text: &[u8], way: Damage, random: &mut Random) -> Vec<u8> {
    let mut lines: Vec<Vec<u8>> =
        text.split_inclusive(|&byte| byte == b'\n').map(<[u8]>::to_vec).collect();
    if lines.is_empty() {
        lines.push(Vec::new());
    }
    let at = random.index(lines.len());
    match way {
        Damage::EmptyText => Vec::new(),
        Damage::CutAtByte => text[..random.index(text.len() + 1)].to_vec(),
        Damage::FlipByte | Damage::InsertByte | Damage::DeleteByte => edit_byte(text, way, random),
        Damage::ExactLength | Damage::TooLong => {
            let mut longer = text.to_vec();
            lengthen(&mut longer, MOST_TEXT + usize::from(way == Damage::TooLong), random);
            longer
        }
        Damage::Noise => noise(random),
        _ => {
            damage_lines(&mut lines, at, way, random);
            lines.concat()
        }
    }
}

/// Bytes that occur in listings, and some that do not, in no order.
fn noise(random: &mut Random) -> Vec<u8> {
    let length = random.index(200);
    let signs = b"0123456789\t\n\r cellsizerightgrantbytecoredo\0\xff";
    (0..length).map(|_| random.pick(signs)).collect()
}

/// Flips a bit, puts in a byte, or takes one out.
fn edit_byte(text: &[u8], way: Damage, random: &mut Random) -> Vec<u8> {
    let mut bytes = text.to_vec();
    if way == Damage::InsertByte || bytes.is_empty() {
        let byte = random.pick(b"\0\t\n\r\x0b\x0c 0019\x7f\x80\xff+-,.x");
        bytes.insert(random.index(bytes.len() + 1), byte);
    } else {
        let at = random.index(bytes.len());
        if way == Damage::FlipByte {
            bytes[at] ^= 1 << random.below(8);
        } else {
            bytes.remove(at);
        }
    }
    bytes
}
