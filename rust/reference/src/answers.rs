//! Which answers each kind of call can give: the table that a comparison has to fill.

pub const ROWS: [&str; 14] = [
    "0 load",
    "1 store",
    "2 fetch",
    "3 switch",
    "4 protect",
    "5 grant",
    "6 receive",
    "7 transfer",
    "8 invalidate",
    "9 revalidate",
    "10 exclusive",
    "above 10",
    "block write",
    "read view",
];

/// The answers that a row can give, by the refusal list and the instruction
/// table: 4 belongs to numbers above 10, a block or view has no 4 and 5, 8
/// needs a word or a part, receive needs no right, and each of 10 to 13 belongs
/// to one instruction. 14 is the program's.
pub fn possible(row: usize, number: usize) -> bool {
    match (row, number) {
        (_, 1..=3) => true,
        (11, _) => number == 4,
        (_, 0) | (_, 6) | (_, 7) => true,
        (12, 8) | (13, 8) | (2, 8) | (3, 8) => true,
        (_, 5) => row <= 10,
        (_, 9) => row != 6,
        (6, 10) | (8, 11) | (3, 12) | (4, 13) => true,
        _ => false,
    }
}

/// The row of a call.
pub fn row_of(call: &crate::gen::Call) -> usize {
    match call {
        crate::gen::Call::Execute { number, .. } => (*number as usize).min(11),
        crate::gen::Call::WriteBlock { .. } => 12,
        crate::gen::Call::View { .. } => 13,
    }
}
