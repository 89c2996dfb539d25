//! The worked listing, listings at their limits, and damaged listings with the
//! line number that document 01 gives.

use reference::run_listing;

const WORKED: &str = "\
cells\t1
size\t3\t16
cell\t4096\t4103\t0\t1
cell\t8192\t8195\t8\t1
right\t0\t0\t3
right\t1\t2\t4
byte\t8\t11
core\t0\t0\t0
do\t1\t4096\t65\t0
do\t7\t4096\t2\t7
do\t7\t4096\t1\t3
do\t3\t8192\t2\t0
do\t6\t4096\t0\t0
";

/// Every kind of line, twice where it may come twice.
const EVERY: &str = "\
cells\t1
size\t3\t16
cell\t4096\t4103\t0\t1
cell\t8192\t8195\t8\t1
right\t0\t0\t3
right\t1\t2\t4
grant\t0\t0\t1\t3
grant\t1\t2\t0\t4
byte\t8\t11
byte\t9\t1
core\t0\t0\t0
do\t1\t4096\t65\t0
do\t0\t4096\t0\t0
";

fn run(text: &str) -> String {
    String::from_utf8(run_listing(text.as_bytes())).unwrap()
}

fn bad(text: impl AsRef<[u8]>, line: u32) {
    let out = String::from_utf8(run_listing(text.as_ref())).unwrap();
    let shown = String::from_utf8_lossy(text.as_ref()).into_owned();
    assert_eq!(out, format!("cells\t1\nbad\t{line}\n"), "for {:.300?}", shown);
}

fn right(text: impl AsRef<[u8]>) -> String {
    let out = String::from_utf8(run_listing(text.as_ref())).unwrap();
    assert!(!out.starts_with("cells\t1\nbad"), "{out}");
    out
}

/// `EVERY` with one line (from 1) put in the place of another.
fn with_line(line: usize, other: &str) -> String {
    let mut lines: Vec<&str> = EVERY.lines().collect();
    lines[line - 1] = other;
    lines.join("\n") + "\n"
}

/// `EVERY` with a line put in before the given one (from 1).
fn with_more(line: usize, more: &str) -> String {
    let mut lines: Vec<&str> = EVERY.lines().collect();
    lines.insert(line - 1, more);
    lines.join("\n") + "\n"
}

/// `EVERY` without a line.
fn without(line: usize) -> String {
    let mut lines: Vec<&str> = EVERY.lines().collect();
    lines.remove(line - 1);
    lines.join("\n") + "\n"
}

#[test]
fn worked_listing() {
    let expected = "\
cells\t1
answer\t1\t0\t0
answer\t2\t9\t0
answer\t3\t0\t0
answer\t4\t0\t0
answer\t5\t10\t0
core\t2\t0\t8192
right\t1\t2\t4
grant\t0\t0\t1\t3
";
    assert_eq!(run(WORKED), expected);
}

#[test]
fn every_kind_of_line() {
    let expected = "\
cells\t1
answer\t1\t0\t0
answer\t2\t0\t65
core\t0\t0\t0
right\t0\t0\t3
right\t1\t2\t4
grant\t0\t0\t1\t3
grant\t1\t2\t0\t4
";
    assert_eq!(run(EVERY), expected);
}

#[test]
fn smallest_listing() {
    assert_eq!(run("cells\t1\nsize\t1\t0\ncore\t0\t0\t0\n"), "cells\t1\ncore\t0\t0\t0\n");
    assert_eq!(
        run("cells\t1\nsize\t32\t65536\ncore\t4294967295\t9\t7\ndo\t4294967295\t1\t2\t3\n"),
        "cells\t1\nanswer\t1\t3\t0\ncore\t4294967295\t9\t7\n"
    );
    assert_eq!(
        run("cells\t1\nsize\t1\t0\ncore\t0\t0\t5\ndo\t0\t0\t0\t0\ndo\t11\t0\t0\t0\n"),
        "cells\t1\nanswer\t1\t6\t0\nanswer\t2\t4\t0\ncore\t0\t0\t5\n"
    );
}

#[test]
fn unsound_tables_are_not_wrong_text() {
    // first > last in cell 1, a grant to oneself in cell 0.
    let out = run(&with_line(4, "cell\t8196\t8195\t8\t1"));
    assert!(out.contains("answer\t1\t2\t1\nanswer\t2\t2\t1\n"), "{out}");
    let out = run(&with_line(7, "grant\t0\t0\t0\t3"));
    let expected = "\
cells\t1
answer\t1\t2\t0
answer\t2\t2\t0
core\t0\t0\t0
right\t0\t0\t3
right\t1\t2\t4
grant\t0\t0\t0\t3
grant\t1\t2\t0\t4
";
    assert_eq!(out, expected);
    // Overlaps in addresses and in memory, past the memory, two holders.
    for cell in ["cell\t4103\t4106\t8\t1", "cell\t8192\t8195\t7\t1", "cell\t8192\t8195\t13\t1",
        "cell\t8192\t8195\t4294967295\t1", "cell\t0\t4294967295\t8\t1", "cell\t4294967295\t0\t8\t0"]
    {
        assert!(run(&with_line(4, cell)).contains("answer\t1\t2\t1\n"), "{cell}");
    }
    let text = with_line(4, "cell\t8192\t8195\t8\t0").replace("right\t1\t2", "right\t1\t1\t1\nright\t1\t2");
    assert!(run(&text).contains("answer\t1\t2\t1\n"));
    // Memory of no bytes: any cell is unsound, and no byte line can be right.
    assert!(run("cells\t1\nsize\t1\t0\ncell\t0\t0\t0\t1\ncore\t0\t0\t0\ndo\t0\t0\t0\t0\n")
        .contains("answer\t1\t2\t0\n"));
    // Core out of range comes after soundness.
    assert!(run(&with_line(11, "core\t3\t0\t0")).contains("answer\t1\t3\t0\n"));
    assert!(run(&with_line(11, "core\t0\t3\t0")).contains("answer\t1\t3\t0\n"));
    assert!(run(&with_line(11, "core\t0\t0\t4294967295")).contains("answer\t1\t0\t0\n"));
}

// ---------------------------------------------------------------------------
// Where the text ends

#[test]
fn empty_and_ended_early() {
    bad("", 1);
    // Cut after each line before `core`: the line after the last.
    let lines: Vec<&str> = EVERY.split_inclusive('\n').collect();
    for count in 0..=10 {
        bad(lines[..count].concat(), count as u32 + 1);
    }
    for count in 11..=13 {
        right(lines[..count].concat());
    }
}

#[test]
fn missing_lf() {
    let lines: Vec<&str> = EVERY.split_inclusive('\n').collect();
    for count in 1..=13 {
        let mut text = lines[..count].concat();
        text.pop();
        bad(&text, count as u32);
    }
    // Cut anywhere at all: the line that is cut, or the line after the last.
    for end in 0..EVERY.len() {
        let text = &EVERY[..end];
        let whole = text.matches('\n').count() as u32;
        if text.is_empty() || !text.ends_with('\n') || whole < 11 {
            bad(text, whole + 1);
        } else {
            right(text);
        }
    }
    bad("\n", 1);
    bad("cells", 1);
    bad("\t", 1);
    bad("\0", 1);
    bad(EVERY.to_string() + "\n", 14);
    bad(EVERY.to_string() + "\0", 14);
    bad(EVERY.to_string() + "do", 14);
    bad(EVERY.to_string() + " ", 14);
}

// ---------------------------------------------------------------------------
// Signs and numbers

/// Carriage returns, tabs, spaces and fields where a line must not have them.
fn wrong_forms(line: &str) -> Vec<String> {
    let last = line.rfind('\t').unwrap();
    vec![
        format!("{line}\r"),
        format!("\r{line}"),
        format!("{line}\t"),
        format!("\t{line}"),
        format!(" {line}"),
        format!("{line} "),
        line.replacen('\t', "\t\t", 1),
        line.replacen('\t', " ", 1),
        line.replacen('\t', "\t ", 1),
        line.replacen('\t', "", 1),
        line.to_uppercase(),
        format!("{line}\t0"),
        format!("{line}\t1"),
        line[..last].to_string(),
        line[..last + 1].to_string(),
        // A double tab at the last field as well.
        format!("{}\t{}", &line[..last], &line[last..]),
        String::new(),
        "\t".to_string(),
        "\r".to_string(),
        "# remark".to_string(),
    ]
}

#[test]
fn wrong_forms_of_every_line() {
    for (i, line) in EVERY.lines().enumerate() {
        for other in wrong_forms(line) {
            bad(with_line(i + 1, &other), i as u32 + 1);
        }
        bad(with_more(i + 1, ""), i as u32 + 1);
    }
}

#[test]
fn carriage_returns_everywhere() {
    bad(EVERY.replace('\n', "\r\n"), 1);
    bad(EVERY.replace('\n', "\r"), 1);
}

#[test]
fn bytes_that_are_no_text() {
    let mut text = EVERY.as_bytes().to_vec();
    let at = EVERY.find("4096").unwrap();
    for byte in [0u8, b'/', b':', 0x7f, 0x80, 0xb2, 0xff] {
        text[at] = byte;
        bad(&text, 3);
    }
}

#[test]
fn numbers_in_every_field() {
    let lines: Vec<&str> = EVERY.lines().collect();
    for (i, line) in lines.iter().enumerate() {
        let fields: Vec<&str> = line.split('\t').collect();
        for at in 1..fields.len() {
            for wrong in [
                format!("0{}", fields[at]),
                format!("+{}", fields[at]),
                format!("-{}", fields[at]),
                format!("{}.0", fields[at]),
                format!("{} ", fields[at]),
                format!("0x{}", fields[at]),
                "00".to_string(),
                "-0".to_string(),
                "a".to_string(),
                "1e1".to_string(),
                "4294967296".to_string(),
                "9999999999".to_string(),
                "10000000000".to_string(),
                "18446744073709551616".to_string(),
                format!("{}", fields[at].parse::<u64>().unwrap() + (1 << 32)),
                format!("{}", fields[at].parse::<u128>().unwrap() + (1 << 64)),
                "340282366920938463463374607431768211456".to_string(),
                "0".repeat(40),
                "1".repeat(40),
            ] {
                let mut other: Vec<&str> = fields.clone();
                other[at] = &wrong;
                bad(with_line(i + 1, &other.join("\t")), i as u32 + 1);
            }
        }
    }
}

#[test]
fn fields_out_of_range() {
    for (line, wrong) in [
        (1, "cells\t0"),
        (1, "cells\t2"),
        (2, "size\t0\t16"),
        (2, "size\t33\t16"),
        (2, "size\t3\t65537"),
        (2, "size\t3\t4294967295"),
        (2, "size\t4294967295\t16"),
        (3, "cell\t4096\t4103\t0\t2"),
        (4, "cell\t8192\t8195\t8\t256"),
        (5, "right\t2\t0\t3"),
        (5, "right\t0\t3\t3"),
        (5, "right\t0\t0\t0"),
        (5, "right\t0\t0\t8"),
        (5, "right\t0\t256\t3"),
        (5, "right\t4294967295\t0\t3"),
        (7, "grant\t2\t0\t1\t3"),
        (7, "grant\t0\t3\t1\t3"),
        (7, "grant\t0\t0\t3\t3"),
        (7, "grant\t0\t0\t1\t0"),
        (7, "grant\t0\t0\t1\t8"),
        (7, "grant\t0\t0\t256\t1"),
        (9, "byte\t8\t0"),
        (9, "byte\t8\t256"),
        (10, "byte\t16\t1"),
        (10, "byte\t4294967295\t1"),
    ] {
        bad(with_line(line, wrong), line as u32);
    }
}

#[test]
fn fields_at_the_ends_of_their_ranges() {
    for (line, fine) in [
        (2, "size\t32\t65536"),
        (2, "size\t3\t10"),
        (3, "cell\t4294967295\t4294967295\t4294967295\t0"),
        (10, "byte\t15\t255"),
        (11, "core\t4294967295\t4294967295\t4294967295"),
        (12, "do\t4294967295\t4294967295\t4294967295\t4294967295"),
    ] {
        right(with_line(line, fine));
    }
}

#[test]
fn sizes_too_small_for_later_lines() {
    // L = 9 makes the second byte line name no byte, L = 8 the first.
    bad(with_line(2, "size\t3\t9"), 10);
    bad(with_line(2, "size\t3\t8"), 9);
    // M = 2 makes the second right line name no division, M = 1 too.
    bad(with_line(2, "size\t2\t16"), 6);
}

// ---------------------------------------------------------------------------
// Order

/// Wrong at the later line, save for `cell` and `do`.
#[test]
fn lines_repeated() {
    for (i, line) in EVERY.lines().enumerate() {
        let text = with_more(i + 2, line);
        if line.starts_with("cell\t") || line.starts_with("do") {
            right(text);
        } else {
            bad(text, i as u32 + 2);
        }
    }
}

#[test]
fn lines_missing() {
    bad(without(1), 1);
    bad(without(2), 2);
    bad(without(3), 5);
    bad(without(4), 5);
    for line in [5, 6, 7, 8, 9, 10, 12, 13] {
        right(without(line));
    }
    bad(without(11), 11);
}

/// Two lines that rise, put the other way round.
#[test]
fn lines_swapped() {
    for line in [5, 7, 9] {
        let mut swapped: Vec<&str> = EVERY.lines().collect();
        swapped.swap(line - 1, line);
        bad(swapped.join("\n") + "\n", line as u32 + 1);
    }
}

/// Each line put where it does not belong.
#[test]
fn lines_out_of_order() {
    for (line, more) in [
        (1, "size\t3\t16"),
        (1, "core\t0\t0\t0"),
        (2, "cell\t1\t1\t0\t1"),
        (3, "cells\t1"),
        (4, "size\t3\t16"),
        (5, "size\t3\t16"),
        (6, "cell\t9000\t9001\t12\t1"),
        (8, "right\t1\t2\t5"),
        (9, "cell\t9000\t9001\t12\t1"),
        (10, "grant\t1\t2\t1\t1"),
        (11, "right\t1\t2\t5"),
        (11, "do\t0\t0\t0\t0"),
        (3, "do\t0\t0\t0\t0"),
        (12, "core\t0\t0\t0"),
        (13, "core\t0\t0\t0"),
        (14, "core\t0\t0\t0"),
        (12, "byte\t10\t1"),
        (13, "cells\t1"),
        (14, "size\t3\t16"),
    ] {
        bad(with_more(line, more), line as u32);
    }
    // An early `core` makes the next line that is not `do` wrong.
    bad(with_more(3, "core\t0\t0\t0"), 4);
    bad(with_more(10, "core\t0\t0\t0"), 11);
}

#[test]
fn keys_rise_strictly() {
    // Falling cell, same key with another value, falling division.
    bad(with_line(6, "right\t0\t0\t4"), 6);
    right(with_line(6, "right\t0\t1\t4"));
    bad(with_more(7, "right\t0\t2\t4"), 7);
    bad(with_more(7, "right\t1\t1\t4"), 7);
    bad(with_line(8, "grant\t0\t0\t2\t4"), 8);
    right(with_line(8, "grant\t0\t1\t2\t4"));
    bad(with_more(9, "grant\t1\t1\t0\t1"), 9);
    bad(with_more(9, "grant\t0\t2\t0\t1"), 9);
    bad(with_line(10, "byte\t8\t12"), 10);
    bad(with_line(10, "byte\t7\t12"), 10);
    right(with_line(10, "byte\t10\t12"));
    // The first grant line need not rise above the last right line.
    right(with_line(6, "right\t1\t2\t4"));
}

#[test]
fn lowest_wrong_line() {
    let text = with_line(9, "byte\t8\t0").replace("right\t0\t0\t3", "right\t0\t0\t9");
    bad(&text, 5);
    bad(text + "nonsense", 5);
}

// ---------------------------------------------------------------------------
// Limits

fn many_cells(count: u32) -> String {
    let mut text = "cells\t1\nsize\t1\t65536\n".to_string();
    for cell in 0..count {
        text += &format!("cell\t{cell}\t{cell}\t{cell}\t1\n");
    }
    text
}

#[test]
fn two_hundred_and_fifty_six_cells() {
    let rest = "right\t255\t0\t1\nbyte\t255\t9\ncore\t0\t0\t0\ndo\t0\t255\t0\t0\n";
    assert_eq!(
        run(&(many_cells(256) + rest)),
        "cells\t1\nanswer\t1\t0\t9\ncore\t0\t0\t0\nright\t255\t0\t1\n"
    );
    // The 257th `cell` line is the 259th line.
    bad(many_cells(257) + rest, 259);
    bad(many_cells(300), 259);
    bad(many_cells(256), 259);
}

#[test]
fn longest_text() {
    let start = "cells\t1\nsize\t1\t0\ncore\t0\t0\t0\n";
    let mut text = start.to_string();
    while text.len() + 22 <= 65_536 {
        text += "do\t0\t0\t0\t0\n";
    }
    // The last line takes up exactly the rest.
    let rest = 65_536 - text.len();
    let more = rest - 11;
    let (y, z) = ("1".repeat(1 + more / 2), "1".repeat(1 + (more - more / 2)));
    text += &format!("do\t0\t0\t{y}\t{z}\n");
    assert_eq!(text.len(), 65_536);
    let count = text.matches("do").count();
    let out = right(&text);
    assert_eq!(out.matches("answer").count(), count);
    // The output can be longer than any listing.
    assert!(out.len() > 65_536);
    assert!(out.contains(&format!("\nanswer\t{count}\t5\t0\ncore\t0\t0\t0\n")));

    // One byte more is 0, whatever is wrong elsewhere.
    let longer = text.replacen("do\t0\t0\t0\t0", "do\t0\t0\t0\t10", 1);
    assert_eq!(longer.len(), 65_537);
    bad(&longer, 0);
    bad("x".repeat(65_537), 0);
    bad("x".repeat(65_536), 1);
    bad("\n".repeat(65_537), 0);
    bad("\n".repeat(65_536), 1);
    bad(vec![0u8; 1_000_000], 0);
    // 65,536 bytes without the last LF.
    let mut cut = longer;
    cut.pop();
    assert_eq!(cut.len(), 65_536);
    bad(&cut, 3 + count as u32);
}

#[test]
fn output_order_and_replacement() {
    // Rights before grants, rising; a transfer replaces an earlier grant, and
    // a receive takes it away.
    let text = "\
cells\t1
size\t3\t8
cell\t0\t3\t0\t1
cell\t4\t7\t4\t1
right\t0\t0\t7
right\t1\t0\t7
grant\t0\t0\t2\t1
grant\t1\t1\t0\t2
byte\t4\t11
core\t0\t1\t2
do\t7\t0\t1\t6
do\t6\t4\t1\t0
do\t5\t4\t2\t4
do\t3\t4\t0\t0
";
    let expected = "\
cells\t1
answer\t1\t0\t0
answer\t2\t0\t7
answer\t3\t0\t7
answer\t4\t0\t0
core\t0\t0\t4
right\t1\t0\t7
grant\t0\t0\t1\t6
grant\t1\t0\t2\t4
";
    assert_eq!(run(text), expected);
}
