//! Texts off their form, each with the number of the line that is off.

use super::{of_lines, spelled, CASE};

/// A text and the line that is named.
type Fault = (Vec<u8>, usize);

/// The plane case and one more part.
const LINES: [&str; 6] = [CASE[0], CASE[1], CASE[2], CASE[3], CASE[4], "(neg 0)"];

/// How many of them stand before the parts.
const HEADER: usize = 4;

/// The most parts that a text has, and the number of the last one's line.
const MOST_PARTS: usize = 64;
const LAST_LINE: usize = HEADER + MOST_PARTS;

/// The letters that stand for floats.
const LETTERS: [char; 4] = ['Z', 'P', 'T', 'Q'];

/// Floats that are off their form: an upper-case digit, 15 and 17 digits, one
/// that is none, no digit, a sign, a prefix, a decimal number.
const FLOATS: [&str; 8] = [
    "3FF0000000000000",
    "3ff000000000000",
    "3ff00000000000000",
    "3ff000000000000g",
    "",
    "-3ff000000000000",
    "0x3ff00000000000",
    "1.0",
];

/// Decimal numbers that are off their form. Those past the limit would be 0 or
/// 2 in 32 or 64 bits.
const DECIMALS: [&str; 14] = [
    "00",
    "02",
    "4294967296",
    "",
    "+2",
    "-2",
    "4294967298",
    "10000000000",
    "18446744073709551616",
    "18446744073709551618",
    "a",
    "0x2",
    "2.0",
    "2e0",
];

/// Lines off their form, and where they stand.
const OFF: [(usize, &str); 44] = [
    (1, "(bounds (max T T T) (min Z Z Z))"),
    (1, "(bounds Z Z Z T T T)"),
    (1, "(bounds (min Z Z Z)(max T T T))"),
    (1, "(bounds (min Z Z) (max T T T))"),
    (1, "(bounds (min Z Z Z) (max T T T T))"),
    (1, "(bounds (min Z Z Z))"),
    (2, "(cell)"),
    (2, "(cell P P)"),
    (2, "(cell 1)"),
    (3, "(blocks)"),
    (3, "(blocks 2)"),
    (3, "(blocks 2 2 2)"),
    (3, "(blocks P P)"),
    (4, "(band Q)"),
    (4, "(band Q Z Z)"),
    (4, "(band (min Q) (max Z))"),
    (5, "()"),
    (5, "("),
    (5, ")"),
    (5, "plane"),
    (5, "(const)"),
    (5, "(const P P)"),
    (5, "(const 0)"),
    (5, "(const (const P))"),
    (5, "(sphere Z Z Z)"),
    (5, "(sphere Z Z Z P P)"),
    (5, "(plane P Z Z)"),
    (5, "(plane P Z Z Z Z)"),
    (5, "(cone Z Z Z P)"),
    (6, "(mul 0 0)"),
    (6, "(div 0 0)"),
    (6, "(abs 0)"),
    (6, "(min)"),
    (6, "(min 0)"),
    (6, "(min 0 0 0)"),
    (6, "(min 0 Z)"),
    (6, "(max 0)"),
    (6, "(add 0 0 0)"),
    (6, "(sub 0,0)"),
    (6, "(sub (neg 0) 0)"),
    (6, "(neg)"),
    (6, "(neg 0 0)"),
    (6, "(neg0)"),
    (6, "(neg 0) (neg 0)"),
];

pub fn texts() -> Vec<Fault> {
    let mut faults = each_line();
    faults.extend(ends());
    faults.extend(order());
    faults.extend(floats());
    faults.extend(decimals());
    faults.extend(OFF.map(|(number, line)| with_line(number, spelled(line).as_bytes())));
    faults.extend(later_lines());
    faults.extend(long_texts());
    faults
}

/// The text in which other bytes stand for a line.
fn with_line(number: usize, bytes: &[u8]) -> Fault {
    let before = of_lines(&LINES[..number - 1]);
    let after = of_lines(&LINES[number..]);
    let text = [before.as_bytes(), bytes, b"\n", after.as_bytes()].concat();
    (text, number)
}

/// The same faults in each line.
fn each_line() -> Vec<Fault> {
    let of_line = |number: usize| {
        let line = spelled(LINES[number - 1]);
        let changed = spaces(&line).into_iter().chain(bytes(line.as_bytes()));
        changed.map(move |line| with_line(number, &line))
    };
    (1..=LINES.len()).flat_map(of_line).collect()
}

/// A line with other spaces, parentheses or letters.
fn spaces(line: &str) -> Vec<Vec<u8>> {
    let first = |from: &str, to: &str| line.replacen(from, to, 1);
    let capital = line[1..2].to_uppercase();
    let changed = [
        first(" ", "  "),
        first(" ", "\t"),
        first(" ", "\0"),
        first(" ", "\u{a0}"),
        first(" ", "\n"),
        first(" ", ""),
        first("(", "( "),
        first(")", " )"),
        first(")", ""),
        first(&line[1..2], &capital),
        first(&line[1..2], ""),
        first(&line[2..3], &line[2..3].repeat(2)),
        line[1..].to_string(),
    ];
    changed.map(String::into_bytes).to_vec()
}

/// A line with bytes before or after it, or without any.
fn bytes(line: &[u8]) -> Vec<Vec<u8>> {
    let before: [&[u8]; 6] = [
        b" ",
        b"\n",
        b"\0",
        b"\xff",
        b"\xef\xbb\xbf",
        b"; a comment\n",
    ];
    let after: [&[u8]; 7] = [b"\r", b" ", b")", b"\0", b"\xc3\xa9", b" ; a comment", line];
    let mut changed = vec![Vec::new()];
    changed.extend(before.map(|bytes| [bytes, line].concat()));
    changed.extend(after.map(|bytes| [line, bytes].concat()));
    changed
}

/// Texts that end early: before a line, in it, and before its end.
fn ends() -> Vec<Fault> {
    let mut faults: Vec<Fault> = (0..HEADER)
        .map(|lines| (of_lines(&LINES[..lines]).into_bytes(), lines + 1))
        .collect();
    for number in 1..=LINES.len() {
        let from = of_lines(&LINES[..number - 1]).len();
        let text = of_lines(&LINES[..number]).into_bytes();
        let end = text.len() - 1;
        for cut in [from + 1, (from + end) / 2, end - 1, end] {
            faults.push((text[..cut].to_vec(), number));
        }
    }
    faults
}

/// Lines at other places.
fn order() -> Vec<Fault> {
    let mut faults = vec![(b"\n".to_vec(), 1)];
    let mut add = |lines: Vec<&str>, number: usize| {
        faults.push((of_lines(&lines).into_bytes(), number));
    };
    for (at, line) in LINES.iter().enumerate().take(HEADER) {
        let lines = || LINES.to_vec();
        let mut swapped = lines();
        swapped.swap(at, at + 1);
        add(swapped, at + 1);
        let mut missing = lines();
        missing.remove(at);
        add(missing, at + 1);
        let mut twice = lines();
        twice.insert(at, line);
        add(twice, at + 2);
        let mut part_before = lines();
        part_before.insert(at, "(const P)");
        add(part_before, at + 1);
        let mut after_parts = lines();
        after_parts.push(LINES[at]);
        add(after_parts, LINES.len() + 1);
    }
    let mut reversed = LINES.to_vec();
    reversed.reverse();
    add(reversed, 1);
    faults
}

/// A line with another spelling at each place of a number.
fn spellings(
    number: usize,
    line: &str,
    is_number: impl Fn(char) -> bool,
    spellings: &[&str],
) -> Vec<Fault> {
    let mut faults = Vec::new();
    for (at, _) in line.match_indices(is_number) {
        for spelling in spellings {
            let (before, after) = (spelled(&line[..at]), spelled(&line[at + 1..]));
            let line = format!("{before}{spelling}{after}");
            faults.push(with_line(number, line.as_bytes()));
        }
    }
    faults
}

/// All spellings in one line of floats, the first three in the others.
fn floats() -> Vec<Fault> {
    let others = [
        (1, CASE[0]),
        (4, CASE[3]),
        (5, CASE[4]),
        (5, "(const P)"),
        (5, "(sphere Z Z Z P)"),
    ];
    let is_number = |letter| LETTERS.contains(&letter);
    let few = |(number, line)| spellings(number, line, is_number, &FLOATS[..3]);
    let mut faults = spellings(2, CASE[1], is_number, &FLOATS);
    faults.extend(others.into_iter().flat_map(few));
    faults
}

/// All spellings in two lines of decimal numbers, the first three in the
/// others.
fn decimals() -> Vec<Fault> {
    let others = ["(min 0 0)", "(max 0 0)", "(add 0 0)", "(sub 0 0)"];
    let is_number = |letter: char| letter.is_ascii_digit();
    let few = |line| spellings(6, line, is_number, &DECIMALS[..3]);
    let mut faults = spellings(3, CASE[2], is_number, &DECIMALS);
    faults.extend(spellings(6, "(neg 0)", is_number, &DECIMALS));
    faults.extend(others.into_iter().flat_map(few));
    faults
}

/// A text with so many parts, one or more.
pub fn with_parts(count: usize) -> Vec<u8> {
    let mut parts = vec!["(neg 0)"; count];
    parts[0] = "(const Z)";
    of_lines(&[&CASE[..HEADER], &parts].concat()).into_bytes()
}

/// Faults in later lines, and around the last that a text can have.
fn later_lines() -> Vec<Fault> {
    let whole = with_parts(MOST_PARTS);
    let mut faults = Vec::new();
    for count in [MOST_PARTS + 1, MOST_PARTS + 2, 200] {
        faults.push((with_parts(count), LAST_LINE + 1));
    }
    for more in [
        "\n",
        " ",
        "\0",
        "x",
        "(",
        "(const",
        "(mul 0 0)\n",
        "(neg 0)",
    ] {
        faults.push(([&whole, more.as_bytes()].concat(), LAST_LINE + 1));
    }
    let without = with_parts(MOST_PARTS - 1);
    for last in [
        "\n",
        " ",
        "(neg 00)\n",
        "(neg 0)",
        "(neg 0)\r\n",
        "(neg 0))\n(neg 0)\n",
    ] {
        faults.push(([&without, last.as_bytes()].concat(), LAST_LINE));
    }
    for before in [3, 10, 30, 50, MOST_PARTS - 2] {
        let text = [&with_parts(before), &b"(neg)\n(neg 0)\n"[..]].concat();
        faults.push((text, HEADER + before + 1));
    }
    faults
}

/// The longest text on its form: 5,147 bytes.
pub fn longest() -> Vec<u8> {
    let blocks = "(blocks 4294967295 4294967295)";
    let header = [CASE[0], CASE[1], blocks, CASE[3]];
    let parts = ["(sphere Z Z Z P)"; MOST_PARTS];
    of_lines(&[&header[..], &parts].concat()).into_bytes()
}

/// Texts about as long as the longest on its form, and longer ones.
fn long_texts() -> Vec<Fault> {
    let longest = longest();
    let end = longest.len() - 1;
    let with = |more: &[u8]| [&longest[..], more].concat();
    let in_last = |more: &[u8]| [&longest[..end], more, b"\n"].concat();
    let first = of_lines(&LINES[..1]).into_bytes();
    vec![
        (longest[..end].to_vec(), LAST_LINE),
        (with(b"\n"), LAST_LINE + 1),
        (with(b"("), LAST_LINE + 1),
        (in_last(b" "), LAST_LINE),
        (in_last(&[b'0'; 1000]), LAST_LINE),
        (vec![b'a'; 6000], 1),
        (vec![b'\n'; 6000], 1),
        ([&first, &b"(cell "[..], &[b'0'; 6000]].concat(), 2),
    ]
}
