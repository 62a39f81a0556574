//! Lengths of packs, at their bounds and beyond, and lines that are no lengths.
use crate::catalogue::{Catalogue, Even, Short, adding, dated, measured, plain, unmeasured};
use crate::days::spelled;
use crate::samples::seasons::{A, B};
use crate::sizes::{pack_length, pieces};
use crate::text::{length_text, season_text, write_text};

/// Lengths for a catalogue's packs, the whole, then others that differ where there are bytes enough.
pub fn some_lengths(c: Catalogue) -> Vec<usize> {
    (0..c.k).map(|p| pack_length(c) - p * 5 % pack_length(c)).collect()
}

pub fn with_some(c: Catalogue) -> Catalogue {
    measured(c, &some_lengths(c))
}

/// The catalogue with another number in one place of its lengths.
pub fn placed(mut c: Catalogue, place: usize, number: usize) -> Catalogue {
    c.lengths[place] = number;
    c
}

/// A catalogue with every line that it may have; its lengths cut a piece, end one, and are the whole.
pub fn all_lines() -> Catalogue {
    measured(dated(adding(plain(Short, 3, 3, 6)), A, B), &[7, 6, 12])
}

/// The text of a catalogue without lengths, and so many good lines `length=` after it.
pub fn counted(c: Catalogue, count: usize) -> String {
    format!("{}{}", write_text(c), length_text(&vec![1; count]))
}

/// Texts with other numbers of packs and of lines, equal or not: 1 where they are not, also where the packs are out of bounds.
pub fn counted_lines() -> Vec<String> {
    let short = [(2, 2), (31, 31), (31, 32), (32, 31), (32, 32), (32, 33), (32, 0), (33, 32), (33, 33), (33, 34), (33, 0), (40, 32), (40, 39), (40, 40),
        (40, 41), (0, 0), (0, 1), (1, 0), (1, 1), (1, 2), (2, 32), (99999, 3), (99999, 0)];
    let even = [(2, 8, 7), (2, 8, 8), (2, 8, 9), (2, 9, 8), (2, 9, 9), (16, 3, 2), (16, 3, 3), (17, 2, 1), (17, 2, 2), (0, 2, 3)];
    let short = short.into_iter().map(|(k, count)| counted(plain(Short, 2, k, 4), count));
    short.chain(even.into_iter().map(|(n, k, count)| counted(plain(Even, n, k, 4), count))).collect()
}

/// Texts with good lines and then one with another number in it, which is out of form or out of range, among them a line more than a value has
/// places for.
pub fn late_faults() -> Vec<String> {
    let all = [(32, 31, "01"), (32, 32, "01"), (33, 32, "01"), (33, 32, "12345678"), (33, 32, "0"), (40, 39, ""), (1, 0, "01"), (0, 0, "01"), (99999, 1, "01")];
    all.into_iter().map(|(k, count, last)| format!("{}length={last}\n", counted(plain(Short, 2, k, 4), count))).collect()
}

/// What may stand in the place of a length and is none in form, so that it is 1.
const NO_LENGTHS: [&str; 22] = ["", "00", "01", "007", "0000007", "00000007", "10000000", "12345678", "4294967300", "18446744073709551623", "+7", "-7", " 7",
    "7 ", "7\r", "7\0", "x", "7x", "0x7", "7.0", "\u{667}", ":"];

/// What may stand in the place of a line with the length 7, and is no such line.
const NO_LENGTH_LINES: [&str; 14] = ["Length=7\n", "LENGTH=7\n", "length =7\n", " length=7\n", "lengths=7\n", "lenght=7\n", "length:7\n", "length 7\n",
    "length\n", "7\n", "length=7", "length=7\n\n", "\nlength=7\n", "length=7\nsum=add\n"];

/// The text of a catalogue of three packs, and in the first, the middle or the last of its lengths what is none in form.
pub fn other_lengths(c: Catalogue) -> Vec<String> {
    let (start, good) = (write_text(unmeasured(c)), c.lengths[..3].iter().map(|x| format!("length={x}\n")).collect::<Vec<_>>());
    let with = |p: usize, line: String| format!("{start}{}{line}{}", good[..p].concat(), good[p + 1..].concat());
    let numbers = NO_LENGTHS.iter().enumerate().flat_map(|(i, x)| [i % 3, 2 - i % 2].map(|p| with(p, format!("length={x}\n"))));
    let lines = NO_LENGTH_LINES.iter().enumerate().flat_map(|(i, line)| [2, i % 2].map(|p| with(p, line.to_string())));
    numbers.chain(lines).collect()
}

/// The text with every line, with some of its lengths before the others, between them, twice, or after what may not follow.
pub fn moved_lengths() -> Vec<String> {
    let text = write_text(all_lines());
    let lengths = length_text(&all_lines().lengths[..3]);
    let start = text.strip_suffix(&lengths).unwrap();
    let before = ["code=", "mirrors=", "piece=", "open=", "close=", "sum="].map(|name| start.replacen(name, &format!("{lengths}{name}"), 1));
    let one = ["open=", "close=", "sum="].map(|name| text.replacen("length=7\n", "", 1).replacen(name, &format!("length=7\n{name}"), 1));
    let again = ["sum=", "open="].map(|name| text.replacen(name, &format!("{lengths}{name}"), 1));
    let season = season_text(&spelled(A), &spelled(B));
    let after = ["sum=add\n", &season, "\n", "l", "length", "length=", "length=7", "length=7\n", "length=01\n", "Length=7\n", &lengths];
    before.into_iter().chain(one).chain(again).chain(after.map(|more| format!("{text}{more}"))).collect()
}

/// Values that break the rule of the lengths, of an admitted catalogue without them: places past the packs filled, a mark without lengths, lengths without
/// the mark, and a length that is zero or beyond the whole pack, also where its lowest bytes are good.
pub fn length_faults(c: Catalogue) -> Vec<Catalogue> {
    let (good, whole) = (with_some(c), pack_length(c));
    let mut all = vec![placed(good, c.k, 1), placed(good, 31, 1), placed(good, 31, u32::MAX as usize), placed(good, c.k, whole)];
    all.extend([measured(c, &[]), Catalogue { measured: false, ..good }]);
    all.extend([0, c.k - 1, c.k, 31].map(|p| placed(c, p, 1)));
    for p in [0, c.k / 2, c.k - 1] {
        all.extend([0, whole + 1].map(|length| placed(good, p, length)));
    }
    all.extend([8, 16, 24, 31].map(|bit| placed(good, bit / 8 * (c.k - 1) % c.k, whole + (1 << bit))));
    all.extend([0, c.k - 1].map(|p| placed(good, p, u32::MAX as usize)));
    all
}

/// Lengths at the ends of pieces, a byte before and a byte behind: of all pieces, or of the first, middle and last ones.
pub fn ends(c: Catalogue) -> Vec<usize> {
    let (m, whole) = (pieces(c), pack_length(c));
    let near = (0..=m).filter(|&b| m <= 9 || [0, 1, 2, m / 2, m - 1, m].contains(&b)).flat_map(|b| [b * c.s, b * c.s + 1, (b * c.s).wrapping_sub(1)]);
    let mut all: Vec<usize> = near.filter(|length| (1..=whole).contains(length)).collect();
    all.sort();
    all.dedup();
    all
}
