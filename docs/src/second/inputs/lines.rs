//! Inputs of the request printer about the lines that a catalogue may have: sums, seasons, lengths.
use crate::Bytes;
use crate::catalogue::{Catalogue, Code, Even, Short, adding, dated, measured, plain};
use crate::days::spelled;
use crate::draws::Draw;
use crate::inputs::{damaged, input};
use crate::samples::lengths::{all_lines, counted, counted_lines, late_faults, moved_lengths, other_lengths, placed, with_some};
use crate::samples::lines::OTHER_SUMS;
use crate::samples::seasons::{A, B, EDGES, FIRST, LAST, SEASONS, UNREAL, moved_lines, other_lines};
use crate::sizes::pack_length;
use crate::text::{length_text, season_text, write_text};

/// The line `sum=add` (02, item 2): the same requests as without it; odd pieces, with every other refusal besides; the line damaged and misplaced.
pub fn printer_sums(draw: &mut Draw, all: &mut Vec<Bytes>) {
    for size in [(Short, 2, 2), (Short, 3, 3), (Short, 16, 32), (Even, 2, 2), (Even, 3, 3), (Even, 2, 8), (Even, 16, 2)] {
        printer_sum(draw, all, size);
    }
    let good = input(adding(plain(Short, 3, 3, 4)), 1, &[2, 0]);
    for to in OTHER_SUMS {
        all.push(good.replacen("sum=add\n", to, 1).into_bytes());
    }
    for (from, to) in [("piece=4\nsum=add\n", "sum=add\npiece=4\n"), ("sum=add\nwanted=1\n", "wanted=1\nsum=add\n"), ("code=", "sum=add\ncode=")] {
        all.push(good.replacen(from, to, 1).into_bytes());
    }
    damaged(&good, "sum=add\n", all);
}

/// A catalogue that adds, with pieces of each kind and other refusals besides.
pub fn printer_sum(draw: &mut Draw, all: &mut Vec<Bytes>, (code, n, k): (Code, usize, usize)) {
    let (c, key) = (adding(plain(code, n, k, 4096)), draw.key(plain(code, n, k, 1)));
    for wanted in [0, k / 2, k - 1, k] {
        all.push(input(Catalogue { add: false, ..c }, wanted, &key).into_bytes());
        for s in [0, 1, 2, 4095, 4096, 4097] {
            all.push(input(Catalogue { s, ..c }, wanted, &key).into_bytes());
        }
    }
    for c in [c, Catalogue { s: 7, ..c }, Catalogue { s: 7, k: 1, ..c }, Catalogue { s: 7, n: 17, ..c }] {
        all.push(input(c, 0, &[&key[..], &[0]].concat()).into_bytes());
        all.push(input(c, 0, &[&[99999], &key[1..]].concat()).into_bytes());
        all.push(format!("{}\n", input(c, 0, &key)).into_bytes());
    }
}

/// A season in a catalogue's text, with the requests of the same catalogue without it (02, item 1): the printer tests none. Then each fault of the
/// dates, with other refusals besides; the lines damaged and misplaced.
pub fn printer_seasons(draw: &mut Draw, all: &mut Vec<Bytes>) {
    for (i, size) in [(Short, 2, 2), (Short, 3, 3), (Short, 16, 32), (Even, 2, 2), (Even, 3, 3), (Even, 2, 8)].into_iter().enumerate() {
        printer_season(draw, all, i, size);
    }
    let good = input(dated(plain(Short, 3, 3, 4), A, B), 1, &[2, 0]);
    let lines = season_text(&spelled(A), &spelled(B));
    for to in other_lines() {
        all.push(good.replacen(&lines, &to, 1).into_bytes());
    }
    for (from, to) in moved_lines() {
        all.push(good.replacen(&from, &to, 1).into_bytes());
    }
    for day in UNREAL.iter().chain(&EDGES) {
        all.push(good.replacen(&spelled(A), &spelled(*day), 1).into_bytes());
        all.push(good.replacen(&spelled(B), &spelled(*day), 1).into_bytes());
    }
    damaged(&good, &lines, all);
}

/// A catalogue with one of the seasons, and with faults of its dates.
pub fn printer_season(draw: &mut Draw, all: &mut Vec<Bytes>, i: usize, (code, n, k): (Code, usize, usize)) {
    let (c, key) = (plain(code, n, k, 4096), draw.key(plain(code, n, k, 1)));
    let (open, close) = SEASONS[i];
    for c in [c, dated(c, open, close), dated(adding(c), open, close)] {
        all.push(input(c, 0, &key).into_bytes());
        all.push(input(c, k - 1, &key).into_bytes());
    }
    for (open, close) in [(open, close), (close, open), (open, open), (UNREAL[i], LAST), (FIRST, UNREAL[i])] {
        for c in [c, Catalogue { n: 17, ..c }, Catalogue { k: 1, ..c }, Catalogue { s: 7, ..adding(c) }] {
            all.push(input(dated(c, open, close), 0, &key).into_bytes());
        }
        let c = dated(c, open, close);
        all.push(input(c, k, &key).into_bytes());
        all.push(input(c, 0, &[&key[..], &[0]].concat()).into_bytes());
        all.push(input(c, 0, &[&[99999], &key[1..]].concat()).into_bytes());
        all.push(format!("{}\n", input(c, 0, &key)).into_bytes());
    }
}

/// Lengths in a catalogue's text, with the requests of the same catalogue without them (02, item 6). Then each fault of the lengths, with other
/// refusals besides; other numbers of lines; the lines damaged and misplaced.
pub fn printer_lengths(draw: &mut Draw, all: &mut Vec<Bytes>) {
    for (i, size) in [(Short, 2, 2), (Short, 16, 32), (Even, 3, 3), (Even, 2, 8)].into_iter().enumerate() {
        printer_length(draw, all, i, size);
    }
    let many = [(7000, 7000), (7000, 6999)].map(|(k, count)| counted(plain(Short, 2, k, 4), count));
    for text in counted_lines().into_iter().chain(late_faults()).chain(many) {
        all.push(format!("{text}wanted=0\nkey=0\n").into_bytes());
    }
    for numbers in [&[0, 0, 0][..], &[8, 9, 8], &[1, 0, 1], &[1, 8, 2], &[8], &[9], &[0]] {
        let c = measured(plain(Short, 3, numbers.len(), 4), numbers);
        all.push(input(c, 0, &[2, 0]).into_bytes());
        all.push(input(adding(c), c.k, &[3]).into_bytes());
    }
    let good = input(all_lines(), 1, &[2, 0]);
    for text in other_lengths(all_lines()).into_iter().chain(moved_lengths()) {
        all.push(good.replacen(&write_text(all_lines()), &text, 1).into_bytes());
    }
    for (from, to) in [("wanted=1", "wanted=0000001"), ("wanted=1", "wanted=100000"), ("key=2", "key=100000"), ("wanted=", "length=4\nwanted="),
        ("wanted=1\n", ""), ("wanted=1\n", "wanted=1\nlength=4\n"), ("wanted=", "length"), ("wanted=", "\nwanted="), ("wanted=", "wanted= "),
        ("key=2 0\n", "")] {
        all.push(good.replacen(from, to, 1).into_bytes());
    }
    damaged(&good, &length_text(&all_lines().lengths[..3]), all);
}

/// A catalogue with lengths, and with faults of them.
pub fn printer_length(draw: &mut Draw, all: &mut Vec<Bytes>, i: usize, (code, n, k): (Code, usize, usize)) {
    let (c, key) = (plain(code, n, k, 4096), draw.key(plain(code, n, k, 1)));
    let (open, close) = SEASONS[i];
    for c in [c, adding(c), dated(c, open, close), dated(adding(c), open, close)] {
        all.push(input(with_some(c), i % k, &key).into_bytes());
        all.push(input(c, i % k, &key).into_bytes());
    }
    all.push(input(with_some(adding(Catalogue { s: 7, ..c })), k, &key).into_bytes());
    for c in [with_some(c), placed(with_some(c), k - 1, 0), placed(with_some(c), 0, pack_length(c) + 1), placed(with_some(c), k - 1, 9999999)] {
        for c in [c, Catalogue { n: 17, ..c }, Catalogue { s: 7, ..adding(c) }] {
            all.push(input(c, 0, &key).into_bytes());
        }
        all.push(input(c, k, &key).into_bytes());
        all.push(input(c, 0, &[&key[..], &[0]].concat()).into_bytes());
        all.push(input(c, 0, &[&[99999], &key[1..]].concat()).into_bytes());
        all.push(format!("{}\n", input(c, 0, &key)).into_bytes());
    }
}
