//! The codes over rows of digits: the short one by the formulas of source 000, section III-B, and the turn of the turning one (02, item 4).
use crate::Bytes;
use crate::catalogue::Catalogue;
use crate::sizes::pack_length;
use crate::sums::{combine, piece, take_away};

/// What the mirrors are sent under the short code, mirror 0 first: the digits, and at the wanted pack's place one more (000, III-B).
pub fn short_requests(c: Catalogue, wanted: usize, digits: &[u8]) -> Vec<Bytes> {
    let t: usize = digits.iter().map(|&d| d as usize).sum::<usize>() % c.n;
    let with = |digit: usize| {
        let mut out = digits.to_vec();
        out.insert(wanted, digit as u8);
        out
    };
    (0..c.n).map(|mirror| with((mirror + c.n - t) % c.n)).collect()
}

/// Every row of so many digits below N, counted up.
pub fn all_rows(n: usize, digits: usize) -> Vec<Bytes> {
    let mut all = vec![Vec::new()];
    for _ in 0..digits {
        all = all.into_iter().flat_map(|row: Bytes| (0..n as u8).map(move |digit| [&row[..], &[digit]].concat())).collect();
    }
    all
}

/// The key of the turning code taken apart: the other digits, and the last one, the turn (02, item 4).
pub fn parted(key: &[u8]) -> (&[u8], usize) {
    let (&turn, digits) = key.split_last().unwrap();
    (digits, turn as usize)
}

/// The answer to one row of digits: nothing to the row of zeros, whichever mirror has it.
pub fn row_answer(c: Catalogue, store: &[u8], row: &[u8]) -> Bytes {
    if row.iter().all(|&d| d == 0) {
        return Vec::new();
    }
    let mut out = vec![0; c.s];
    for (p, &d) in row.iter().enumerate().filter(|&(_, &d)| d > 0) {
        combine(c, &mut out, piece(c, store, p, d as usize - 1));
    }
    out
}

/// Recovery under the short code, whose mirrors' answers these are.
pub fn short_recover(c: Catalogue, digits: &[u8], answers: &[Bytes]) -> Bytes {
    let mut pack = vec![0; pack_length(c)];
    let t: usize = digits.iter().map(|&d| d as usize).sum::<usize>() % c.n;
    let whole = |a: &Bytes| if a.is_empty() { vec![0; c.s] } else { a.clone() };
    for d in 1..c.n {
        let mut got = whole(&answers[(d + t) % c.n]);
        take_away(c, &mut got, &whole(&answers[t]));
        pack[(d - 1) * c.s..d * c.s].copy_from_slice(&got);
    }
    pack
}
