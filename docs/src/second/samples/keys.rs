//! Keys whose digits sum up to N or nearly, and spreads of catalogues.
use crate::bench::LENGTHS;
use crate::catalogue::{Catalogue, Code, Even, Round, admitted, plain, within};
use crate::sizes::{pack_length, slot};

/// Keys whose digits, summed up one by one, come to N exactly, stop one short of it or pass it by one (02, item 3): at the first step that can, at
/// the last one, or at every second one; the greatest digit throughout, ones and zeros throughout; and every key of a single digit.
pub fn sum_keys(n: usize) -> Vec<Vec<usize>> {
    let mut all: Vec<Vec<usize>> = (0..n).map(|d| vec![d]).collect();
    for a in 1..n {
        all.extend([n - a - 1, n - a, n - a + 1].into_iter().filter(|&b| b < n).map(|b| vec![a, b]));
    }
    for pattern in [[1, n - 1], [n - 1, 1], [n - 1, n - 1], [1, 1], [0, n - 1], [0, 0]] {
        all.push(pattern.into_iter().cycle().take(31).collect());
    }
    for last in [n - 2, n - 1] {
        all.push([vec![1], vec![0; 29], vec![last]].concat());
    }
    all
}

/// A spread of a code whose packs may be up to 32.
pub fn some(code: Code, packs: &[usize]) -> Vec<Catalogue> {
    (2..=16).flat_map(|n| packs.iter().map(move |&k| plain(code, n, k, 1))).collect()
}

/// Every N and K of a code of few packs.
fn all_pairs(code: Code) -> Vec<Catalogue> {
    (2..=16).flat_map(|n| (2..=8).map(move |k| plain(code, n, k, 1))).filter(|&c| within(c)).collect()
}

pub fn all_even() -> Vec<Catalogue> {
    all_pairs(Even)
}

pub fn all_round() -> Vec<Catalogue> {
    all_pairs(Round)
}

/// The catalogue with the largest piece, up to `s`, that is admitted and for which the buffers of `conformance` have room.
pub fn fitted(c: Catalogue, s: usize) -> Catalogue {
    let fits = |s: usize| {
        let c = Catalogue { s, ..c };
        admitted(c) && c.k * pack_length(c) < LENGTHS[1] && slot(c) < LENGTHS[3] && c.n * slot(c) < LENGTHS[4] && pack_length(c) < LENGTHS[5]
    };
    Catalogue { s: (1..=s).rev().find(|&s| fits(s)).unwrap(), ..c }
}
