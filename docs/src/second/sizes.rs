//! What a catalogue comes to: pieces, lengths of packs, keys, requests and answers, and which keys are good.
use crate::catalogue::{Catalogue, Even, Round, Short, Turn};
use crate::round::blocks;

/// The blocks of a pack of the round code, each of a short pack's pieces; so many rows are in a request, and so many numbers in a key (02, item 8).
pub fn varieties(c: Catalogue) -> usize {
    blocks(c.n, c.k).unwrap()
}

pub fn pieces(c: Catalogue) -> usize {
    match c.code {
        Short | Turn => c.n - 1,
        Even => c.n.pow(c.k as u32),
        Round => (c.n - 1) * varieties(c),
    }
}

/// The length of a pack as mirrors store it, padding included.
pub fn pack_length(c: Catalogue) -> usize {
    pieces(c) * c.s
}

/// The length of a pack as the catalogue means it: its line says where it ends; without the lines padding is part of it (02, item 6).
pub fn pack_end(c: Catalogue, pack: usize) -> usize {
    if c.measured { c.lengths[pack] } else { pack_length(c) }
}

pub fn key_length(c: Catalogue) -> usize {
    match c.code {
        Short => c.k - 1,
        Turn => c.k,
        Even => c.k * pieces(c),
        Round => varieties(c),
    }
}

pub fn rows(c: Catalogue) -> usize {
    let part = c.n.pow(c.k as u32 - 1);
    part + (part - 1) / (c.n - 1)
}

pub fn slot(c: Catalogue) -> usize {
    match c.code {
        Short | Turn => c.s,
        Even => rows(c) * c.s,
        Round => varieties(c) * c.s,
    }
}

pub fn request_length(c: Catalogue) -> usize {
    match c.code {
        Short | Turn => c.k,
        Even => c.k * c.n.pow(c.k as u32 - 1),
        Round => varieties(c) * c.k,
    }
}

/// What every number of a good key is below.
pub fn ceiling(c: Catalogue) -> usize {
    match c.code {
        Short | Turn => c.n,
        Even => pieces(c),
        Round => varieties(c),
    }
}

/// What every number of an admitted request is below.
pub fn request_ceiling(c: Catalogue) -> usize {
    if c.code == Even { pieces(c) } else { c.n }
}

/// Whether a key consists of permutations, and not of digits.
pub fn permuted(c: Catalogue) -> bool {
    matches!(c.code, Even | Round)
}

pub fn key_good(c: Catalogue, key: &[u8]) -> bool {
    if !permuted(c) {
        return key.iter().all(|&d| (d as usize) < c.n);
    }
    key.chunks(ceiling(c)).all(|permutation| {
        let mut sorted = permutation.to_vec();
        sorted.sort();
        sorted.iter().enumerate().all(|(i, &x)| i == x as usize)
    })
}
