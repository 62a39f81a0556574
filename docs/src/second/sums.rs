//! The two sums of pieces: exclusive or, and words added with a carry (02, item 2).
use crate::catalogue::Catalogue;
use crate::sizes::pack_length;

pub fn piece(c: Catalogue, store: &[u8], pack: usize, number: usize) -> &[u8] {
    let at = pack * pack_length(c) + number * c.s;
    &store[at..at + c.s]
}

/// The pieces changed word by word: a word is two bytes, the low one first.
fn on_words(into: &mut [u8], piece: &[u8], change: fn(u16, u16) -> u16) {
    for (a, b) in into.chunks_exact_mut(2).zip(piece.chunks_exact(2)) {
        let word = change(u16::from_le_bytes([a[0], a[1]]), u16::from_le_bytes([b[0], b[1]]));
        a.copy_from_slice(&word.to_le_bytes());
    }
}

fn exclusive_or(into: &mut [u8], piece: &[u8]) {
    for (a, b) in into.iter_mut().zip(piece) {
        *a ^= b;
    }
}

/// Combines a piece into another, in the catalogue's sum.
pub fn combine(c: Catalogue, into: &mut [u8], piece: &[u8]) {
    if c.add { on_words(into, piece, u16::wrapping_add) } else { exclusive_or(into, piece) }
}

/// What recovery does where exclusive or combines once more: under addition it subtracts.
pub fn take_away(c: Catalogue, from: &mut [u8], piece: &[u8]) {
    if c.add { on_words(from, piece, u16::wrapping_sub) } else { exclusive_or(from, piece) }
}
