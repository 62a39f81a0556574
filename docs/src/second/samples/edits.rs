//! What corrections are made of: requests, the pieces that they name, and the bytes of a store.
use crate::Bytes;
use crate::catalogue::{Catalogue, Even};
use crate::codes::request;
use crate::corrections::Edit;
use crate::draws::Draw;
use crate::even::layout;
use crate::sizes::{pack_length, pieces};

/// A request that a mirror admits, by a key and a wanted pack that are drawn.
pub fn some_request(c: Catalogue, mirror: usize, draw: &mut Draw) -> Bytes {
    let key: Bytes = draw.key(c).iter().map(|&x| x as u8).collect();
    request(c, draw.below(c.k), mirror, &key)
}

/// The pieces of each row that is answered, with their packs: told from the request alone.
pub fn named(c: Catalogue, request: &[u8]) -> Vec<Vec<(usize, usize)>> {
    if c.code == Even {
        let mut numbers = request.iter();
        return layout(c).into_iter().map(|set| set.into_iter().map(|p| (p, *numbers.next().unwrap() as usize)).collect()).collect();
    }
    let row = |(i, digits): (usize, &[u8])| {
        let some = digits.iter().enumerate().filter(|&(_, &d)| d > 0);
        some.map(|(p, &d)| (p, i * (c.n - 1) + d as usize - 1)).collect::<Vec<_>>()
    };
    request.chunks(c.k).enumerate().map(row).filter(|row| !row.is_empty()).collect()
}

/// The place of an edit's byte in the store.
pub fn place(c: Catalogue, edit: Edit) -> usize {
    edit.pack * pack_length(c) + edit.piece * c.s + edit.byte
}

/// Every byte of a store, set to 0.
pub fn every_byte(c: Catalogue) -> Vec<Edit> {
    let pieces = (0..c.k).flat_map(|pack| (0..pieces(c)).map(move |piece| (pack, piece)));
    pieces.flat_map(|(pack, piece)| (0..c.s).map(move |byte| Edit { pack, piece, byte, value: 0 })).collect()
}
