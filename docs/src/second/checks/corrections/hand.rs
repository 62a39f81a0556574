//! Corrections worked out by hand.
use crate::catalogue::{Catalogue, Even, Round, Short, Turn, adding, plain};
use crate::corrections::{Edit, correct, correct_answer};

/// A correction by both calls: the store and the answer before, the edit (pack, piece, byte, value), the answer after.
fn card(c: Catalogue, mirror: usize, store: &[u8], request: &[u8], saved: &[u8], [pack, piece, byte, value]: [usize; 4], after: &[u8]) {
    let edit = Edit { pack, piece, byte, value: value as u8 };
    let (mut alone, mut moved, mut stored) = (saved.to_vec(), saved.to_vec(), store.to_vec());
    assert_eq!((correct_answer(c, mirror, store, request, edit, &mut alone), &alone[..]), (Ok(()), after));
    assert_eq!((correct(c, mirror, &mut stored, request, edit, &mut moved), &moved[..]), (Ok(()), after));
    // the bytes that are another than before, by their places in the store
    let changed: Vec<(usize, u8)> = stored.iter().copied().enumerate().filter(|&(i, b)| b != store[i]).collect();
    assert!(changed.len() <= 1 && changed.iter().all(|&(_, b)| b == value as u8));
}

/// Rows of one byte: the packs of bench card B2, and small stores of the round and the even code.
fn rows() {
    let (c, store) = (plain(Short, 2, 2, 1), [0x5A, 0xC3]);
    card(c, 0, &store, &[1, 1], &[0x99], [0, 0, 0, 0x5B], &[0x98]);
    card(c, 0, &store, &[1, 1], &[0x99], [1, 0, 0, 0x3C], &[0x66]);
    card(c, 0, &store, &[1, 1], &[0], [1, 0, 0, 0x3C], &[0xFF]);
    card(c, 1, &store, &[0, 1], &[0xC3], [0, 0, 0, 0x5B], &[0xC3]);
    card(c, 1, &store, &[0, 1], &[0xC3], [1, 0, 0, 0xC2], &[0xC2]);
    card(c, 0, &store, &[0, 0], &[], [1, 0, 0, 7], &[]);
    card(Catalogue { code: Turn, ..c }, 1, &store, &[0, 0], &[], [0, 0, 0, 7], &[]);
    card(Catalogue { code: Turn, ..c }, 1, &store, &[1, 1], &[0x99], [0, 0, 0, 0x5B], &[0x98]);
    let (c, store) = (plain(Round, 2, 2, 1), [0x5A, 0x0F, 0xC3, 0xF0]);
    // mirror 0's row of zeros takes no bytes, and names nothing, before the other row as behind it
    card(c, 0, &store, &[1, 1, 0, 0], &[0x99], [0, 0, 0, 0x5B], &[0x98]);
    card(c, 0, &store, &[1, 1, 0, 0], &[0x99], [0, 1, 0, 0x5B], &[0x99]);
    card(c, 0, &store, &[0, 0, 1, 1], &[0xFF], [1, 1, 0, 0xF1], &[0xFE]);
    card(c, 0, &store, &[0, 0, 1, 1], &[0xFF], [1, 0, 0, 0xF1], &[0xFF]);
    card(c, 1, &store, &[1, 0, 0, 1], &[0x5A, 0xF0], [1, 1, 0, 0xF1], &[0x5A, 0xF1]);
    card(c, 1, &store, &[1, 0, 0, 1], &[0x5A, 0xF0], [0, 0, 0, 0x5B], &[0x5B, 0xF0]);
    card(c, 1, &store, &[1, 0, 0, 1], &[0x5A, 0xF0], [0, 1, 0, 0x5B], &[0x5A, 0xF0]);
    card(c, 1, &store, &[1, 0, 0, 1], &[0x5A, 0xF0], [1, 0, 0, 0x5B], &[0x5A, 0xF0]);
    // the request of bench card B7: pieces 0 and 0 by themselves, then piece 2 of pack 0 with piece 1 of pack 1
    let (c, store) = (plain(Even, 2, 2, 1), [1, 2, 3, 4, 16, 32, 48, 64]);
    let (request, saved) = ([0, 0, 2, 1], [1, 16, 35]);
    card(c, 0, &store, &request, &saved, [0, 0, 0, 9], &[9, 16, 35]);
    card(c, 1, &store, &request, &saved, [1, 0, 0, 9], &[1, 9, 35]);
    card(c, 0, &store, &request, &saved, [0, 2, 0, 0], &[1, 16, 32]);
    card(c, 1, &store, &request, &saved, [1, 1, 0, 0], &[1, 16, 3]);
    for (pack, piece) in [(0, 1), (0, 3), (1, 2), (1, 3)] {
        card(c, 0, &store, &request, &saved, [pack, piece, 0, 9], &saved);
    }
}

/// Words: the low byte first, carried and borrowed within the word alone, whatever was saved.
fn words() {
    let c = adding(plain(Short, 2, 2, 4));
    let all: [([u8; 4], [usize; 3], [u8; 4]); 14] = [
        // old, byte and new; what was saved and what it becomes
        ([0xFF, 0x00, 9, 9], [0, 0, 1], [0x00, 0x01, 9, 9]),
        ([0x00, 0x01, 9, 9], [1, 0, 0], [0xFF, 0x00, 9, 9]),
        ([0xFF, 0xFF, 9, 9], [0, 0, 1], [0x00, 0x00, 9, 9]),
        ([0x00, 0x00, 9, 9], [1, 0, 0], [0xFF, 0xFF, 9, 9]),
        ([0x05, 0xFF, 9, 9], [0, 1, 1], [0x05, 0x00, 9, 9]),
        ([0x05, 0x00, 9, 9], [1, 1, 0], [0x05, 0xFF, 9, 9]),
        ([0x05, 0x00, 9, 9], [0, 1, 255], [0x05, 0xFF, 9, 9]),
        ([0x01, 0x01, 9, 9], [2, 0, 0], [0xFF, 0x00, 9, 9]),
        ([0xFE, 0x00, 9, 9], [0, 0, 255], [0xFD, 0x01, 9, 9]),
        ([9, 9, 0xFF, 0xFF], [7, 2, 8], [9, 9, 0x00, 0x00]),
        ([9, 9, 0x00, 0x00], [8, 2, 7], [9, 9, 0xFF, 0xFF]),
        ([9, 9, 0x00, 0x80], [0, 3, 128], [9, 9, 0x00, 0x00]),
        ([9, 9, 0x7F, 0x00], [128, 2, 127], [9, 9, 0x7E, 0x00]),
        ([9, 9, 0xFF, 0xFF], [8, 3, 8], [9, 9, 0xFF, 0xFF]),
    ];
    for (saved, [old, byte, new], after) in all {
        for pack in [0, 1] {
            let mut store = [3; 8];
            store[4 * pack + byte] = old as u8;
            card(c, 0, &store, &[1, 1], &saved, [pack, 0, byte, new], &after);
            card(c, 1, &store, &[1 - pack as u8, pack as u8], &saved, [pack, 0, byte, new], &after);
            card(c, 1, &store, &[pack as u8, 1 - pack as u8], &saved, [pack, 0, byte, new], &saved);
        }
    }
}

pub fn by_hand() {
    rows();
    words();
}
