//! One corrected byte (02, item 13): against the rule in numbers, row by row; against the answering end, before and after; against numbers by hand.
mod hand;
mod faults;
mod several;

use crate::Bytes;
use crate::catalogue::{Catalogue, Code, Even, Round, Short, Turn, adding, admitted, plain};
use crate::checks::units::store_of;
use crate::codes::{admits, answer};
use crate::corrections::{Edit, correct, correct_answer};
use crate::draws::Draw;
use crate::rows::all_rows;
use crate::samples::edits::{every_byte, named, place, some_request};
use crate::samples::keys::{all_even, all_round, some};
use crate::sizes::{pieces, request_ceiling, request_length};

/// Where the byte of an edit stands in the answer, if its piece is named.
fn answered(c: Catalogue, request: &[u8], edit: Edit) -> Option<usize> {
    let rows = named(c, request);
    let mut found = rows.iter().enumerate().filter(|(_, row)| row.contains(&(edit.pack, edit.piece)));
    let place = found.next().map(|(i, _)| i * c.s + edit.byte);
    assert!(found.next().is_none());
    place
}

/// The answer after an edit of a byte that was `old`, in numbers: a byte changed, or a word counted up or down, of which the second byte weighs 256.
fn told(c: Catalogue, request: &[u8], old: u8, edit: Edit, saved: &[u8]) -> Bytes {
    let mut out = saved.to_vec();
    let Some(at) = answered(c, request, edit) else { return out };
    if !c.add {
        out[at] ^= old ^ edit.value;
        return out;
    }
    let (low, weight) = (at - edit.byte % 2, [1, 256][edit.byte % 2]);
    let word = saved[low] as i64 + 256 * saved[low + 1] as i64 + weight * (edit.value as i64 - old as i64);
    (out[low], out[low + 1]) = (word.rem_euclid(256) as u8, word.rem_euclid(65536).div_euclid(256) as u8);
    out
}

fn differ(a: &[u8], b: &[u8]) -> Vec<usize> {
    assert_eq!(a.len(), b.len());
    (0..a.len()).filter(|&i| a[i] != b[i]).collect()
}

/// Both calls, on answers right and wrong: the answer moves as told, and by no more bytes than it may; one byte of the store is set; a right answer is
/// the new store's; the edit undone restores all.
fn agreed(c: Catalogue, mirror: usize, store: &[u8], request: &[u8], edit: Edit, draw: &mut Draw) {
    let right = answer(c, store, request);
    let (old, mut after) = (store[place(c, edit)], store.to_vec());
    after[place(c, edit)] = edit.value;
    // a store that is zero but for this byte is answered with zeros alone unless the piece is named
    let mut lone = vec![0; store.len()];
    lone[place(c, edit)] = 1;
    let seen: Vec<usize> = answer(c, &lone, request).iter().enumerate().filter(|&(_, &b)| b != 0).map(|(i, _)| i).collect();
    assert_eq!(seen, answered(c, request, edit).into_iter().collect::<Vec<_>>());
    let drawn: Bytes = right.iter().map(|_| draw.below(256) as u8).collect();
    for saved in [&right, &drawn, &vec![0; right.len()], &vec![255; right.len()]] {
        let (mut alone, mut moved, mut stored) = (saved.clone(), saved.clone(), store.to_vec());
        assert_eq!(correct_answer(c, mirror, store, request, edit, &mut alone), Ok(()));
        assert_eq!(correct(c, mirror, &mut stored, request, edit, &mut moved), Ok(()));
        assert_eq!((&alone, &stored), (&moved, &after));
        assert_eq!(moved, told(c, request, old, edit, saved), "{c:?} {edit:?} {request:?} {saved:?}");
        let bytes = differ(saved, &moved);
        assert!(bytes.len() <= if c.add { 2 } else { 1 } && (!bytes.is_empty() == (!seen.is_empty() && old != edit.value)));
        assert!(saved != &right || moved == answer(c, &stored, request));
        assert_eq!(correct(c, mirror, &mut stored, request, Edit { value: old, ..edit }, &mut moved), Ok(()));
        assert_eq!((&stored[..], &moved), (store, saved));
    }
}

/// The values that a byte is set to: its own, its neighbours, the least, the greatest, and one that is drawn.
fn values(old: u8, draw: &mut Draw) -> [u8; 6] {
    [old, old.wrapping_add(1), old.wrapping_sub(1), 0, 255, draw.below(256) as u8]
}

/// Small catalogues: all requests of all mirrors, all bytes.
fn small() {
    let mut draw = Draw(131);
    let all: [(Code, usize, usize, usize); 13] = [(Short, 2, 2, 1), (Short, 2, 2, 4), (Short, 3, 2, 2), (Short, 2, 3, 2), (Short, 3, 3, 1), (Turn, 2, 2, 2),
        (Turn, 3, 2, 1), (Turn, 2, 3, 2), (Even, 2, 2, 1), (Even, 2, 2, 2), (Round, 2, 2, 2), (Round, 3, 2, 2), (Round, 2, 3, 1)];
    for c in all.into_iter().map(|(code, n, k, s)| plain(code, n, k, s)).flat_map(|c| [c, adding(c)]).filter(|&c| admitted(c)) {
        let requests = all_rows(request_ceiling(c), request_length(c));
        for (mirror, request) in (0..c.n).flat_map(|mirror| requests.iter().map(move |request| (mirror, request))) {
            if !admits(c, mirror, request) {
                continue;
            }
            let store = store_of(c, &mut draw);
            for edit in every_byte(c) {
                for value in values(store[place(c, edit)], &mut draw) {
                    agreed(c, mirror, &store, request, Edit { value, ..edit }, &mut draw);
                }
            }
        }
    }
}

/// All values of a byte, before and after, in both bytes of a word.
fn all_values() {
    let mut draw = Draw(132);
    for c in [plain(Short, 2, 2, 2), adding(plain(Short, 2, 2, 2))] {
        for (old, value, byte) in (0..=255).flat_map(|old| (0..=255).flat_map(move |value| [0, 1].map(|byte| (old, value, byte)))) {
            let mut store = store_of(c, &mut draw);
            store[2 + byte] = old;
            agreed(c, 0, &store, &[1, 1], Edit { pack: 1, piece: 0, byte, value }, &mut draw);
        }
    }
}

/// Every N and K of the even and the round code, and a spread of the others: the first byte, the last one, and some between, of which half are of pieces
/// that the request names.
fn large() {
    let mut draw = Draw(133);
    let all = all_even().into_iter().chain(all_round()).chain(some(Short, &[2, 3, 7, 32])).chain(some(Turn, &[2, 4, 31, 32]));
    for (i, c) in all.enumerate() {
        let c = Catalogue { s: [1, 2, 3, 6][i % 4], add: i % 4 % 2 == 1, ..c };
        for mirror in [0, 1 + draw.below(c.n - 1), c.n - 1] {
            let (store, request) = (store_of(c, &mut draw), some_request(c, mirror, &mut draw));
            let mut places = vec![(0, 0), (c.k - 1, pieces(c) - 1), (draw.below(c.k), draw.below(pieces(c)))];
            let rows = named(c, &request);
            for row in [rows.first(), rows.get(rows.len() / 2), rows.last()].into_iter().flatten() {
                places.extend([row[0], row[row.len() - 1]]);
            }
            for (j, (pack, piece)) in places.into_iter().enumerate() {
                let edit = Edit { pack, piece, byte: [0, c.s - 1, draw.below(c.s)][j % 3], value: draw.below(256) as u8 };
                agreed(c, mirror, &store, &request, edit, &mut draw);
            }
        }
    }
}

pub fn corrections() {
    hand::by_hand();
    faults::places();
    faults::lengths();
    faults::orders();
    small();
    all_values();
    large();
    several::orders();
    several::many_edits();
}
