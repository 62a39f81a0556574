//! Several saved answers (02, item 13): each corrected from the store as it was, in every order, then the store set.
use crate::Bytes;
use crate::catalogue::{Catalogue, Even, Round, Short, Turn, adding, plain};
use crate::checks::units::store_of;
use crate::codes::answer;
use crate::corrections::{Edit, correct, correct_answer};
use crate::draws::Draw;
use crate::samples::edits::some_request;
use crate::sizes::pieces;

/// An answer saved by its mirror and request.
struct Saved {
    mirror: usize,
    request: Bytes,
    answer: Bytes,
}

fn some_saved(c: Catalogue, store: &[u8], count: usize, draw: &mut Draw) -> Vec<Saved> {
    let one = |i: usize| {
        let (mirror, request) = (i % c.n, some_request(c, i % c.n, draw));
        Saved { mirror, answer: answer(c, store, &request), request }
    };
    (0..count).map(one).collect()
}

fn some_edit(c: Catalogue, draw: &mut Draw) -> Edit {
    Edit { pack: draw.below(c.k), piece: draw.below(pieces(c)), byte: draw.below(c.s), value: draw.below(256) as u8 }
}

fn catalogues() -> Vec<Catalogue> {
    let all = [(Short, 2, 2, 2), (Short, 3, 4, 4), (Turn, 2, 3, 2), (Turn, 4, 2, 2), (Even, 2, 2, 2), (Even, 3, 3, 2), (Round, 2, 3, 2), (Round, 4, 2, 2)];
    all.into_iter().map(|(code, n, k, s)| plain(code, n, k, s)).flat_map(|c| [c, adding(c)]).collect()
}

/// Corrects all in this order, the last one with the store.
fn in_order(c: Catalogue, store: &mut [u8], saved: &mut [Saved], order: &[usize], edit: Edit) {
    let (&last, others) = order.split_last().unwrap();
    for &i in others {
        let one = &mut saved[i];
        assert_eq!(correct_answer(c, one.mirror, store, &one.request, edit, &mut one.answer), Ok(()));
    }
    let one = &mut saved[last];
    assert_eq!(correct(c, one.mirror, store, &one.request, edit, &mut one.answer), Ok(()));
}

fn all_fresh(c: Catalogue, store: &[u8], saved: &[Saved]) -> bool {
    saved.iter().all(|one| one.answer == answer(c, store, &one.request))
}

/// Every order of a few answers.
pub fn orders() {
    let mut draw = Draw(134);
    for c in catalogues() {
        for order in (0..256).map(|x| [x & 3, x >> 2 & 3, x >> 4 & 3, x >> 6]).filter(|o| (0..4).all(|i| o.contains(&i))) {
            let mut store = store_of(c, &mut draw);
            let mut saved = some_saved(c, &store, 4, &mut draw);
            for _ in 0..4 {
                in_order(c, &mut store, &mut saved, &order, some_edit(c, &mut draw));
                assert!(all_fresh(c, &store, &saved));
            }
        }
    }
}

/// Many edits one after another, each undone later from the last one back.
pub fn many_edits() {
    let mut draw = Draw(135);
    for c in catalogues() {
        let mut store = store_of(c, &mut draw);
        let (first, mut saved, mut undone) = (store.clone(), some_saved(c, &store, 5, &mut draw), Vec::new());
        for _ in 0..200 {
            let edit = some_edit(c, &mut draw);
            let old = store.clone();
            in_order(c, &mut store, &mut saved, &[3, 1, 4, 0, 2], edit);
            assert!(all_fresh(c, &store, &saved));
            let value = (0..store.len()).find(|&i| store[i] != old[i]).map_or(edit.value, |i| old[i]);
            undone.push(Edit { value, ..edit });
        }
        for edit in undone.into_iter().rev() {
            in_order(c, &mut store, &mut saved, &[0, 1, 2, 3, 4], edit);
        }
        assert!(store == first && all_fresh(c, &store, &saved));
    }
}
