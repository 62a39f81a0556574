//! Which corrections are refused (02, item 13), by which number, and that a refused one changes nothing.
use crate::Bytes;
use crate::catalogue::{Catalogue, Even, Round, Short, Turn, adding, dated, plain};
use crate::checks::units::store_of;
use crate::codes::answer;
use crate::corrections::{Edit, correct, correct_answer};
use crate::draws::Draw;
use crate::samples::edits::some_request;
use crate::samples::lengths::with_some;
use crate::samples::seasons::{A, B, LAST};
use crate::sizes::pieces;

/// What a correction is given.
#[derive(Clone)]
struct Call {
    c: Catalogue,
    mirror: usize,
    store: Bytes,
    request: Bytes,
    edit: Edit,
    saved: Bytes,
}

impl Call {
    /// A good one, of the last byte of the store.
    fn new(c: Catalogue, mirror: usize, draw: &mut Draw) -> Call {
        let (store, request) = (store_of(c, draw), some_request(c, mirror, draw));
        let edit = Edit { pack: c.k - 1, piece: pieces(c) - 1, byte: c.s - 1, value: store[store.len() - 1] ^ 255 };
        Call { c, mirror, saved: answer(c, &store, &request), store, request, edit }
    }

    /// What both calls give, 0 if they are done; the store and the answer stay where they are refused, and else the store does not.
    fn gives(&self) -> u8 {
        let (mut alone, mut moved, mut stored) = (self.saved.clone(), self.saved.clone(), self.store.clone());
        let first = correct_answer(self.c, self.mirror, &self.store, &self.request, self.edit, &mut alone);
        let gave = correct(self.c, self.mirror, &mut stored, &self.request, self.edit, &mut moved);
        assert_eq!((first, &alone), (gave, &moved));
        assert!(if gave.is_err() { (&stored, &moved) == (&self.store, &self.saved) } else { stored != self.store });
        gave.err().unwrap_or(0)
    }
}

fn catalogues() -> Vec<Catalogue> {
    let all = [(Short, 2, 2, 2), (Short, 3, 3, 4), (Turn, 3, 2, 2), (Even, 2, 2, 2), (Even, 3, 2, 4), (Round, 2, 3, 2), (Round, 3, 2, 2)];
    let both = all.into_iter().map(|(code, n, k, s)| plain(code, n, k, s)).flat_map(|c| [c, adding(c)]);
    // a season that is long over, and one of the last days; lengths that leave the byte in the padding
    both.flat_map(|c| [c, dated(c, A, B), with_some(c), dated(with_some(c), B, LAST)]).collect()
}

/// Both sides of each bound of an edit; what lies past one is refused though the store has a byte there.
pub fn places() {
    let mut draw = Draw(136);
    for c in catalogues() {
        for mirror in 0..c.n {
            let good = Call::new(c, mirror, &mut draw);
            assert_eq!(good.gives(), 0);
            let with = |change: &dyn Fn(&mut Edit)| {
                let mut call = good.clone();
                (call.edit.pack, call.edit.piece, call.edit.byte) = (0, 0, 0);
                call.edit.value = call.store[0] ^ 255;
                change(&mut call.edit);
                call.gives()
            };
            assert_eq!(with(&|_| ()), 0);
            for huge in [1 << 8, 1 << 16, 1 << 32, usize::MAX / 2, usize::MAX] {
                assert_eq!([with(&|e| e.pack = huge), with(&|e| e.piece = huge), with(&|e| e.byte = huge)], [19; 3]);
            }
            assert_eq!([with(&|e| e.pack = c.k), with(&|e| e.piece = pieces(c)), with(&|e| e.byte = c.s)], [19; 3]);
            assert_eq!([with(&|e| (e.pack, e.piece) = (c.k - 1, pieces(c))), with(&|e| (e.piece, e.byte) = (pieces(c) - 1, c.s))], [19; 2]);
        }
    }
}

/// Every other length of the saved answer is 10, and every other length of the store 8; with no bytes, too.
pub fn lengths() {
    let mut draw = Draw(137);
    for c in catalogues() {
        for mirror in 0..c.n {
            let good = Call::new(c, mirror, &mut draw);
            for length in (0..=good.saved.len() + c.s + 1).filter(|&length| length != good.saved.len()) {
                assert_eq!(Call { saved: vec![7; length], ..good.clone() }.gives(), 10);
            }
            for length in (0..=good.store.len() + c.s + 1).filter(|&length| length != good.store.len()) {
                assert_eq!(Call { store: vec![7; length], ..good.clone() }.gives(), 8);
            }
        }
    }
    // a row of zeros calls for no bytes
    for (code, mirror) in [(Short, 0), (Turn, 0), (Turn, 2)] {
        let mut call = Call::new(plain(code, 3, 2, 2), mirror, &mut draw);
        (call.request, call.saved) = (vec![0, 0], Vec::new());
        assert_eq!(call.gives(), 0);
        assert_eq!([1, 2, 3].map(|length| Call { saved: vec![0; length], ..call.clone() }.gives()), [10; 3]);
    }
}

/// A fault of a call: its place in the order of refusals, its number, and what makes it.
type Fault = (usize, u8, fn(&mut Call));

const FAULTS: [Fault; 17] = [
    (0, 2, |call| call.c.n = 17),
    (0, 2, |call| call.c.s = 4097),
    (0, 2, |call| call.c.open = A),
    (0, 2, |call| (call.c.open, call.c.close) = (B, A)),
    (0, 2, |call| call.c.lengths[31] = 1),
    (1, 17, |call| call.c.k = 1),
    (2, 15, |call| (call.c.add, call.c.s) = (true, call.c.s | 1)),
    (3, 3, |call| call.mirror = call.c.n),
    (4, 7, |call| call.request.push(0)),
    (4, 7, |call| call.request[0] = 255),
    (5, 8, |call| call.store.push(0)),
    (5, 8, |call| call.store.truncate(call.store.len() - 1)),
    (6, 19, |call| call.edit.pack += 1),
    (6, 19, |call| call.edit.piece += 1),
    (6, 19, |call| call.edit.byte += 1),
    (7, 10, |call| call.saved.push(0)),
    (7, 10, |call| call.saved.clear()),
];

/// Of any two faults together the first in the order is given.
pub fn orders() {
    let mut draw = Draw(138);
    for (code, n) in [(Short, 3), (Turn, 2), (Even, 2), (Round, 2), (Round, 3)] {
        let good = Call::new(plain(code, n, 2, 2), n - 1, &mut draw);
        // with a row of zeros no byte is called for, and none is too few
        assert!(good.saved.len() > 1 || code == Turn);
        for (first, second) in FAULTS.iter().enumerate().flat_map(|(i, first)| FAULTS[i..].iter().map(move |second| (first, second))) {
            let mut call = good.clone();
            if code == Turn {
                (call.request, call.saved) = (vec![1, 1], vec![1, 2]);
            }
            (first.2)(&mut call);
            // a fault made twice may be none
            if first.1 != second.1 {
                (second.2)(&mut call);
            }
            assert_eq!(call.gives(), first.1, "{first:?} {second:?}");
        }
    }
}
