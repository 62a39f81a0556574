//! Lines about several saved answers, corrected one after another from the unchanged store, and long runs of edits that are drawn.
use crate::Bytes;
use crate::cases::Cases;
use crate::catalogue::{Catalogue, Code, Even, Round, Short, Turn, adding, plain};
use crate::codes::answer_length;
use crate::corrections::Edit;
use crate::samples::edits::place;
use crate::sizes::pieces;

/// Orders of four answers, of which the last is corrected with the store.
const ORDERS: [[usize; 4]; 8] = [[0, 1, 2, 3], [3, 2, 1, 0], [1, 3, 0, 2], [2, 0, 3, 1], [0, 2, 1, 3], [3, 0, 1, 2], [1, 2, 3, 0], [2, 3, 1, 0]];

impl Cases {
    fn some_edit(&mut self, c: Catalogue) -> Edit {
        let [pack, piece, byte, value] = [c.k, pieces(c), c.s, 256].map(|n| self.draw.below(n));
        Edit { pack, piece, byte, value: value as u8 }
    }

    /// Four answers by four requests: each edit made to three of them from the unchanged store, then to one with it; then all are shown, by an edit that
    /// sets what is there.
    pub fn several_saved(&mut self) {
        let all: [(Code, usize, usize, usize); 10] = [(Short, 2, 2, 2), (Short, 4, 3, 4), (Turn, 2, 2, 2), (Turn, 3, 4, 2), (Even, 2, 2, 2), (Even, 3, 2, 2),
            (Even, 2, 4, 2), (Round, 2, 3, 2), (Round, 4, 2, 2), (Round, 3, 3, 2)];
        for c in all.into_iter().map(|(code, n, k, s)| plain(code, n, k, s)).flat_map(|c| [c, adding(c)]) {
            self.open_catalogue("several saved answers", c);
            let requests: Vec<Bytes> = (0..4).map(|i| self.some_request(c, i % c.n)).collect();
            for (i, request) in requests.iter().enumerate() {
                self.saved(i, c, i % c.n, request);
            }
            for order in ORDERS.into_iter().take(if c.code == Even { 5 } else { 4 }) {
                let edit = self.some_edit(c);
                self.edit(edit);
                for (j, i) in order.into_iter().chain(0..4).enumerate() {
                    self.choose(i, i % c.n, requests[i].len(), answer_length(c, &requests[i]));
                    self.put(if j == 3 { "X".into() } else { "Y".into() });
                }
            }
        }
    }

    /// One thing of a long run: mostly an edit with the store; or the answer alone, so that it is wrong from then on, until it is worked out afresh; a byte
    /// of the answer or of the store changed without a correction; an edit of no byte; an answer of another length.
    fn drawn_step(&mut self, c: Catalogue, mirror: usize, request: &[u8]) {
        let (mut edit, length) = (self.some_edit(c), answer_length(c, request));
        let value = self.draw.below(256);
        match self.draw.below(16) {
            0 => self.put("A".into()),
            1 if length > 0 => self.put(format!("y {} {value}", value % length)),
            2 => self.put(format!("d {} {value}", place(c, edit))),
            3 | 4 => {
                self.edit(edit);
                self.put("Y".into());
            }
            5 => {
                let bound = [&mut edit.pack, &mut edit.piece, &mut edit.byte];
                *bound.into_iter().nth(value % 3).unwrap() = [c.k, pieces(c), c.s][value % 3];
                self.edit(edit);
                self.put("X".into());
            }
            6 => {
                self.edit(edit);
                self.choose(0, mirror, request.len(), length + 1);
                self.put("X".into());
                self.choose(0, mirror, request.len(), length);
            }
            _ => {
                self.edit(edit);
                self.put("X".into());
            }
        }
    }

    pub fn drawn_corrections(&mut self) {
        let all: [(Code, usize, usize, usize); 16] = [(Short, 2, 2, 4), (Short, 3, 5, 2), (Short, 16, 2, 1), (Short, 5, 32, 6), (Turn, 2, 3, 2),
            (Turn, 7, 2, 3), (Turn, 4, 4, 8), (Turn, 3, 2, 1), (Even, 2, 2, 2), (Even, 2, 3, 4), (Even, 4, 2, 1), (Even, 3, 3, 2), (Round, 2, 2, 6),
            (Round, 3, 2, 4), (Round, 2, 5, 1), (Round, 5, 2, 2)];
        for (i, (code, n, k, s)) in all.into_iter().enumerate() {
            let c = Catalogue { add: s % 2 == 0 && i % 4 != 3, ..plain(code, n, k, s) };
            for mirror in [0, 1 + i % (n - 1)] {
                self.open_catalogue("a long run", c);
                let request = self.some_request(c, mirror);
                self.saved(0, c, mirror, &request);
                for _ in 0..30 {
                    self.drawn_step(c, mirror, &request);
                }
            }
        }
    }
}
