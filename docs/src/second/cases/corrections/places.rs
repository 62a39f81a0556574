//! Lines about where the byte stands: every byte of small stores, and of larger ones the first, the last and some between, up to the limits.
use crate::Bytes;
use crate::cases::Cases;
use crate::catalogue::{Catalogue, Code, Even, Round, Short, Turn, adding, plain};
use crate::codes::answer_length;
use crate::corrections::Edit;
use crate::samples::edits::{every_byte, named};
use crate::sizes::{pack_length, pieces};

impl Cases {
    fn value(&mut self) -> u8 {
        self.draw.below(256) as u8
    }

    /// Every byte of small stores, at every mirror, the answer right and then wrong.
    pub fn every_place(&mut self) {
        let all: [(Code, usize, usize, usize); 8] = [(Short, 2, 2, 2), (Short, 3, 2, 2), (Turn, 2, 3, 2), (Turn, 3, 2, 2), (Even, 2, 2, 2), (Round, 2, 2, 2),
            (Round, 3, 2, 2), (Round, 2, 3, 2)];
        for c in all.into_iter().map(|(code, n, k, s)| plain(code, n, k, s)).flat_map(|c| [c, adding(c)]) {
            self.open_catalogue("every byte", c);
            for mirror in 0..c.n {
                let request = self.some_request(c, mirror);
                self.saved(0, c, mirror, &request);
                for (i, edit) in every_byte(c).into_iter().enumerate() {
                    let value = self.value();
                    self.both(Edit { value, ..edit });
                    if i % 4 == 1 {
                        let value = self.value();
                        self.both_wrong(Edit { value, ..edit }, answer_length(c, &request));
                        self.put("A".into());
                    }
                }
            }
        }
    }

    /// Edits of a larger store: its corners, and pieces that the request names, at both ends of each.
    fn some_edits(&mut self, c: Catalogue, request: &[u8], many: usize) {
        let named = named(c, request).concat();
        let (last, whole) = (pieces(c) - 1, answer_length(c, request));
        let mut all: Vec<(usize, usize)> = vec![(0, 0), (0, last), (c.k - 1, 0), (c.k - 1, last)];
        all.extend((0..many).map(|_| (self.draw.below(c.k), self.draw.below(last + 1))));
        if !named.is_empty() {
            all.extend([named[0], named[named.len() / 2], named[named.len() - 1]]);
            all.extend((0..many).map(|_| named[self.draw.below(named.len())]));
        }
        for (i, (pack, piece)) in all.into_iter().enumerate() {
            let byte = [0, c.s - 1, self.draw.below(c.s), c.s / 2][i % 4];
            let edit = Edit { pack, piece, byte, value: self.value() };
            if i % 5 == 3 {
                self.both_wrong(edit, whole);
                self.put("A".into());
            } else {
                self.both(edit);
            }
        }
    }

    /// Catalogues of some size, at the first mirror, the last one and one between.
    pub fn corners(&mut self) {
        let all: [(Code, usize, usize, usize); 20] = [(Short, 2, 2, 1), (Short, 3, 3, 3), (Short, 5, 4, 6), (Short, 16, 3, 2), (Short, 7, 31, 1),
            (Turn, 2, 2, 1), (Turn, 4, 3, 3), (Turn, 16, 2, 4), (Turn, 5, 12, 2), (Even, 2, 3, 1), (Even, 3, 2, 3), (Even, 3, 3, 2), (Even, 5, 2, 2),
            (Even, 6, 3, 2), (Even, 2, 5, 2), (Round, 2, 4, 1), (Round, 4, 2, 3), (Round, 3, 3, 2), (Round, 4, 3, 4), (Round, 2, 6, 2)];
        for (i, (code, n, k, s)) in all.into_iter().enumerate() {
            let c = plain(code, n, k, s);
            for c in if s % 2 == 0 { vec![c, adding(c)] } else { vec![c] } {
                self.open_catalogue("corners", c);
                for mirror in if n == 2 { vec![0, 1] } else { vec![0, 1 + i % (n - 2), n - 1] } {
                    let request = self.some_request(c, mirror);
                    self.saved(0, c, mirror, &request);
                    self.some_edits(c, &request, 5);
                }
            }
        }
    }

    /// Each limit of N, K and S, and as many at once as there is room for; few edits where the store is long.
    pub fn limit_catalogues(&mut self) {
        let all: [(Code, usize, usize, usize); 20] = [(Short, 2, 32, 4096), (Short, 16, 2, 4096), (Short, 16, 32, 16), (Short, 2, 2, 4096), (Short, 16, 32, 1),
            (Turn, 2, 2, 4095), (Turn, 2, 2, 4096), (Turn, 16, 32, 6), (Even, 2, 8, 2), (Even, 2, 8, 4), (Even, 16, 2, 2), (Even, 16, 2, 8), (Even, 4, 4, 4),
            (Even, 3, 5, 2), (Even, 2, 2, 4096), (Round, 2, 7, 4), (Round, 16, 2, 2), (Round, 8, 3, 8), (Round, 4, 4, 2), (Round, 2, 2, 4096)];
        for (i, (code, n, k, s)) in all.into_iter().enumerate() {
            let c = Catalogue { add: s % 2 == 0 && i % 3 != 1, ..plain(code, n, k, s) };
            self.open_catalogue("limits", c);
            let length = c.k * pack_length(c);
            for mirror in [n - 1, 0].into_iter().take(if length > 100000 { 1 } else { 2 }) {
                let request: Bytes = self.some_request(c, mirror);
                self.saved(0, c, mirror, &request);
                self.some_edits(c, &request, if length > 10000 { 0 } else { 6 });
            }
        }
    }
}
