//! Lines about each refusal: both sides of every bound of an edit, of lengths, of requests, of mirrors and of catalogues.
use crate::Bytes;
use crate::cases::Cases;
use crate::catalogue::{Catalogue, Even, Round, Short, Turn, adding, dated, plain};
use crate::codes::answer_length;
use crate::corrections::Edit;
use crate::days::NO_DAY;
use crate::samples::lengths::{length_faults, with_some};
use crate::samples::seasons::{A, B, PARTS};
use crate::sizes::{pack_length, pieces, request_ceiling};

/// Numbers that are past every bound, among them those whose lowest bytes are not.
const HUGE: [usize; 9] = [255, 256, 65535, 65536, 4294967295, 4294967296, 4294967297, 8589934592, 9999999999];

fn catalogues() -> [Catalogue; 8] {
    [plain(Short, 3, 2, 2), adding(plain(Short, 2, 3, 4)), plain(Turn, 2, 2, 1), adding(plain(Turn, 3, 3, 2)), plain(Even, 2, 2, 3),
        adding(plain(Even, 3, 2, 2)), plain(Round, 3, 2, 1), adding(plain(Round, 2, 3, 2))]
}

/// Another length than the right one: none, one less or more, a piece less or more, twice as many.
fn other_lengths(right: usize, s: usize) -> Vec<usize> {
    let mut all = vec![0, 1, right.saturating_sub(1), right + 1, right.saturating_sub(s), right + s, 2 * right];
    all.sort();
    all.dedup();
    all.retain(|&length| length != right);
    all
}

impl Cases {
    /// A catalogue, a mirror, and a request with its right answer.
    fn good(&mut self, title: &str, c: Catalogue) -> (usize, Bytes) {
        self.open_catalogue(title, c);
        let mirror = c.n - 1;
        let mut request = self.some_request(c, mirror);
        if c.code == Turn {
            request[0] = 1;
        }
        self.saved(0, c, mirror, &request);
        (mirror, request)
    }

    /// The edit's pack, piece and byte, each at its bounds and past them, by itself, the others the first or the last ones.
    pub fn edit_bounds(&mut self) {
        for c in catalogues() {
            self.good("bounds of the edit", c);
            let last = [c.k - 1, pieces(c) - 1, c.s - 1];
            for (which, others) in (0..3).flat_map(|which| [[0; 3], last].map(|others| (which, others))) {
                let near = [0, last[which], last[which] + 1, last[which] + 2, 2 * (last[which] + 1)];
                let huge = HUGE.map(|x| if others == last { x + last[which] } else { x });
                for number in near.into_iter().chain(huge.into_iter().filter(|&x| x < 10000000000)) {
                    let mut three = others;
                    three[which] = number;
                    let [pack, piece, byte] = three;
                    let value = self.draw.below(256) as u8;
                    self.both(Edit { pack, piece, byte, value });
                }
            }
        }
    }

    /// The saved answer and the store, each of other lengths; and then of the right one.
    pub fn saved_lengths(&mut self) {
        for c in catalogues() {
            let (mirror, request) = self.good("other lengths", c);
            let (saved, stored) = (answer_length(c, &request), c.k * pack_length(c));
            self.edit(Edit { pack: c.k - 1, piece: 0, byte: 0, value: 7 });
            for length in other_lengths(saved, c.s) {
                self.choose(0, mirror, request.len(), length);
                self.put("Y\nX".into());
            }
            self.choose(0, mirror, request.len(), saved);
            for length in other_lengths(stored, c.s).into_iter().chain([stored - pack_length(c), stored + pack_length(c)]) {
                self.put(format!("s 5 {length}\nY\nX"));
            }
            self.put(format!("s 5 {stored}\nA\nY\nA\nX"));
        }
    }

    /// Requests that are not admitted, and mirrors that are none.
    pub fn request_faults(&mut self) {
        for c in catalogues() {
            let (mirror, request) = self.good("requests and mirrors", c);
            let saved = answer_length(c, &request);
            self.edit(Edit { pack: 0, piece: pieces(c) - 1, byte: c.s - 1, value: 77 });
            for other in (0..c.n + 2).chain(HUGE) {
                self.choose(0, other, request.len(), saved);
                self.put("Y\nX".into());
            }
            for length in other_lengths(request.len(), c.k) {
                self.choose(0, mirror, length, saved);
                self.put("Y\nX".into());
            }
            self.choose(0, mirror, request.len(), saved);
            let values = [0, request_ceiling(c) - 1, request_ceiling(c), 255];
            for (at, value) in [0, request.len() / 2, request.len() - 1].into_iter().flat_map(|at| values.map(|value| (at, value))) {
                let mut other = request.clone();
                other[at] = value as u8;
                self.request_bytes(0, &other);
                self.put("Y\nX".into());
            }
            let mut turned = request.clone();
            for _ in 0..3 {
                turned.rotate_left(1);
                self.request_bytes(0, &turned);
                self.put("Y\nX".into());
            }
        }
    }

    /// Catalogues out of bounds, or with one pack, or with words cut in half; those that differ and are good have other sizes, and refuse by these.
    pub fn catalogue_faults(&mut self) {
        for c in [plain(Short, 3, 2, 2), plain(Turn, 2, 2, 2), plain(Even, 2, 2, 2), plain(Round, 2, 2, 2)] {
            self.good("catalogues", c);
            self.edit(Edit { pack: 1, piece: 0, byte: 1, value: 99 });
            let mut all: Vec<Catalogue> = [0, 1, 16, 17, 4294967298].map(|n| Catalogue { n, ..c }).to_vec();
            all.extend([0, 1, 3, 9, 33, 4294967298].map(|k| Catalogue { k, ..c }));
            all.extend([0, 1, 3, 4096, 4097, 4294967298].map(|s| Catalogue { s, ..c }));
            all.extend([1, 3].map(|s| adding(Catalogue { s, ..c })));
            all.extend([(A, B), (B, A), (A, A), (A, NO_DAY), (NO_DAY, B)].into_iter().chain(PARTS).map(|(open, close)| dated(c, open, close)));
            all.extend(length_faults(c));
            all.extend([with_some(c), adding(c), c]);
            for other in all {
                self.catalogue_alone(other);
                self.put("Y\nX".into());
            }
        }
    }
}
