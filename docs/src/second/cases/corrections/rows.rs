//! Lines about rows: where a row of zeros takes no bytes, which row names a piece, answers without bytes, and catalogues with dates and lengths.
use crate::Bytes;
use crate::cases::Cases;
use crate::catalogue::{Catalogue, Even, Round, Short, Turn, adding, dated, measured, plain};
use crate::corrections::Edit;
use crate::round::mirror_set;
use crate::samples::edits::every_byte;
use crate::samples::lengths::with_some;
use crate::samples::seasons::{A, B, FIRST, LAST};
use crate::sizes::{pieces, varieties};

impl Cases {
    /// Both calls for one byte of each of these pieces.
    fn pieces(&mut self, c: Catalogue, numbers: &[usize]) {
        for (pack, &piece) in (0..c.k).flat_map(|pack| numbers.iter().map(move |piece| (pack, piece))) {
            let edit = Edit { pack, piece, byte: (pack + piece) % c.s, value: self.draw.below(256) as u8 };
            self.both(edit);
        }
    }

    /// The row of zeros of mirror 0 at each place of its list; in long lists at the first, at the last and between, with the blocks around it.
    pub fn zero_rows(&mut self) {
        for (n, k, s) in [(2, 2, 1), (3, 2, 2), (2, 3, 2), (4, 2, 1), (2, 7, 1), (8, 3, 1)] {
            let c = Catalogue { add: s == 2, ..plain(Round, n, k, s) };
            self.open_catalogue("the row of zeros", c);
            let v = varieties(c);
            for at in (0..v).filter(|at| v <= 4 || [0, 1, v / 2, v - 1].contains(at)) {
                let mut rows = mirror_set(c, 0);
                rows.rotate_right(at);
                self.saved(0, c, 0, &rows.concat());
                let near = (0..v).filter(|&block| v <= 4 || block % (v - 1) == 0 || block.abs_diff(at) < 2);
                let all: Vec<usize> = near.flat_map(|block| (0..n - 1).map(move |i| block * (n - 1) + i)).filter(|i| v <= 4 || i % (n - 1) < 2).collect();
                self.pieces(c, &all);
            }
        }
    }

    /// Every piece of every pack, by requests whose rows are many: each row of the even and of the round code moves in turn, and what no row names
    /// does not.
    pub fn named_rows(&mut self) {
        let all = [(Even, 2, 3, 2, 0), (Even, 3, 2, 1, 2), (Even, 4, 2, 2, 1), (Round, 4, 2, 2, 3), (Round, 3, 3, 1, 1), (Even, 2, 4, 1, 1)];
        for (code, n, k, s, mirror) in all {
            let c = Catalogue { add: s == 2, ..plain(code, n, k, s) };
            self.open_catalogue("every piece", c);
            let request = self.some_request(c, mirror);
            self.saved(0, c, mirror, &request);
            let all: Vec<usize> = (0..pieces(c)).collect();
            self.pieces(c, &all);
        }
    }

    /// The row of zeros by itself: an answer of no bytes does not move, and the store is set; one of any bytes is refused.
    pub fn empty_saved(&mut self) {
        for (code, n, mirrors) in [(Short, 2, vec![0]), (Short, 3, vec![0]), (Turn, 2, vec![0, 1]), (Turn, 3, vec![0, 1, 2]), (Turn, 16, vec![0, 9, 15])] {
            for c in [plain(code, n, 2, 2), adding(plain(code, n, 2, 2)), plain(code, n, 32, 1)] {
                self.open_catalogue("an empty answer", c);
                for &mirror in &mirrors {
                    let request: Bytes = vec![0; c.k];
                    self.saved(0, c, mirror, &request);
                    self.pieces(c, &[0, n - 2][..(n - 1).min(2)]);
                    for length in [1, c.s, 2 * c.s + 1] {
                        self.choose(0, mirror, c.k, length);
                        self.put("Y\nX".into());
                    }
                }
            }
        }
    }

    /// Catalogues with dates, whose season is over or to come, and with lengths: every byte of the padding, too.
    pub fn other_lines_of_catalogues(&mut self) {
        for (code, n, k, s) in [(Short, 3, 2, 2), (Turn, 2, 3, 2), (Even, 2, 2, 2), (Round, 2, 2, 2)] {
            let c = adding(plain(code, n, k, s));
            let all = [dated(plain(code, n, k, s), FIRST, [2000, 1, 2]), dated(c, A, B), measured(plain(code, n, k, s), &vec![1; k]), with_some(c),
                dated(measured(c, &vec![pieces(c) * s - 1; k]), [2399, 12, 30], LAST)];
            for c in all {
                self.open_catalogue("dates and lengths", c);
                let mirror = self.draw.below(n);
                let request = self.some_request(c, mirror);
                self.saved(0, c, mirror, &request);
                for edit in every_byte(c) {
                    let value = self.draw.below(256) as u8;
                    self.both(Edit { value, ..edit });
                }
            }
        }
    }
}
