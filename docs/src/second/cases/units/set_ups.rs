//! Lines about the set-up of a unit: both sides of each bound, each refusal, and each two of them together.
use crate::cases::Cases;
use crate::catalogue::{Catalogue, Even, Round, Short, Turn, adding, dated, measured, plain};
use crate::days::NO_DAY;
use crate::samples::lengths::{length_faults, with_some};
use crate::samples::seasons::{A, B, FIRST, LAST};
use crate::sizes::pack_length;

/// Numbers beyond a byte and beyond 32 bits whose lowest bits are good.
const LARGE: [usize; 5] = [258, 65538, 4294967298, 8589934594, 9999999999];

impl Cases {
    /// Set-up of a unit that has something in each field: a refused one hands back zeros.
    fn set_up_full(&mut self, c: Catalogue, mirror: usize) {
        self.full(plain(Short, 3, 2, 2), 1);
        self.set_up(c, mirror);
    }

    pub fn set_up_numbers(&mut self) {
        self.put("# set-up: mirrors, packs, pieces".into());
        for n in [0, 1, 2, 3, 15, 16, 17, 18, 255].into_iter().chain(LARGE) {
            self.set_up_full(plain(Short, n, 2, 1), 0);
        }
        for k in [0, 1, 2, 3, 31, 32, 33, 34, 255].into_iter().chain(LARGE) {
            self.set_up_full(plain(Short, 3, k, 5), 2);
        }
        for s in [0, 1, 2, 63, 64, 65, 66, 127, 128, 4095, 4096, 4097, 320].into_iter().chain(LARGE) {
            self.set_up_full(plain(Short, 2, 2, s), 1);
        }
        for (n, k, s) in [(16, 32, 64), (17, 32, 64), (16, 33, 64), (16, 32, 65), (2, 32, 1), (16, 2, 1), (2, 1, 65), (2, 1, 64), (17, 1, 64), (2, 1, 4096),
            (2, 1, 0), (1, 1, 1), (2, 0, 65), (1, 33, 65), (16, 1, 1), (0, 0, 0)] {
            self.set_up_full(plain(Short, n, k, s), 0);
            self.set_up_full(plain(Short, n, k, s), n);
        }
    }

    /// Other codes, addition, dates and lengths, each for two packs and for one.
    pub fn set_up_lines(&mut self) {
        self.put("# set-up: codes, sums, dates, lengths".into());
        for (k, s) in [(2, 1), (2, 2), (1, 2), (1, 1), (2, 64)] {
            let c = plain(Short, 2, k, s);
            for code in [Even, Turn, Round] {
                self.set_up_full(Catalogue { code, ..c }, 0);
            }
            self.set_up_full(adding(c), 1);
            self.set_up_full(c, 1);
            self.set_up_full(with_some(c), 1);
            self.set_up_full(with_some(c), 2);
            self.set_up_full(adding(with_some(c)), 2);
        }
        let unreal = [[2023, 2, 29], [1999, 12, 31], [0, 0, 1], [1, 0, 0], [0, 1, 0]];
        let unreal = unreal.iter().flat_map(|&day| [(day, B), (NO_DAY, day)]);
        let pairs = [(A, B), (B, A), (A, A), (FIRST, LAST), (A, NO_DAY), (NO_DAY, A)];
        for (i, (open, close)) in pairs.into_iter().chain(unreal).enumerate() {
            self.set_up_full(dated(plain(Short, 3, 2 - i % 2, 2), open, close), i % 4);
            self.set_up_full(dated(with_some(plain(Short, 2, 2, 1)), open, close), 0);
        }
        for c in [plain(Short, 3, 3, 2), plain(Short, 2, 2, 64)] {
            for (i, fault) in length_faults(c).into_iter().enumerate() {
                self.set_up_full(fault, i % 4);
            }
        }
        for c in [plain(Short, 2, 2, 64), plain(Short, 16, 32, 64), plain(Short, 3, 32, 1), plain(Short, 3, 1, 7)] {
            for length in [1, pack_length(c), pack_length(c) + 1, 0] {
                self.set_up_full(measured(c, &vec![length; c.k]), 0);
            }
        }
    }

    pub fn set_up_mirrors(&mut self) {
        self.put("# set-up: mirrors' numbers".into());
        for (n, k) in [(2, 2), (3, 32), (16, 2), (16, 1)] {
            for mirror in [0, n - 1, n, n + 1, 255, 256, 65536, 4294967296, 4294967297, 9999999999] {
                self.set_up_full(plain(Short, n, k, 3), mirror);
            }
        }
    }
}
