//! Lines about runs of accesses: answers read out, requests that are too long, answers with no bytes, set-up in the middle, and other stores.
use crate::cases::Cases;
use crate::cases::units::good_row;
use crate::catalogue::{Short, adding, plain};
use crate::draws::Draw;
use crate::samples::lengths::with_some;

impl Cases {
    /// Answers read to their ends and beyond, starts before they are, and the status on the way.
    pub fn whole_answers(&mut self) {
        self.put("# whole answers".into());
        let mut draw = Draw(17);
        for (c, mirror) in [(plain(Short, 2, 2, 1), 1), (plain(Short, 3, 2, 2), 2), (plain(Short, 4, 5, 7), 0), (plain(Short, 2, 32, 63), 1),
            (plain(Short, 16, 2, 64), 15), (with_some(plain(Short, 3, 3, 3)), 1)] {
            self.fresh(c, mirror);
            let mut row = good_row(c, mirror, &mut draw);
            if row.iter().all(|&d| d == 0) {
                (row[0], row[1]) = (1, (c.n - 1) as u8);
            }
            self.ask(&row);
            self.put("W 0 3\nR 5\nR 4".into());
            for left in (1..=c.s).rev() {
                self.reads(&[3]);
                if left == c.s / 2 + 1 || left < 3 {
                    // a start that is ignored but for bit 1, then status; the bytes written meanwhile stay for the next request
                    self.put(format!("W 0 {}\nR 1\nW 2 {}\nR 0", [1, 3, 2][left % 3], left % c.n));
                }
            }
            self.put("R 3\nR 1\nR 3\nW 5 1\nW 0 1\nR 1\nR 3\nW 0 131\nR 0\nR 1".into());
        }
    }

    /// Requests of 31 to 40 bytes, started, and a good request behind each.
    pub fn overruns(&mut self) {
        self.put("# too many bytes".into());
        for (c, many) in [(plain(Short, 2, 32, 1), 31), (plain(Short, 2, 32, 1), 32), (plain(Short, 2, 32, 1), 33), (plain(Short, 3, 32, 2), 40),
            (plain(Short, 2, 2, 1), 33), (plain(Short, 2, 2, 3), 32)] {
            self.fresh(c, 1);
            let mut draw = Draw(many as u64);
            let row = good_row(c, 1, &mut draw);
            let bytes: Vec<u8> = (0..many).map(|i| row.get(i).copied().unwrap_or(200 + i as u8)).collect();
            self.ask(&bytes);
            self.put("R 1\nR 2\nW 5 1\nW 0 2\nR 1\nW 0 1\nR 1\nR 4\nR 5\nR 3".into());
            self.hold_request(&row);
            self.put("W 0 1\nR 1\nR 4\nR 3".into());
        }
        // overrun while an answer waits; and cleared by a reset
        let c = plain(Short, 2, 2, 2);
        self.fresh(c, 1);
        self.put("W 2 0\nW 2 1\nW 0 1\nQ 30 7\nH 31\nW 2 4\nW 2 5\nR 1\nW 0 3\nR 1\nR 3\nR 3\nR 1\nW 0 1\nR 1\nR 4\nW 2 1\nW 2 0\nW 0 1\nR 1\nR 3".into());
        self.put("H 32\nW 2 1\nR 1\nW 0 128\nR 1\nH 32\nW 2 1\nW 2 1\nW 0 255\nR 1\nR 0".into());
    }

    /// Requests of every length up to 34, of the last of which two bytes are dropped.
    pub fn request_lengths(&mut self) {
        self.put("# lengths of requests".into());
        let c = plain(Short, 2, 32, 2);
        self.fresh(c, 1);
        for length in 0..=34usize {
            let bytes: Vec<u8> = (0..length).map(|i| (i == 7 || i == 20 || i == 31) as u8).collect();
            // of most, only the last bytes are written by accesses
            let there = if [16, 32, 34].contains(&length) { 0 } else { length.saturating_sub(4) };
            self.hold_request(&bytes[..there]);
            self.ask(&bytes[there..]);
            self.put("W 0 1\nR 3\nR 3".into());
        }
        for k in [2, 17, 31] {
            self.fresh(plain(Short, 3, k, 1), 0);
            for held in 0..=32 {
                self.put(format!("H {held}\nA 0\nW 0 1"));
            }
        }
    }

    /// The row of zeros, which mirror 0 answers with no bytes and others refuse; with bytes of an answer before it, and bits set.
    pub fn empty_answers_here(&mut self) {
        self.put("# answers with no bytes".into());
        for (n, k, s) in [(2, 2, 1), (3, 4, 64), (16, 32, 2)] {
            for mirror in [0, 1, n - 1] {
                self.fresh(plain(Short, n, k, s), mirror);
                self.put(format!("Y 0 5\nH {k}\nW 0 3\nR 1\nR 4\nR 5\nR 3\nW 5 1\nH {k}\nV 7\nB 1\nW 0 1\nR 1\nR 4\nR 5\nW 0 1\nR 4\nR 1"));
            }
        }
    }

    /// Set-up in the middle of a run, the same, another, and a refused one.
    pub fn set_up_again(&mut self) {
        self.put("# set-up in the middle".into());
        let c = plain(Short, 2, 2, 2);
        for (again, mirror) in [(c, 0), (c, 1), (plain(Short, 3, 2, 2), 2), (plain(Short, 2, 2, 65), 0), (c, 2), (plain(Short, 2, 1, 2), 0), (adding(c), 0)] {
            self.fresh(c, 0);
            self.put("W 2 1\nW 2 1\nW 0 3\nW 2 1\nR 3".into());
            self.set_up(again, mirror);
            self.put("R 1\nR 3\nW 2 0\nW 0 1\nR 4".into());
        }
    }

    /// The answer is of the store that the start was lent.
    pub fn other_stores(&mut self) {
        self.put("# other stores".into());
        let c = plain(Short, 3, 2, 3);
        self.fresh(c, 0);
        for row in [[1, 2], [2, 1], [0, 0], [1, 1]] {
            for step in [format!("W 2 {}", row[0]), format!("W 2 {}", row[1]), "W 0 1".into(), "R 3".into(), "W 0 1".into(), "R 3".into(), "R 3".into()] {
                self.stored(c, 0);
                self.put(step);
            }
        }
        self.put("W 2 1\nW 2 2\nd 0 0\nd 1 0\nd 2 0\nd 9 255\nd 10 1\nd 11 2\nW 0 1\nd 9 0\nR 3\nd 10 0\nR 3\nd 11 0\nR 3".into());
    }
}
