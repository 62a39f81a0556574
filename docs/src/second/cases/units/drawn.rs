//! Long runs of accesses that look random, weighted so that answers, refusals, overruns, ignored starts and resets all come often.
use crate::cases::Cases;
use crate::cases::units::good_row;
use crate::catalogue::{Catalogue, Short, plain};
use crate::draws::Draw;
use crate::samples::lengths::with_some;

impl Cases {
    /// A good request and a start, on a unit that has nothing else; or as it is, where an answer may wait and the start is ignored.
    fn exchange(&mut self, c: Catalogue, mirror: usize, alone: bool, control: usize) {
        if alone {
            self.put("H 0\nO 0\nA 0".into());
        }
        let mut draw = Draw(self.draw.below(1 << 30) as u64);
        let row = good_row(c, mirror, &mut draw);
        if c.k > 8 {
            self.hold_request(&row);
        } else {
            self.ask(&row);
        }
        self.write(0, control);
    }

    /// A few accesses.
    fn act(&mut self, c: Catalogue, mirror: usize) {
        let kind = self.draw.below(24);
        let control = [1, 1, 3, 3, 2, 0, 5, 127][self.draw.below(8)];
        let (some, value) = (self.draw.below(8), self.draw.below(256));
        match kind {
            0..=7 => self.exchange(c, mirror, kind < 5, 1 + 2 * (some % 2)),
            // what mirror 0 admits, whichever mirror it is
            8 => self.exchange(c, 0, false, 1),
            // more bytes than wait, or fewer; of a long answer only one is left
            9..=13 => {
                self.reads(&[3; 8][..1 + some % (5.min(c.s) + 1)]);
                if kind > 11 && c.s > 4 {
                    self.put("A 1".into());
                }
            }
            // a request that is all but full, a few bytes more, and a start of it
            14 => {
                self.put(format!("H {}\nA {}", 31 + some % 2, value / 128));
                self.ask(&[0, control as u8, 1][..1 + value % 3]);
                self.write(0, control);
            }
            15 | 16 => self.write(0, control),
            17 => self.write(0, 128 + value / 2),
            18 | 19 => self.write(5, [1, 255, 0, 2][some % 4]),
            20 => self.write(some, value),
            21 => self.reads(&[some, 1]),
            // a store of another length, and the right one again
            22 => {
                self.stored(c, [1, -1][some % 2]);
                self.put(format!("R 3\nW 0 {control}"));
                self.stored(c, 0);
            }
            // the row of zeros
            _ => self.put((0..32).map(|place| format!("Q {place} 0\n")).collect::<String>() + &format!("H {}\nW 0 1", c.k)),
        }
    }

    pub fn drawn_runs(&mut self) {
        let sizes = [(2, 2, 1), (2, 2, 2), (3, 2, 1), (3, 3, 2), (2, 5, 3), (5, 2, 4), (16, 2, 1), (16, 8, 5), (4, 4, 64), (7, 3, 63), (2, 32, 1), (16, 32, 2),
            (3, 31, 64), (9, 6, 33), (2, 2, 64), (3, 3, 1)];
        for (i, (n, k, s)) in sizes.into_iter().enumerate() {
            let c = plain(Short, n, k, s);
            let c = if i % 5 == 4 { with_some(c) } else { c };
            for mirror in [0, 1 + i % (n - 1)] {
                self.put(format!("# a long run: {n} {k} {s}, mirror {mirror}"));
                self.fresh(c, mirror);
                for _ in 0..46 {
                    self.act(c, mirror);
                }
            }
        }
    }
}
