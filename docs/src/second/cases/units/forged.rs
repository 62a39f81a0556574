//! Lines about units that no accesses give: each field set to any value.
use crate::cases::Cases;
use crate::cases::units::good_row;
use crate::catalogue::{Catalogue, Short, plain};
use crate::draws::Draw;
use crate::samples::lengths::with_some;

/// Counts that no unit has, whatever its catalogue.
const LARGE: [usize; 6] = [66, 255, 256, 288, 4294967296, 9999999999];

impl Cases {
    /// Bytes held and bytes waiting, at their bounds and beyond; a read of register 3 and a write of register 2 where the count is at its bound.
    pub fn held_and_waiting(&mut self) {
        self.put("# bytes held and bytes waiting".into());
        let c = plain(Short, 3, 2, 2);
        self.fresh(c, 1);
        self.hold_request(&(100..132).collect::<Vec<u8>>());
        for held in [0, 1, 2, 30, 31, 32, 33, 34, 63, 64, 65].into_iter().chain(LARGE) {
            self.put(format!("H {held}\nO 0\nW 2 9\nR 1\nR 2\nH {held}\nO 0\nW 0 1\nR 4\nH {held}\nW 0 131"));
            self.hold_request(&(100..132).collect::<Vec<u8>>());
        }
        for (c, mirror) in [(c, 1), (plain(Short, 2, 2, 1), 0), (plain(Short, 2, 2, 63), 1), (plain(Short, 2, 2, 64), 0)] {
            self.fresh(c, mirror);
            (0..64).for_each(|i| self.put(format!("Y {i} {}", 7 * i % 256)));
            for waiting in [0, 1, c.s - 1, c.s, c.s + 1, c.s + 2, 64, 65].into_iter().chain(LARGE) {
                self.put(format!("H 0\nA {waiting}\nR 3\nR 1\nA {waiting}\nW 0 3\nR 3\nA {waiting}\nR 4\nA {waiting}\nW 2 5"));
            }
        }
    }

    /// The bits, all together, and numbers of refusals, before and after a start that is good, refused, or ignored.
    pub fn bits(&mut self) {
        self.put("# bits and numbers of refusals".into());
        let c = plain(Short, 3, 2, 2);
        self.fresh(c, 2);
        for bits in 0..16 {
            let all = [1, 2, 4, 8].map(|bit| bits & bit != 0);
            for (row, waiting) in [(&[1, 1], 0), (&[1, 2], 0), (&[1, 1], 1)] {
                self.hold_request(row);
                self.hold_bits(all, [0, 7, 9, 255][bits % 4]);
                self.put(format!("A {waiting}"));
                self.reads(&[0, 1, 4, 5]);
                self.write(0, 1 + bits / 4 % 2 * 2);
                self.reads(&[1, 4]);
            }
        }
        for number in [0, 1, 2, 7, 8, 18, 128, 254, 255] {
            for refused in [false, true] {
                self.hold_bits([false, false, false, refused], number);
                self.put("A 0\nR 4\nR 1\nW 4 1\nW 2 1\nW 5 1\nW 0 2\nR 4".into());
            }
        }
    }

    /// Another catalogue or mirror put in while bytes are held and an answer waits: the next access goes by what the unit holds then.
    pub fn other_catalogues(&mut self) {
        self.put("# another catalogue in the unit".into());
        let (first, long) = (plain(Short, 3, 3, 4), plain(Short, 2, 2, 64));
        let others = [plain(Short, 3, 2, 4), plain(Short, 2, 3, 4), plain(Short, 3, 3, 2), plain(Short, 3, 3, 64), with_some(first), plain(Short, 16, 32, 1),
            plain(Short, 3, 1, 4), plain(Short, 3, 3, 65), plain(Short, 1, 3, 4), plain(Short, 3, 0, 4), Catalogue { add: true, ..first }, long];
        for (i, other) in others.into_iter().enumerate() {
            for mirror in [0, 1, 2, 3] {
                self.fresh(first, 0);
                self.put(format!("Q 0 1\nQ 1 2\nQ 2 0\nH 3\nW 0 {}\nR 3\nQ 0 1\nQ 1 0\nQ 2 0\nH {}", 1 + 2 * (i % 2), 1 + (i + mirror) % 3));
                self.hold_catalogue(other, mirror);
                if (1..=64).contains(&other.s) && other.n > 1 {
                    self.stored(other, 0);
                }
                self.put("R 1\nR 3\nW 0 1\nA 0\nW 0 3\nR 3\nR 3".into());
            }
        }
    }

    /// Each place of the request and of the answer.
    pub fn places(&mut self) {
        self.put("# places of the request and of the answer".into());
        let c = plain(Short, 2, 32, 64);
        self.fresh(c, 1);
        for place in 0..32 {
            // a single digit that is not zero, and one that is none
            self.put(format!("H 32\nQ {place} 1\nA 0\nW 0 1\nR 3\nQ {place} 2\nH 32\nA 0\nW 0 1\nQ {place} 0"));
        }
        for place in 0..64 {
            self.put(format!("Y {place} {}\nA {}\nR 3", 255 - 3 * place, 64 - place));
        }
        let (c, mut draw) = (plain(Short, 5, 7, 3), Draw(16));
        self.fresh(c, 3);
        for _ in 0..12 {
            let row = good_row(c, 3, &mut draw);
            self.hold_request(&row);
            self.put("A 0\nW 0 1\nR 3\nR 3\nR 3".into());
        }
    }

    /// Units with every field drawn, and an access of each register.
    pub fn drawn_units(&mut self) {
        self.put("# drawn units".into());
        for _ in 0..90 {
            let c = plain(Short, 2 + self.draw.below(3), 2 + self.draw.below(4), [1, 2, 5, 63, 64][self.draw.below(5)]);
            let mirror = self.draw.below(c.n);
            let mut draw = Draw(self.draw.below(1 << 30) as u64);
            let row = good_row(c, mirror, &mut draw);
            let wrong = self.draw.below(12);
            self.stored(c, (wrong == 0) as isize);
            self.hold_catalogue(if wrong == 1 { Catalogue { s: c.s + 64, ..c } } else { c }, if wrong == 2 { c.n } else { mirror });
            self.hold_request(&row);
            let bits = self.draw.below(16);
            self.hold_bits([1, 2, 4, 8].map(|bit| bits & bit != 0), draw.below(256));
            let places = [0, c.s - 1, c.s / 2].map(|i| format!("Y {i} {}", draw.below(256))).join("\n");
            self.put(format!("{places}\nA {}", [0, 0, draw.below(c.s + 2)][wrong % 3]));
            for _ in 0..5 {
                let (register, value) = ([0, 0, 1, 2, 3, 4, 5, 6][self.draw.below(8)], self.draw.below(256));
                let write = self.draw.below(2) == 0;
                self.put(if write { format!("W {register} {value}") } else { format!("R {register}") });
            }
        }
    }
}
