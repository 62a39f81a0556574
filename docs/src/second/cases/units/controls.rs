//! Lines about the values that are written: all of registers 0 and 5, and those of the registers that ignore them.
use crate::cases::Cases;
use crate::catalogue::{Short, plain};

/// Values of single bits, of all, and of none.
const FEW: [usize; 11] = [0, 1, 2, 4, 8, 16, 32, 64, 128, 254, 255];

impl Cases {
    /// All control values: with nothing held, with a good request held, and with an answer waiting.
    pub fn controls(&mut self) {
        self.put("# all control values".into());
        let c = plain(Short, 2, 2, 2);
        self.fresh(c, 0);
        for value in 0..256 {
            self.hold_request(&[]);
            self.hold_bits([value % 3 == 0, false, false, false], 0);
            self.put(format!("A 0\nW 0 {value}"));
        }
        for value in 0..256 {
            self.hold_request(&[1, 1]);
            self.hold_bits([value % 3 == 0, value % 5 == 0, false, value % 7 == 0], 7 * (value % 7 == 0) as usize);
            self.put(format!("A 0\nW 0 {value}"));
        }
        for value in 0..256 {
            self.hold_request(&[1, 1]);
            self.hold_bits([value % 3 == 0, value % 5 == 0, value % 7 == 0, false], 0);
            self.put(format!("A {}\nY 0 7\nY 1 9\nW 0 {value}", 1 + value / 2 % 2));
        }
    }

    /// All values of register 5, the flag set; some, the flag not set.
    pub fn flags(&mut self) {
        self.put("# all values of register 5".into());
        self.fresh(plain(Short, 2, 2, 2), 0);
        for value in 0..256 {
            self.hold_bits([value % 3 > 0, true, false, false], 0);
            self.write(5, value);
        }
        for value in FEW {
            for (enable, flag) in [(false, false), (true, false), (false, true)] {
                self.hold_bits([enable, flag, true, true], 7);
                self.put(format!("H 2\nA 1\nW 5 {value}\nR 5\nR 0"));
            }
        }
    }

    /// Registers 1, 3 and 4 ignore what is written, also where bits are set, bytes held and an answer waits; 2 reads 0.
    pub fn ignored_writes(&mut self) {
        self.put("# registers that ignore writes".into());
        let c = plain(Short, 2, 2, 2);
        self.fresh(c, 0);
        for value in FEW {
            for register in [1, 3, 4] {
                self.write(register, value);
            }
        }
        self.full(c, 0);
        for value in FEW {
            for register in [1, 3, 4] {
                self.write(register, value);
            }
            self.put(format!("W 2 {value}\nR 2"));
        }
    }
}
