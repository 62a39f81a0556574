//! Lines about refused accesses: registers that are none, stores of other lengths, and each two refusals together.
use crate::cases::Cases;
use crate::catalogue::{Catalogue, Even, Short, adding, dated, plain};
use crate::samples::lengths::placed;
use crate::samples::seasons::{A, B};
use crate::sizes::pack_length;

/// Numbers that name no register, among them those whose lowest bytes do.
const NO_REGISTERS: [usize; 22] = [6, 7, 8, 127, 128, 131, 255, 256, 257, 258, 261, 512, 65535, 65536, 65538, 4294967295, 4294967296, 4294967298, 4294967299,
    4294967301, 8589934592, 9999999999];

/// What is wrong with an access.
#[derive(Clone, Copy)]
enum Fault {
    Register,
    Catalogue(fn(Catalogue) -> Catalogue),
    OnePack,
    Mirror,
    Store(isize),
    Held(usize),
    Waiting(usize),
}

use Fault::{Held, Mirror, OnePack, Register, Store, Waiting};

const FAULTS: [Fault; 14] = [Register, Fault::Catalogue(|c| Catalogue { s: c.s + 64, ..c }), Fault::Catalogue(|c| Catalogue { code: Even, ..c }),
    Fault::Catalogue(adding), Fault::Catalogue(|c| dated(c, A, B)), Fault::Catalogue(|c| placed(c, 0, 1)), Fault::Catalogue(|c| Catalogue { n: 17, ..c }),
    OnePack, Mirror, Store(1), Store(-1), Held(33), Waiting(1), Waiting(63)];

impl Cases {
    /// A unit that was never set up.
    pub fn blank_unit(&mut self) {
        self.put("# never set up\nZ".into());
        for length in [0, 1, 2] {
            self.put(format!("s 5 {length}"));
            self.reads(&[0, 1, 2, 3, 4, 5, 6, 7, 255, 4294967298]);
            for (register, value) in [(0, 1), (0, 2), (0, 3), (0, 128), (0, 130), (1, 255), (2, 1), (3, 1), (4, 1), (5, 1), (6, 1), (7, 128), (256, 128)] {
                self.write(register, value);
            }
        }
        // a bit of it set, and its line
        for (enable, flag) in [(false, true), (true, false), (true, true)] {
            self.hold_bits([enable, flag, true, true], 7);
            self.reads(&[5, 6]);
            self.put("W 0 128\nW 6 128".into());
        }
        self.put("Z".into());
    }

    pub fn register_numbers(&mut self) {
        self.put("# registers by their numbers".into());
        let c = plain(Short, 2, 2, 2);
        self.fresh(c, 1);
        for register in NO_REGISTERS {
            self.put(format!("R {register}\nW {register} 3\nW {register} 128"));
        }
        self.full(c, 1);
        for register in (0..=7).chain(NO_REGISTERS) {
            self.put(format!("R {register}\nA 1"));
        }
        for register in (0..=7).chain(NO_REGISTERS) {
            self.full(c, 1);
            self.write(register, 1);
        }
    }

    /// What is wrong, put into a full unit; the register that an access then names.
    fn spoil(&mut self, faults: [Fault; 2], register: usize) -> usize {
        let (mut c, mut mirror) = (plain(Short, 3, 2, 2), 1);
        // the store is right but for a fault of its own, whatever else is wrong with the catalogue
        if faults.iter().any(|fault| matches!(fault, OnePack)) {
            c.k = 1;
        }
        let right = c.k * pack_length(c);
        let (mut lent, mut counts, mut named) = (right, [2, 1], register);
        for fault in faults {
            match fault {
                Register => named = register + 6,
                Fault::Catalogue(change) => c = change(c),
                OnePack => (),
                Mirror => mirror = c.n,
                Store(more) => lent = right.checked_add_signed(more).unwrap(),
                Held(count) => counts[0] = count,
                Waiting(more) => counts[1] = 2 + more,
            }
        }
        self.full(c, mirror);
        self.put(format!("s 77 {lent}\nH {}\nA {}", counts[0], counts[1]));
        named
    }

    /// Each fault by itself, and each two.
    pub fn orders(&mut self) {
        self.put("# two refusals at once".into());
        let pairs: Vec<[Fault; 2]> = FAULTS.iter().enumerate().flat_map(|(i, &a)| FAULTS[i..].iter().map(move |&b| [a, b])).collect();
        for (i, pair) in pairs.into_iter().enumerate() {
            let named = self.spoil(pair, [0, 2, 5, 3, 1, 4][i % 6]);
            self.put(format!("R {named}\nW {named} {}", [1, 128, 255, 0, 3][i % 5]));
            let named = self.spoil(pair, [3, 0][i % 2]);
            self.put(format!("R {named}\nW {named} {}", [128, 1, 3][i % 3]));
        }
    }

    /// Stores that are too long, too short, or empty; by every register.
    pub fn stores(&mut self) {
        self.put("# lengths of the store".into());
        for (c, mirror) in [(plain(Short, 2, 2, 1), 0), (plain(Short, 3, 2, 2), 1), (plain(Short, 16, 32, 64), 15)] {
            self.fresh(c, mirror);
            let right = c.k * pack_length(c);
            self.ask(&[1, 0]);
            let mut lengths = vec![0, 1, right - 1, right, right + 1, right / 2, right + c.s, right - c.s, c.k * c.s, c.n * c.k * c.s];
            lengths.sort();
            lengths.dedup();
            for length in lengths {
                self.put(format!("s 3 {length}"));
                self.reads(&[0, 1, 2, 3, 4, 5, 6]);
                for (register, value) in [(2, 0), (5, 1), (0, 1), (0, 2), (0, 128), (1, 1), (3, 1), (4, 1), (6, 1)] {
                    self.write(register, value);
                }
            }
        }
    }
}
