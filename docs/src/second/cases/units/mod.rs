//! The lines about the answer unit (02, item 12): what they are made of, and the list of them.
mod set_ups;
mod refusals;
mod forged;
mod controls;
mod runs;
mod drawn;

use crate::Bytes;
use crate::bench::given;
use crate::cases::Cases;
use crate::catalogue::{Catalogue, Short, plain};
use crate::draws::Draw;
use crate::sizes::pack_length;

/// A row that a mirror admits.
pub fn good_row(c: Catalogue, mirror: usize, draw: &mut Draw) -> Bytes {
    let mut row: Bytes = (0..c.k).map(|_| draw.below(c.n) as u8).collect();
    let (place, sum) = (draw.below(c.k), row.iter().map(|&d| d as usize).sum::<usize>());
    row[place] = ((row[place] as usize + mirror + c.k * c.n - sum) % c.n) as u8;
    row
}

impl Cases {
    /// Set-up with a catalogue.
    pub fn set_up(&mut self, c: Catalogue, mirror: usize) {
        self.optional(c);
        self.put(format!("C {}\nS {mirror}", given(c)));
    }

    /// A store of the catalogue's length, and so many bytes more.
    pub fn stored(&mut self, c: Catalogue, more: isize) {
        let seed = 1 + self.draw.below(9999);
        self.put(format!("s {seed} {}", (c.k * pack_length(c)).checked_add_signed(more).unwrap()));
    }

    /// A unit that was set up, and a store for it.
    pub fn fresh(&mut self, c: Catalogue, mirror: usize) {
        self.stored(c, 0);
        self.set_up(c, mirror);
    }

    pub fn write(&mut self, register: usize, value: usize) {
        self.put(format!("W {register} {value}"));
    }

    pub fn reads(&mut self, registers: &[usize]) {
        registers.iter().for_each(|register| self.put(format!("R {register}")));
    }

    /// Bytes of a request, written one by one.
    pub fn ask(&mut self, bytes: &[u8]) {
        bytes.iter().for_each(|&byte| self.write(2, byte as usize));
    }

    /// The request of the unit made these bytes, without an access.
    pub fn hold_request(&mut self, bytes: &[u8]) {
        bytes.iter().enumerate().for_each(|(i, byte)| self.put(format!("Q {i} {byte}")));
        self.put(format!("H {}", bytes.len()));
    }

    /// The unit's bits: enable, flag, overrun, refused; and the number of its refusal.
    pub fn hold_bits(&mut self, [enable, flag, overrun, refused]: [bool; 4], number: usize) {
        self.put(format!("E {}\nF {}\nO {}\nB {}\nV {number}", enable as u8, flag as u8, overrun as u8, refused as u8));
    }

    /// The unit's catalogue and mirror, whatever they are.
    pub fn hold_catalogue(&mut self, c: Catalogue, mirror: usize) {
        self.optional(c);
        self.put(format!("g {}\nN {mirror}", given(c)));
    }

    /// A unit with something in each field.
    pub fn full(&mut self, c: Catalogue, mirror: usize) {
        self.hold_catalogue(c, mirror);
        self.hold_request(&[1, 2, 3]);
        self.hold_bits([true; 4], 9);
        self.put("A 1\nY 0 6\nY 1 7\nY 63 8".into());
    }
}

/// All lines about the unit; the first of them are the shortest whole exchange.
pub fn units(cases: &mut Cases) {
    let c = plain(Short, 2, 2, 1);
    cases.put("# eight accesses".into());
    cases.set_up(c, 0);
    cases.put("s 1 2\nd 0 90\nd 1 195\nW 2 1\nW 2 1\nW 0 3\nR 5\nR 4\nR 1\nR 3\nW 5 1".into());
    cases.set_up_numbers();
    cases.set_up_lines();
    cases.set_up_mirrors();
    cases.blank_unit();
    cases.register_numbers();
    cases.orders();
    cases.stores();
    cases.held_and_waiting();
    cases.bits();
    cases.other_catalogues();
    cases.places();
    cases.controls();
    cases.flags();
    cases.ignored_writes();
    cases.whole_answers();
    cases.overruns();
    cases.request_lengths();
    cases.empty_answers_here();
    cases.set_up_again();
    cases.other_stores();
    cases.drawn_units();
    cases.drawn_runs();
}
