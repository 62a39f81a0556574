//! What each line of the conformance program of the answer unit gives.
use crate::Bytes;
use crate::bench::{shown_catalogue, sum};
use crate::catalogue::{Catalogue, ZERO};
use crate::draws::fill_drawn;
use crate::lines::{Line, made, printed, set_optional};
use crate::unit::{Access, ENABLE, FLAG, OVERRUN, REFUSED, Read, Unit, Write};

/// The bytes that a store can have here.
pub const ROOM: usize = 32768;

/// What stands between two lines: the catalogue of later set-ups, one with the dates and lengths that the next one gets, the unit, the store, and how
/// much of it is lent.
struct Bench {
    cat: Catalogue,
    next: Catalogue,
    unit: Unit,
    store: Bytes,
    lent: usize,
}

/// A bit set or taken away.
fn put(byte: &mut u8, bit: u8, on: bool) {
    *byte = if on { *byte | bit } else { *byte & !bit };
}

fn shown(unit: &Unit) -> String {
    let bit = |byte: u8, bit: u8| (byte & bit != 0) as u8;
    let bits = [bit(unit.kept[0], ENABLE), bit(unit.kept[5], FLAG), bit(unit.kept[1], OVERRUN)].map(|b| b.to_string()).join(" ");
    let (refused, request, answer) = (bit(unit.kept[1], REFUSED), sum(0, &unit.request), sum(0, &unit.answer));
    let start = format!("{} {} {bits} {}", shown_catalogue(unit.cat), unit.mirror, unit.held);
    format!(" [ {start} {refused} {} {} {request} {answer} ] {}\n", unit.kept[4], unit.waiting, unit.line() as u8)
}

impl Bench {
    /// A line; those that make no call print nothing.
    fn line(&mut self, letter: &str, five: [usize; 5]) -> String {
        let [a, b, c, ..] = five;
        match letter {
            "f" | "l" | "p" | "m" => set_optional(&mut self.next, letter, [a, b, c]),
            "C" => self.cat = made(self.next, five),
            "s" => {
                fill_drawn(a as u64, 256, &mut self.store[..b]);
                self.lent = b;
            }
            "d" => self.store[a] = b as u8,
            "Z" | "S" | "R" | "W" => return self.call(letter, a, b),
            _ => self.forge(letter, five),
        }
        String::new()
    }

    /// A field of the unit set to any value.
    fn forge(&mut self, letter: &str, five: [usize; 5]) {
        let (unit, [a, b, ..]) = (&mut self.unit, five);
        match letter {
            "g" => unit.cat = made(self.next, five),
            "N" => unit.mirror = a,
            "E" => put(&mut unit.kept[0], ENABLE, a != 0),
            "F" => put(&mut unit.kept[5], FLAG, a != 0),
            "O" => put(&mut unit.kept[1], OVERRUN, a != 0),
            "B" => put(&mut unit.kept[1], REFUSED, a != 0),
            "V" => unit.kept[4] = a as u8,
            "H" => unit.held = a,
            "Q" => unit.request[a] = b as u8,
            "A" => unit.waiting = a,
            "Y" => unit.answer[a] = b as u8,
            _ => panic!("no such letter: {letter}"),
        }
    }

    /// A call: a blank unit, set-up with the catalogue that was given, a read or a write, each with the store as it is lent.
    fn call(&mut self, letter: &str, a: usize, b: usize) -> String {
        let store = &self.store[..self.lent];
        let gave = match letter {
            "Z" => {
                self.unit = Unit::blank();
                String::new()
            }
            "S" => {
                let (gave, unit) = Unit::set_up(self.cat, a);
                self.unit = unit;
                format!(" {}", gave.err().unwrap_or(0))
            }
            "R" => match self.unit.access(Read(a), store) {
                Ok(byte) => format!(" 0 {byte}"),
                Err(refusal) => format!(" {refusal} 0"),
            },
            _ => format!(" {}", self.written(Write(a, b as u8))),
        };
        format!("{letter}{gave}{}", shown(&self.unit))
    }

    fn written(&mut self, access: Access) -> u8 {
        self.unit.access(access, &self.store[..self.lent]).err().unwrap_or(0)
    }
}

/// What the program must print for an input.
pub fn expected(input: &[u8]) -> Bytes {
    let mut bench = Bench { cat: ZERO, next: ZERO, unit: Unit::blank(), store: vec![0; ROOM], lent: 0 };
    printed(input, |line| match line {
        Line::Text(_) => panic!("no texts are read here"),
        Line::Numbers(letter, five) => bench.line(letter, five),
    })
}
