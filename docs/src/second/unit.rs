//! The answer unit (02, item 12): what it holds, and what set-up and each access of a register do to it.
use crate::catalogue::{Catalogue, Short, ZERO, judged, plain, unmeasured};
use crate::codes::answering;
use crate::days::NO_DAY;
use crate::sizes::pack_length;

/// Bits of registers 0, 1 and 5.
pub const START: u8 = 1;
pub const ENABLE: u8 = 2;
pub const RESET: u8 = 128;
pub const READY: u8 = 1;
pub const REFUSED: u8 = 2;
pub const OVERRUN: u8 = 4;
pub const FLAG: u8 = 1;

/// Reading a register, or writing a byte to one.
#[derive(Clone, Copy, PartialEq, Debug)]
pub enum Access {
    Read(usize),
    Write(usize, u8),
}

pub use Access::{Read, Write};

/// The unit as a value; a test may set any of it.
#[derive(Clone, PartialEq, Debug)]
pub struct Unit {
    pub cat: Catalogue,
    pub mirror: usize,
    /// What the registers keep, each bit where it is read: 0 the enable bit, 1 those for refused and overrun, 4 the number, 5 the flag. The others keep 0,
    /// and whether an answer waits is told by the bytes that wait.
    pub kept: [u8; 6],
    /// The request so far is the first `held` bytes.
    pub held: usize,
    pub request: [u8; 32],
    /// Of the first S bytes the last `waiting` are still to be read.
    pub waiting: usize,
    pub answer: [u8; 64],
}

/// Whether a unit can have this catalogue and mirror: 2 for a catalogue that is more than a plain short one with lengths, has pieces too long for the
/// unit or breaks a bound, else 17 for a single pack, else 3.
pub fn taken(c: Catalogue, mirror: usize) -> Result<(), u8> {
    if unmeasured(c) != plain(Short, c.n, c.k, c.s) || c.s > 64 {
        return Err(2);
    }
    judged(c)?;
    if (0..c.n).contains(&mirror) { Ok(()) } else { Err(3) }
}

impl Unit {
    /// A unit with nothing in it but its catalogue and its mirror.
    pub fn empty(cat: Catalogue, mirror: usize) -> Unit {
        Unit { cat, mirror, kept: [0; 6], held: 0, request: [0; 32], waiting: 0, answer: [0; 64] }
    }

    pub fn blank() -> Unit {
        Unit::empty(ZERO, 0)
    }

    /// Set-up: the unit, or zeros where it is refused.
    pub fn set_up(cat: Catalogue, mirror: usize) -> (Result<(), u8>, Unit) {
        let gave = taken(cat, mirror);
        (gave, gave.map_or_else(|_| Unit::blank(), |_| Unit::empty(cat, mirror)))
    }

    /// Whether an access goes on.
    fn open(&self, register: usize, store: &[u8]) -> Result<(), u8> {
        if register >= self.kept.len() {
            return Err(18);
        }
        taken(self.cat, self.mirror)?;
        if store.len() != self.cat.k * pack_length(self.cat) {
            return Err(8);
        }
        if self.held > self.request.len() || self.waiting > self.cat.s { Err(11) } else { Ok(()) }
    }

    /// The answer bytes that are still to be read.
    fn rest(&self) -> &[u8] {
        let answer = &self.answer[..self.cat.s];
        &answer[answer.len() - self.waiting..]
    }

    /// What all registers read, in a row.
    fn row(&self) -> [u8; 6] {
        let mut row = self.kept;
        row[1] |= if self.rest().is_empty() { 0 } else { READY };
        row[3] = self.rest().first().copied().unwrap_or(0);
        row
    }

    /// One access: the byte that a read gives, 0 for a write, or the refusal.
    pub fn access(&mut self, access: Access, store: &[u8]) -> Result<u8, u8> {
        let (Read(register) | Write(register, _)) = access;
        self.open(register, store)?;
        let row = self.row();
        match access {
            Read(3) => self.waiting = self.waiting.saturating_sub(1),
            Read(_) => (),
            Write(0, value) if value & RESET != 0 => *self = Unit::empty(self.cat, self.mirror),
            Write(0, value) => {
                self.kept[0] = value & ENABLE;
                if value & START != 0 && row[1] & READY == 0 {
                    self.start(store);
                }
            }
            Write(2, value) => match self.request.get_mut(self.held) {
                Some(place) => (*place, self.held) = (value, self.held + 1),
                None => self.kept[1] |= OVERRUN,
            },
            Write(5, value) => self.kept[5] &= !(value & FLAG),
            Write(..) => (),
        }
        Ok(if let Read(_) = access { row[register] } else { 0 })
    }

    /// A start while no answer waits.
    fn start(&mut self, store: &[u8]) {
        let overrun = self.kept[1] & OVERRUN != 0;
        let request = &self.request[..self.held];
        let gave = if overrun { Err(7) } else { answering(self.cat, NO_DAY, self.mirror, store, request, self.cat.s) };
        (self.kept[1], self.kept[4]) = gave.as_ref().map_or_else(|&refusal| (REFUSED, refusal), |_| (0, 0));
        self.kept[5] = FLAG;
        self.held = 0;
        let bytes = gave.unwrap_or_default();
        self.answer[..bytes.len()].copy_from_slice(&bytes);
        self.waiting = bytes.len();
    }

    /// The interrupt line, which is no access.
    pub fn line(&self) -> bool {
        self.kept[5] & FLAG != 0 && self.kept[0] & ENABLE != 0
    }
}
