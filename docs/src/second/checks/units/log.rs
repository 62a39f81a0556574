//! A log of accesses since set-up, and all that a unit shows and holds, told by looking back through it.
use crate::Bytes;
use crate::catalogue::Catalogue;
use crate::unit::{Access, Read, Unit, Write};

/// An access that was not refused; of a start that was not ignored, the answer or the refusal.
#[derive(Clone)]
struct Entry {
    access: Access,
    gave: Option<Result<Bytes, u8>>,
}

#[derive(Clone)]
pub struct Log {
    c: Catalogue,
    mirror: usize,
    entries: Vec<Entry>,
}

/// What the short code answers, by the rule of document 01, byte by byte.
fn short_answer(c: Catalogue, mirror: usize, store: &[u8], row: &[u8]) -> Result<Bytes, u8> {
    let sum: usize = row.iter().map(|&d| d as usize).sum();
    if row.len() != c.k || row.iter().any(|&d| d as usize >= c.n) || (sum + c.n - mirror) % c.n != 0 {
        return Err(7);
    }
    let named: Vec<usize> = row.iter().enumerate().filter(|(_, &d)| d > 0).map(|(p, &d)| p * (c.n - 1) + d as usize - 1).collect();
    let byte = |i: usize| named.iter().fold(0, |x, piece| x ^ store[piece * c.s + i]);
    Ok(if named.is_empty() { Vec::new() } else { (0..c.s).map(byte).collect() })
}

impl Log {
    pub fn new(c: Catalogue, mirror: usize) -> Log {
        Log { c, mirror, entries: Vec::new() }
    }

    /// What came after the last reset.
    fn since_reset(&self) -> &[Entry] {
        let reset = self.entries.iter().rposition(|entry| matches!(entry.access, Write(0, 128..)));
        &self.entries[reset.map_or(0, |at| at + 1)..]
    }

    /// The last start that was not ignored, and what came after it; everything, if there was none.
    fn since_start(&self) -> (Option<&Result<Bytes, u8>>, &[Entry]) {
        let entries = self.since_reset();
        let start = entries.iter().rposition(|entry| entry.gave.is_some());
        start.map_or((None, entries), |at| (entries[at].gave.as_ref(), &entries[at + 1..]))
    }

    /// Every byte written to register 2 since that start.
    fn written(&self) -> Bytes {
        self.since_start().1.iter().filter_map(|entry| if let Write(2, value) = entry.access { Some(value) } else { None }).collect()
    }

    /// The answer of that start without as many bytes as were read since.
    fn left(&self) -> &[u8] {
        let (start, after) = self.since_start();
        let read = after.iter().filter(|entry| entry.access == Read(3)).count();
        let answer = start.and_then(|gave| gave.as_deref().ok()).unwrap_or(&[]);
        &answer[read.min(answer.len())..]
    }

    fn refusal(&self) -> u8 {
        self.since_start().0.and_then(|gave| gave.as_ref().err().copied()).unwrap_or(0)
    }

    fn flag(&self) -> bool {
        let last = self.since_reset().iter().rev().find(|entry| entry.gave.is_some() || matches!(entry.access, Write(5, value) if value % 2 == 1));
        last.is_some_and(|entry| entry.gave.is_some())
    }

    fn enable(&self) -> bool {
        let control = self.since_reset().iter().rev().find_map(|entry| if let Write(0, value) = entry.access { Some(value) } else { None });
        control.is_some_and(|value| value / 2 % 2 == 1)
    }

    pub fn line(&self) -> bool {
        self.flag() && self.enable()
    }

    /// What each register reads.
    pub fn registers(&self) -> [u8; 6] {
        let (waits, refused, overrun) = (!self.left().is_empty() as u8, (self.refusal() != 0) as u8, (self.written().len() > 32) as u8);
        [2 * self.enable() as u8, waits + 2 * refused + 4 * overrun, 0, self.left().first().map_or(0, |&b| b), self.refusal(), self.flag() as u8]
    }

    /// What an access gives, which is kept.
    pub fn push(&mut self, access: Access, store: &[u8]) -> u8 {
        let byte = if let Read(register) = access { self.registers()[register] } else { 0 };
        let starts = matches!(access, Write(0, value) if value < 128 && value % 2 == 1) && self.left().is_empty();
        let written = self.written();
        let answered = || if written.len() > 32 { Err(7) } else { short_answer(self.c, self.mirror, store, &written) };
        let gave = starts.then(answered);
        self.entries.push(Entry { access, gave });
        byte
    }

    /// The bytes that were written to each place of a request, the last one each; a start leaves them.
    fn places(&self) -> [u8; 32] {
        let (mut places, mut at) = ([0; 32], 0);
        for entry in self.since_reset() {
            match entry.access {
                Write(2, value) if at < 32 => (places[at], at) = (value, at + 1),
                _ if entry.gave.is_some() => at = 0,
                _ => (),
            }
        }
        places
    }

    /// The last answer that was not empty, at the start of zeros.
    fn last_answer(&self) -> [u8; 64] {
        let full = |entry: &Entry| entry.gave.clone().and_then(|gave| gave.ok()).filter(|bytes| !bytes.is_empty());
        let last = self.since_reset().iter().rev().find_map(full).unwrap_or_default();
        std::array::from_fn(|i| last.get(i).copied().unwrap_or(0))
    }

    /// The unit as a value.
    pub fn unit(&self) -> Unit {
        let [enable, status, _, _, refusal, flag] = self.registers();
        let kept = [enable, status & 6, 0, 0, refusal, flag];
        let (held, waiting) = (self.written().len().min(32), self.left().len());
        Unit { cat: self.c, mirror: self.mirror, kept, held, request: self.places(), waiting, answer: self.last_answer() }
    }
}
