//! The session: begin, issue, take, recover; and the history that it keeps, of which its meters are sums (02, item 5).
use crate::Bytes;
use crate::catalogue::{Catalogue, ZERO, in_season, judged};
use crate::codes::{answer_length, recover, request};
use crate::days::Day;
use crate::meters::{Call, History, Kind, Marks, Meters, UNMARKED, reached};
use crate::sizes::{key_good, key_length, pack_end, request_length, slot};

#[derive(Clone)]
pub struct Session {
    pub cat: Catalogue,
    pub wanted: usize,
    pub key: Bytes,
    pub marks: Marks,
    pub history: History,
}

pub fn blank() -> Session {
    Session { cat: ZERO, wanted: 0, key: vec![0; 2048], marks: UNMARKED, history: History::new() }
}

pub fn begin(cat: Catalogue, wanted: usize, key: &[u8]) -> Result<Session, u8> {
    judged(cat)?;
    if wanted >= cat.k {
        return Err(4);
    }
    if key.len() != key_length(cat) {
        return Err(5);
    }
    if !key_good(cat, key) {
        return Err(6);
    }
    let mut s = blank();
    (s.cat, s.wanted) = (cat, wanted);
    s.key[..key.len()].copy_from_slice(key);
    Ok(s)
}

impl Session {
    pub fn used_key(&self) -> &[u8] {
        &self.key[..key_length(self.cat)]
    }

    pub fn request(&self, mirror: usize) -> Bytes {
        request(self.cat, self.wanted, mirror, self.used_key())
    }

    pub fn meters(&self) -> Meters {
        self.history.meters()
    }

    /// Whether some list of calls since begin gives the marks and the meters, with the catalogue, the pack and the key as they are: 11 where none does.
    fn past_good(&self) -> Result<(), u8> {
        // only where an answer was taken is it asked for how long it is
        let called: Vec<usize> = (0..self.cat.n).map(|m| if self.marks.taken[m] { answer_length(self.cat, &self.request(m)) } else { 0 }).collect();
        if reached(request_length(self.cat), &called, &self.marks, &self.meters()) { Ok(()) } else { Err(11) }
    }

    /// Keeps what a call did.
    fn kept(&mut self, kind: Kind, mirror: Option<usize>, bytes: usize, gave: Result<(), u8>) -> Result<(), u8> {
        self.history.calls.push(Call { kind, mirror, gave, bytes });
        gave
    }

    /// The refusals about the session's own fields, the day and the mirror, up to 6.
    pub fn fields(&self, today: Option<Day>, mirror: Option<usize>) -> Result<(), u8> {
        judged(self.cat)?;
        today.map_or(Ok(()), |today| in_season(self.cat, today))?;
        if mirror.is_some_and(|m| m >= self.cat.n) {
            return Err(3);
        }
        if self.wanted >= self.cat.k {
            return Err(4);
        }
        if key_good(self.cat, self.used_key()) { Ok(()) } else { Err(6) }
    }

    pub fn issue(&mut self, today: Day, mirror: usize, buffer: &mut [u8]) -> Result<(), u8> {
        let gave = self.issue_gives(today, mirror, buffer.len());
        if gave.is_err() {
            return self.kept(Kind::Issue, Some(mirror), buffer.len(), gave);
        }
        let request = self.request(mirror);
        buffer[..request.len()].copy_from_slice(&request);
        self.marks.issued[mirror] = true;
        self.kept(Kind::Issue, Some(mirror), request.len(), gave)
    }

    fn issue_gives(&self, today: Day, mirror: usize, room: usize) -> Result<(), u8> {
        self.fields(Some(today), Some(mirror))?;
        let asked = request_length(self.cat);
        if room < asked {
            return Err(9);
        }
        self.past_good()?;
        if self.history.full(mirror, asked) { Err(16) } else { Ok(()) }
    }

    pub fn take(&mut self, mirror: usize, answer: &[u8], buffer: &mut [u8]) -> Result<(), u8> {
        let gave = self.take_gives(mirror, answer.len(), buffer.len());
        if gave.is_ok() {
            let start = mirror * slot(self.cat);
            buffer[start..start + answer.len()].copy_from_slice(answer);
            self.marks.taken[mirror] = true;
        }
        self.kept(Kind::Take, Some(mirror), answer.len(), gave)
    }

    fn take_gives(&self, mirror: usize, length: usize, room: usize) -> Result<(), u8> {
        self.fields(None, Some(mirror))?;
        if room < self.cat.n * slot(self.cat) {
            return Err(9);
        }
        if length != answer_length(self.cat, &self.request(mirror)) {
            return Err(10);
        }
        self.past_good()?;
        if self.marks.issued[mirror] && !self.marks.taken[mirror] { Ok(()) } else { Err(11) }
    }

    /// Writes the pack. It names no mirror, and nothing goes over a link.
    pub fn recover(&mut self, buffer: &[u8], pack: &mut [u8]) -> Result<(), u8> {
        let gave = self.recover_gives(buffer.len(), pack.len());
        if gave.is_ok() {
            let got = self.recovered(buffer);
            pack[..got.len()].copy_from_slice(&got);
        }
        self.kept(Kind::Recover, None, 0, gave)
    }

    fn recover_gives(&self, answers: usize, room: usize) -> Result<(), u8> {
        self.fields(None, None)?;
        if answers < self.cat.n * slot(self.cat) || room < pack_end(self.cat, self.wanted) {
            return Err(9);
        }
        self.past_good()?;
        if self.marks.taken[..self.cat.n].contains(&false) { Err(12) } else { Ok(()) }
    }

    /// The pack that the answers in their slots give.
    fn recovered(&self, buffer: &[u8]) -> Bytes {
        let size = slot(self.cat);
        let answers: Vec<Bytes> = (0..self.cat.n)
            .map(|m| buffer[m * size..m * size + answer_length(self.cat, &self.request(m))].to_vec()).collect();
        let mut got = recover(self.cat, self.wanted, self.used_key(), &answers);
        got.truncate(pack_end(self.cat, self.wanted));
        got
    }
}
