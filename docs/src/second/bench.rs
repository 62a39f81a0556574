//! What each line of a conformance program gives.
use crate::Bytes;
use crate::catalogue::{Catalogue, ZERO, admitted, in_season, judged};
use crate::codes::answering;
use crate::days::{Day, NO_DAY};
use crate::draws::{drawn_key, fill_drawn};
use crate::lines::{Line, made, printed, set_optional};
use crate::meters::Meters;
use crate::session::{Session, begin, blank};
use crate::sizes::{key_length, pack_end, pack_length, pieces, request_length, slot};
use crate::text::{lines, read, write_text};
use std::fmt::Write;

pub fn sum(start: u64, bytes: &[u8]) -> u64 {
    bytes.iter().fold(start, |sum, &b| (sum * 257 + b as u64 + 1) % 1000003)
}

pub fn shown_bytes(bytes: &[u8]) -> String {
    if bytes.len() > 32 {
        return format!("( {} bytes {} )", bytes.len(), sum(0, bytes));
    }
    let mut out = String::from("(");
    bytes.iter().for_each(|b| write!(out, " {b}").unwrap());
    out + " )"
}

/// A catalogue as a line gives it, whose dates and lengths other lines set.
pub fn given(c: Catalogue) -> String {
    format!("{} {} {} {} {}", c.code as u8, c.n, c.k, c.s, c.add as u8)
}

pub fn shown_catalogue(c: Catalogue) -> String {
    let places = c.lengths.iter().rposition(|&length| length != 0).map_or(0, |last| last + 1);
    let numbers = [&c.open[..], &c.close, &[c.measured as usize, places], &c.lengths[..places]].concat();
    format!("{} {}", given(c), numbers.iter().map(|x| x.to_string()).collect::<Vec<_>>().join(" "))
}

/// The sum of all meters, those of the requests first, each as two numbers: what is above 16 bits, and what is not.
fn metered(s: &Session) -> u64 {
    let Meters { sent, got } = s.meters();
    sent.into_iter().chain(got).flat_map(|x| [x >> 16, x & 65535]).fold(0, |sum, half| (sum * 257 + half as u64 + 1) % 1000003)
}

/// All meters, one by one.
fn shown_meters(Meters { sent, got }: Meters) -> String {
    let row = |meters: [usize; 16]| meters.map(|x| x.to_string()).join(" ");
    format!("M ( {} ) ( {} )\n", row(sent), row(got))
}

fn shown_session(s: &Session) -> String {
    let marks = |all: [bool; 16]| all.iter().fold(0, |out, &m| out * 2 + m as usize);
    let marks = [s.marks.issued, s.marks.taken].map(marks);
    format!("[ {} {} {} {} {} {} ]", shown_catalogue(s.cat), s.wanted, sum(0, &s.key), marks[0], marks[1], metered(s))
}

fn verdict(result: Result<(), u8>) -> u8 {
    result.err().unwrap_or(0)
}

fn outcome(result: Result<usize, u8>) -> String {
    result.map_or_else(|refusal| format!("-{refusal}"), |value| value.to_string())
}

/// What stands between two lines: the catalogue, one with the dates and lengths that the next one gets, the day that it is, the session, the lent
/// buffers, and how much of key and store is lent.
struct Bench {
    cat: Catalogue,
    next: Catalogue,
    today: Day,
    session: Session,
    key: Bytes,
    store: Bytes,
    query: Bytes,
    answer: Bytes,
    answers: Bytes,
    message: Bytes,
    lent: [usize; 2],
}

pub const LENGTHS: [usize; 6] = [2304, 262656, 2304, 66048, 139776, 131584];

impl Bench {
    pub fn new() -> Bench {
        let [key, store, query, answer, answers, message] = LENGTHS.map(|length| vec![0; length]);
        Bench { cat: ZERO, next: ZERO, today: NO_DAY, session: blank(), key, store, query, answer, answers, message, lent: [0, 0] }
    }

    /// A line that reads a catalogue's text.
    pub fn text(&mut self, text: &[u8]) -> String {
        let (first, value) = match read(text) {
            Ok(c) => (0, c),
            Err(refusal) => (refusal, ZERO),
        };
        self.cat = value;
        let (second, start, end) = match lines(text) {
            Some((c, rest)) => judged(c).map_or_else(|refusal| (refusal, ZERO, 0), |_| (0, c, text.len() - rest.len())),
            None => (1, ZERO, 0),
        };
        format!("t {first} {} {second} {} {end}\n", shown_catalogue(value), shown_catalogue(start))
    }

    /// A line of a letter and numbers; those that make no call print nothing.
    pub fn line(&mut self, letter: &str, [a, b, c, d, e]: [usize; 5]) -> String {
        let cat = made(self.next, [a, b, c, d, e]);
        match letter {
            "c" => return self.catalogue(cat),
            "f" | "l" | "p" | "m" => set_optional(&mut self.next, letter, [a, b, c]),
            "n" => self.today = [a, b, c],
            "k" => {
                if admitted(self.cat) {
                    self.key = drawn_key(a as u64, self.cat, self.key.len());
                }
                self.lent[0] = b;
            }
            "s" => {
                let end = b.min(self.store.len());
                fill_drawn(a as u64, 256, &mut self.store[..end]);
                self.lent[1] = b;
            }
            "e" => fill_drawn(a as u64, 256, &mut self.answer),
            "o" => self.key[a] = b as u8,
            "d" => self.store[a] = b as u8,
            "q" => self.query[a] = b as u8,
            "z" => self.answers.fill(a as u8),
            "g" => self.session.cat = cat,
            "v" => self.session.wanted = a,
            "y" => self.session.key[a] = b as u8,
            "u" => self.session.marks.issued[a] = b != 0,
            "j" => self.session.marks.taken[a] = b != 0,
            "U" => self.session.history.forge(|meters| meters.sent[a] = b % (1 << 32)),
            "J" => self.session.history.forge(|meters| meters.got[a] = b % (1 << 32)),
            "M" => return shown_meters(self.session.meters()),
            "x" => return self.whole(a, b),
            _ => return self.call(letter, a, b, c),
        }
        String::new()
    }

    pub fn catalogue(&mut self, c: Catalogue) -> String {
        self.cat = c;
        if let Err(refusal) = judged(c) {
            return format!("c {refusal} -{refusal} -{refusal}\n");
        }
        let sizes = [pieces(c), pack_length(c), c.k * pack_length(c), key_length(c), request_length(c), slot(c), c.n * slot(c)];
        format!("c 0 {}\n", sizes.map(|x| x.to_string()).join(" "))
    }

    /// A line that makes one call.
    pub fn call(&mut self, letter: &str, a: usize, b: usize, c: usize) -> String {
        match letter {
            "w" => {
                self.answer[..a].fill(170);
                let text = write_text(self.cat);
                let result = judged(self.cat).and_then(|_| if a < text.len() { Err(9) } else { Ok(text.len()) });
                if let Ok(length) = result {
                    self.answer[..length].copy_from_slice(text.as_bytes());
                }
                format!("w {} {}\n", outcome(result), shown_bytes(&self.answer[..a]))
            }
            "b" => {
                let begun = begin(self.cat, a, &self.key[..self.lent[0]]);
                let refusal = begun.as_ref().err().copied().unwrap_or(0);
                self.session = begun.unwrap_or_else(|_| blank());
                format!("b {refusal} {}\n", shown_session(&self.session))
            }
            "i" => {
                self.query[..b].fill(238);
                let gave = verdict(self.session.issue(self.today, a, &mut self.query[..b]));
                format!("i {gave} {} {}\n", shown_bytes(&self.query[..b]), shown_session(&self.session))
            }
            "a" => {
                self.answer[..c].fill(221);
                let result = answering(self.cat, self.today, a, &self.store[..self.lent[1]], &self.query[..b], c);
                if let Ok(bytes) = &result {
                    self.answer[..bytes.len()].copy_from_slice(bytes);
                }
                format!("a {} {}\n", outcome(result.map(|bytes| bytes.len())), shown_bytes(&self.answer[..c]))
            }
            "h" => {
                let gave = verdict(self.session.take(a, &self.answer[..b], &mut self.answers[..c]));
                format!("h {gave} {} {}\n", shown_bytes(&self.answers[..c]), shown_session(&self.session))
            }
            "r" => {
                self.message[..b].fill(204);
                let gave = verdict(self.session.recover(&self.answers[..a], &mut self.message[..b]));
                format!("r {gave} {} {}\n", shown_bytes(&self.message[..b]), shown_session(&self.session))
            }
            _ => panic!("no such letter: {letter}"),
        }
    }

    /// A whole fetch, in buffers of exactly the lengths that it needs, the pack's a number of bytes less than the whole, on one day: in season nothing
    /// is refused and the pack is the store's, unless its buffer is too short; out of season each issue, each answer and each take is refused, and
    /// then recover, which misses the answers.
    pub fn whole(&mut self, wanted: usize, less: usize) -> String {
        let mut session = match begin(self.cat, wanted, &self.key[..self.lent[0]]) {
            Ok(session) => session,
            Err(refusal) => return format!("x {refusal}\n"),
        };
        let (cat, today, store) = (self.cat, self.today, &self.store[..self.lent[1]]);
        let (asked, room, slots) = (request_length(cat), slot(cat), cat.n * slot(cat));
        let season = in_season(cat, today);
        let (mut queries, mut answers, mut received) = (0, 0, 0);
        for mirror in 0..cat.n {
            let issued = session.issue(today, mirror, &mut self.query[..asked]);
            let answered = answering(cat, today, mirror, store, &self.query[..asked], room);
            assert_eq!([issued, answered.as_ref().map(|_| ()).map_err(|&refusal| refusal)], [season; 2]);
            let answer = answered.unwrap_or_default();
            let taken = session.take(mirror, &answer, &mut self.answers[..slots]);
            assert_eq!(taken.is_ok(), season.is_ok());
            self.answer[..answer.len()].copy_from_slice(&answer);
            queries = sum(queries, &self.query[..asked]);
            answers = sum(answers, &answer);
            received += answer.len();
        }
        let message = &mut self.message[..pack_length(cat).saturating_sub(less)];
        message.fill(204);
        let gave = verdict(session.recover(&self.answers[..slots], message));
        let meant = &store[wanted * pack_length(cat)..][..pack_end(cat, wanted)];
        let (number, written) = if message.len() < meant.len() { (9, 0) } else { season.map_or((12, 0), |_| (0, meant.len())) };
        assert_eq!((gave, &message[..written]), (number, &meant[..written]));
        assert!(message[written..].iter().all(|&b| b == 204));
        let Meters { sent, got } = session.meters();
        assert_eq!((sent.iter().sum(), got.iter().sum()), season.map_or((0, 0), |_| (cat.n * asked, received)));
        format!("x 0 {queries} {answers} {received} {gave} {} {}\n", shown_bytes(message), metered(&session))
    }
}

/// What a program must print for an input.
pub fn expected(input: &[u8]) -> Bytes {
    let mut bench = Bench::new();
    printed(input, |line| match line {
        Line::Text(text) => bench.text(text),
        Line::Numbers(letter, five) => bench.line(letter, five),
    })
}
