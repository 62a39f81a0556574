//! The lines of the conformance programs: what they are made of, and the list of them.
mod texts;
mod fetches;
mod turns;
mod rounds;
mod refusals;
mod seasons;
mod lengths;
mod sessions;
mod meters;
mod limits;
mod units;
mod corrections;

use crate::Bytes;
use crate::bench::given;
use crate::catalogue::{Catalogue, Even, Round, Short, Turn, ZERO, adding, dated, has_dates, measured, plain};
use crate::codes::{answer_length, request};
use crate::days::{Day, spelled};
use crate::draws::{Draw, drawn_key};
use crate::samples::lengths::with_some;
use crate::samples::seasons::SEASONS;
use crate::sizes::{key_length, pack_length, slot};

/// A length that a mirror's answer may have: in the round code the only one, in the even code, too; in the others it may be empty as well.
pub fn some_answer(c: Catalogue, mirror: usize) -> usize {
    slot(c) - if c.code == Round && mirror == 0 { c.s } else { 0 }
}

/// The length of the answer that a mirror's request calls for, by the key that is drawn from a number.
pub fn called(c: Catalogue, wanted: usize, seed: usize, mirror: usize) -> usize {
    answer_length(c, &request(c, wanted, mirror, &drawn_key(seed as u64, c, key_length(c))))
}

/// A catalogue in the title of a section.
pub fn titled(c: Catalogue) -> String {
    let lengths = if c.measured { " with lengths" } else { "" };
    if has_dates(c) { format!("{} {} {}{lengths}", given(c), spelled(c.open), spelled(c.close)) } else { format!("{}{lengths}", given(c)) }
}

/// The lines so far, and a catalogue with the dates and lengths that the last of them have set.
pub struct Cases {
    pub out: Bytes,
    pub draw: Draw,
    pub last: Catalogue,
}

impl Cases {
    pub fn put(&mut self, line: String) {
        self.out.extend(line.bytes());
        self.out.push(b'\n');
    }

    pub fn text(&mut self, text: &[u8]) {
        assert!(!text.contains(&b'~'));
        self.out.push(b't');
        self.out.extend_from_slice(text);
        self.out.extend(b"~\n");
    }

    pub fn day(&mut self, letter: &str, [year, month, day]: Day) {
        self.put(format!("{letter} {year} {month} {day}"));
    }

    pub fn today(&mut self, day: Day) {
        self.day("n", day);
    }

    /// The dates and the lengths of the catalogues in the next lines, where they are others than in the last ones.
    pub fn optional(&mut self, c: Catalogue) {
        if self.last.open != c.open {
            self.day("f", c.open);
        }
        if self.last.close != c.close {
            self.day("l", c.close);
        }
        if (self.last.measured, self.last.lengths) != (c.measured, c.lengths) {
            self.lengths(c);
        }
        self.last = c;
    }

    /// The lengths, by fewest lines: the mark anew and each place that is not zero, or each place that is another than it was.
    pub fn lengths(&mut self, c: Catalogue) {
        let filled: Vec<usize> = (0..32).filter(|&p| c.lengths[p] != 0).collect();
        let changed: Vec<usize> = (0..32).filter(|&p| c.lengths[p] != self.last.lengths[p]).collect();
        let anew = self.last.measured != c.measured || changed.len() > filled.len();
        if anew {
            self.put(format!("p {}", c.measured as u8));
        }
        for p in if anew { filled } else { changed } {
            self.put(format!("m {p} {}", c.lengths[p]));
        }
    }

    /// A text with each byte of these lines of it changed in a bit, and cut off with all that follows.
    pub fn damaged(&mut self, good: &str, lines: &str) {
        let line = good.find(lines).unwrap();
        for at in line..line + lines.len() {
            let mut text = good.as_bytes().to_vec();
            text[at] ^= 1 << self.draw.below(4);
            self.text(&text);
            self.text(&good.as_bytes()[..at]);
        }
    }

    pub fn catalogue(&mut self, c: Catalogue) {
        self.optional(c);
        self.put(format!("c {}", given(c)));
    }

    /// A catalogue put into the session.
    pub fn hold(&mut self, c: Catalogue) {
        self.optional(c);
        self.put(format!("g {}", given(c)));
    }

    /// A store and a key for the catalogue.
    pub fn lend(&mut self, c: Catalogue) {
        let (store, key) = (1 + self.draw.below(9999), 1 + self.draw.below(9999));
        self.put(format!("s {store} {}", c.k * pack_length(c)));
        self.put(format!("k {key} {}", key_length(c)));
    }

    /// A mirror's answer taken, whichever of the lengths that an answer may have it is of: the others are refused.
    pub fn take_any(&mut self, c: Catalogue, mirror: usize) {
        let slots = c.n * slot(c);
        if c.code == Round {
            self.put(format!("h {mirror} {} {slots}", slot(c) - c.s));
        }
        self.put(format!("h {mirror} {} {slots}\nh {mirror} 0 {slots}", slot(c)));
    }

    /// A good text, written into each of these rooms, and at the start of more.
    pub fn written(&mut self, text: &str, rooms: &[usize], more: &[&str]) {
        self.text(text.as_bytes());
        for room in rooms {
            self.put(format!("w {room}"));
        }
        for more in more {
            self.text(format!("{text}{more}").as_bytes());
        }
    }
}

/// The lines of a program: `conformance` has the codes of document 01 with all that the requests add to them, `conformance_codes` the codes that the
/// requests add, `conformance_meters` the meters, in all codes, `conformance_unit` the answer unit, `conformance_corrections` corrected bytes, in all codes.
/// Their outputs together are longer than a program's may be.
pub fn cases(program: &str) -> Bytes {
    let mut cases = Cases { out: Vec::new(), draw: Draw(7), last: ZERO };
    match program {
        "conformance" => first_codes(&mut cases),
        "conformance_codes" => {
            turning(&mut cases);
            going_round(&mut cases);
        }
        "conformance_meters" => limits::metering(&mut cases),
        "conformance_unit" => units::units(&mut cases),
        "conformance_corrections" => corrections::corrections(&mut cases),
        _ => panic!("no such program: {program}"),
    }
    cases.out
}

/// The lines about the codes of document 01.
fn first_codes(cases: &mut Cases) {
    cases.texts();
    cases.sum_texts();
    cases.bounds();
    cases.papers();
    cases.fetches();
    cases.words();
    cases.added_fetches();
    for (code, n, s) in [(Short, 2, 1), (Short, 5, 3), (Even, 2, 1), (Even, 3, 2)] {
        cases.one_pack(plain(code, n, 2, s));
    }
    for (code, n, s) in [(Short, 5, 4), (Even, 2, 2)] {
        cases.odd_piece(adding(plain(code, n, 2, s)));
    }
    let small = [(Short, 2, 2, 1), (Short, 3, 3, 2), (Short, 16, 32, 1), (Even, 2, 2, 3), (Even, 3, 3, 1), (Even, 16, 2, 1), (Even, 2, 8, 2)];
    for (code, n, k, s) in small {
        cases.refusals(plain(code, n, k, s));
    }
    for (code, n, k, s) in [(Short, 3, 3, 2), (Even, 2, 2, 4)] {
        cases.refusals(adding(plain(code, n, k, s)));
    }
    for (code, n, k, s) in small.into_iter().chain([(Short, 4, 3, 4096), (Even, 4, 2, 4096), (Short, 5, 4, 2), (Even, 2, 3, 2)]) {
        cases.session(plain(code, n, k, s), 40);
    }
    for (code, n, k, s) in [(Short, 2, 2, 2), (Short, 4, 3, 4096), (Short, 5, 4, 6), (Even, 2, 3, 2), (Even, 4, 2, 4096), (Even, 3, 3, 4)] {
        cases.session(adding(plain(code, n, k, s)), 40);
    }
    seasons(cases);
    lengths(cases);
    cases.digit_sums();
}

/// The lines about the turning code (02, item 4): its own, then those of the short code once more.
fn turning(cases: &mut Cases) {
    cases.turn_texts();
    cases.turn_bounds();
    cases.turn_rows();
    cases.turns();
    cases.empty_answers();
    cases.turn_fetches();
    cases.one_pack(plain(Turn, 2, 2, 2));
    cases.odd_piece(adding(plain(Turn, 3, 2, 2)));
    for c in [plain(Turn, 2, 2, 1), adding(plain(Turn, 3, 3, 2)), plain(Turn, 16, 32, 1), with_some(plain(Turn, 4, 3, 2))] {
        cases.refusals(c);
    }
    let (open, close) = SEASONS[0];
    let c = dated(plain(Turn, 3, 2, 2), open, close);
    cases.season_orders(c);
    cases.across(c);
    cases.length_days(with_some(c));
    cases.same_exchanges(plain(Turn, 3, 3, 2));
    cases.cut_session(plain(Turn, 3, 3, 3), false);
    cases.cut_session(adding(plain(Turn, 4, 2, 4)), true);
    for (n, k, s) in [(2, 2, 1), (3, 3, 2), (16, 32, 1), (4, 3, 4096), (5, 4, 6)] {
        cases.session(Catalogue { add: s > 2, ..plain(Turn, n, k, s) }, 32);
    }
    cases.session(dated(plain(Turn, 3, 2, 3), open, close), 24);
    cases.session(measured(adding(plain(Turn, 3, 2, 4)), &[5, 7]), 24);
}

/// The lines about the round code (02, item 8): its own, then those of the others once more.
fn going_round(cases: &mut Cases) {
    cases.round_texts();
    cases.round_bounds();
    cases.round_lengths();
    cases.table_4();
    cases.round_lists();
    cases.round_keys();
    cases.round_takes();
    cases.round_fetches();
    cases.one_pack(plain(Round, 2, 2, 2));
    cases.odd_piece(adding(plain(Round, 3, 2, 2)));
    let few = [plain(Round, 2, 2, 1), adding(plain(Round, 3, 2, 2)), plain(Round, 2, 4, 3), with_some(plain(Round, 3, 2, 2)), with_some(plain(Round, 2, 3, 3))];
    for c in few.into_iter().chain([plain(Round, 2, 7, 1), plain(Round, 4, 3, 1), plain(Round, 16, 2, 1), adding(plain(Round, 8, 3, 2))]) {
        cases.refusals(c);
    }
    let (open, close) = SEASONS[1];
    cases.season_orders(dated(plain(Round, 3, 2, 2), open, close));
    for c in [plain(Round, 3, 2, 2), adding(plain(Round, 2, 3, 2))] {
        cases.across(dated(c, open, close));
    }
    cases.length_days(with_some(dated(plain(Round, 2, 3, 3), open, close)));
    cases.same_exchanges(plain(Round, 3, 3, 2));
    for (n, k, s) in [(2, 2, 3), (3, 2, 4), (2, 4, 1), (4, 2, 6)] {
        let c = Catalogue { add: s > 3, ..plain(Round, n, k, s) };
        cases.cut_session(c, false);
        cases.cut_session(c, true);
    }
    for (n, k, s) in [(2, 2, 1), (3, 2, 2), (2, 3, 4096), (3, 3, 1), (4, 2, 6), (16, 2, 1), (2, 7, 2), (3, 2, 4096)] {
        cases.session(Catalogue { add: s % 4 == 2, ..plain(Round, n, k, s) }, 40);
    }
    cases.session(dated(plain(Round, 2, 2, 3), open, close), 32);
    cases.session(measured(adding(plain(Round, 2, 3, 4)), &[5, 16, 11]), 32);
    cases.session(dated(measured(plain(Round, 3, 2, 3), &[18, 7]), open, close), 32);
}

/// The lines about days and seasons (02, item 1).
fn seasons(cases: &mut Cases) {
    cases.season_texts();
    cases.day_texts();
    cases.season_values(plain(Short, 3, 2, 2));
    cases.season_values(plain(Even, 2, 2, 1));
    cases.days();
    let codes = [plain(Short, 3, 2, 2), adding(plain(Even, 2, 2, 2))];
    for (c, (open, close)) in codes.into_iter().zip(SEASONS) {
        cases.season_orders(dated(c, open, close));
    }
    cases.season_fetches();
    for (c, (open, close)) in codes.into_iter().zip(SEASONS) {
        cases.across(dated(c, open, close));
        cases.today(open);
        cases.refusals(dated(c, open, close));
    }
    for (i, (code, n, k, s)) in [(Short, 2, 2, 1), (Short, 4, 3, 4096), (Even, 2, 3, 2), (Even, 3, 2, 4)].into_iter().enumerate() {
        let (open, close) = SEASONS[i * 2 % 3];
        cases.session(dated(Catalogue { add: i % 2 == 1, ..plain(code, n, k, s) }, open, close), 40);
    }
}

/// The lines about lengths (02, item 6).
fn lengths(cases: &mut Cases) {
    cases.length_texts();
    cases.count_texts();
    cases.number_texts();
    cases.length_values(plain(Short, 3, 3, 2));
    cases.length_values(adding(plain(Even, 2, 2, 2)));
    cases.last_places();
    for (c, (open, close)) in [plain(Short, 3, 2, 3), adding(plain(Even, 2, 2, 2))].into_iter().zip(SEASONS) {
        cases.length_days(with_some(dated(c, open, close)));
    }
    cases.length_fetches();
    for (code, n, k, s) in [(Short, 3, 3, 3), (Short, 4, 2, 4), (Even, 2, 2, 1), (Even, 2, 2, 4), (Even, 3, 2, 3), (Short, 2, 32, 40)] {
        let c = Catalogue { add: s == 4, ..plain(code, n, k, s) };
        cases.cut_session(c, false);
        if k < 32 {
            cases.cut_session(c, true);
        }
    }
    for c in [plain(Short, 3, 3, 2), adding(plain(Even, 2, 3, 2))] {
        cases.same_exchanges(c);
        cases.refusals(with_some(c));
    }
    let sizes = [(Short, 2, 2, 3), (Short, 4, 3, 4096), (Short, 5, 32, 2), (Even, 2, 3, 2), (Even, 3, 2, 5), (Even, 4, 2, 4096)];
    for (i, (code, n, k, s)) in sizes.into_iter().enumerate() {
        let c = Catalogue { add: s % 2 == 0, ..plain(code, n, k, s) };
        let numbers: Vec<usize> = (0..k).map(|_| 1 + cases.draw.below(pack_length(c))).collect();
        let (open, close) = SEASONS[i];
        cases.session(if i % 3 == 2 { dated(measured(c, &numbers), open, close) } else { measured(c, &numbers) }, 32);
    }
}
