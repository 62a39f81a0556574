//! The catalogue as a value: what it holds, and which values are turned away, by which number.
use crate::days::{Day, NO_DAY, place};
use crate::round::blocks;
use crate::sizes::pack_length;

/// The codes: the two of document 01, the turning one (02, item 4), and the round one (02, item 8).
#[derive(Clone, Copy, PartialEq, Debug)]
pub enum Code {
    Short,
    Even,
    Turn,
    Round,
}

pub use Code::{Even, Round, Short, Turn};

/// The codes with their words in a catalogue's text. A line of the conformance program's input gives a code by its place here.
pub const CODES: [(Code, &str); 4] = [(Short, "short"), (Even, "even"), (Turn, "turn"), (Round, "round")];

#[derive(Clone, Copy, PartialEq, Debug)]
pub struct Catalogue {
    pub code: Code,
    pub n: usize,
    pub k: usize,
    pub s: usize,
    /// The line `sum=add` (02, item 2).
    pub add: bool,
    /// The lines `open=` and `close=` (02, item 1): zeros without them.
    pub open: Day,
    pub close: Day,
    /// Whether there are lines `length=`, and a place for each pack's (02, item 6): zeros where no line fills it.
    pub measured: bool,
    pub lengths: Lengths,
}

pub type Lengths = [usize; 32];

/// A catalogue without the lines that it may have.
pub const fn plain(code: Code, n: usize, k: usize, s: usize) -> Catalogue {
    Catalogue { code, n, k, s, add: false, open: NO_DAY, close: NO_DAY, measured: false, lengths: [0; 32] }
}

pub fn adding(c: Catalogue) -> Catalogue {
    Catalogue { add: true, ..c }
}

pub fn dated(c: Catalogue, open: Day, close: Day) -> Catalogue {
    Catalogue { open, close, ..c }
}

pub fn undated(c: Catalogue) -> Catalogue {
    dated(c, NO_DAY, NO_DAY)
}

pub fn has_dates(c: Catalogue) -> bool {
    c != undated(c)
}

/// The catalogue with lines `length=` of these numbers, as many of them as a value has places for.
pub fn measured(c: Catalogue, numbers: &[usize]) -> Catalogue {
    let mut lengths = [0; 32];
    lengths.iter_mut().zip(numbers).for_each(|(place, &number)| *place = number);
    Catalogue { measured: true, lengths, ..c }
}

pub fn unmeasured(c: Catalogue) -> Catalogue {
    Catalogue { measured: false, lengths: [0; 32], ..c }
}

pub const ZERO: Catalogue = plain(Short, 0, 0, 0);

/// The bounds of document 01, which a single pack keeps; the turning code has the short one's (02, item 4), the round code its own (02, item 8).
pub fn within(c: Catalogue) -> bool {
    let packs = match c.code {
        Short | Turn => (1..=32).contains(&c.k),
        Even => c.k >= 1 && c.k <= 8 && c.n.saturating_pow(c.k as u32) <= 256,
        Round => c.k >= 1 && blocks(c.n, c.k).is_some(),
    };
    (2..=16).contains(&c.n) && (1..=4096).contains(&c.s) && packs
}

/// Whether the dates are none, or two real days of which the opening one comes first (02, item 1).
pub fn dates_good(c: Catalogue) -> bool {
    !has_dates(c) || place(c.open).zip(place(c.close)).is_some_and(|(open, close)| open < close)
}

/// Whether each place of a catalogue within its bounds is a length of its pack where a line fills it, and zero where none does (02, item 6).
pub fn lengths_good(c: Catalogue) -> bool {
    let (filled, empty) = c.lengths.split_at(if c.measured { c.k } else { 0 });
    filled.iter().all(|length| (1..=pack_length(c)).contains(length)) && empty.iter().all(|&length| length == 0)
}

/// Whether every call that tests the catalogue goes on: 2 for a broken bound or a fault of the dates or lengths, else 17 for a single pack, of every
/// code (02, item 9), else 15 for a piece that is no row of words where words are added (02, item 2).
pub fn judged(c: Catalogue) -> Result<(), u8> {
    match (within(c) && dates_good(c) && lengths_good(c), c.k) {
        (false, _) => Err(2),
        (true, 1) => Err(17),
        (true, _) if c.add && c.s & 1 == 1 => Err(15),
        (true, _) => Ok(()),
    }
}

pub fn admitted(c: Catalogue) -> bool {
    judged(c).is_ok()
}

/// Whether issue and answering go on today, for an admitted catalogue: 13 for no real day, else 14 for one outside the season; without dates any
/// numbers will do (02, item 1).
pub fn in_season(c: Catalogue, today: Day) -> Result<(), u8> {
    if !has_dates(c) {
        return Ok(());
    }
    let now = place(today).ok_or(13)?;
    let season = place(c.open).unwrap()..place(c.close).unwrap();
    if season.contains(&now) { Ok(()) } else { Err(14) }
}
