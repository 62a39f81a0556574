//! Lines about two refusals at once: for each two faults a call that has both, and none that would come before them.
use crate::cases::Cases;
use crate::catalogue::{Catalogue, Code, Even, Round, Short, Turn, adding, dated, plain};
use crate::codes::answer_length;
use crate::corrections::Edit;
use crate::samples::lengths::placed;
use crate::samples::seasons::{A, B};
use crate::sizes::{pack_length, pieces};

/// What is wrong with a correction.
#[derive(Clone, Copy, PartialEq)]
enum Fault {
    Mirrors,
    Dates,
    Lengths,
    OnePack,
    OddPiece,
    Mirror,
    RequestLength(isize),
    RequestByte,
    Store(isize),
    Pack,
    Piece,
    Byte,
    Saved(isize),
    NoBytes,
}

use Fault::{Byte, Dates, Lengths, Mirror, Mirrors, NoBytes, OddPiece, OnePack, Pack, Piece, RequestByte, RequestLength, Saved, Store};

const FAULTS: [Fault; 18] = [Mirrors, Dates, Lengths, OnePack, OddPiece, Mirror, RequestLength(1), RequestLength(-1), RequestByte, Store(1), Store(-1), Pack,
    Piece, Byte, Saved(1), Saved(-1), Saved(9), NoBytes];

/// The catalogue with what is wrong with it in itself: its sizes are those that the rest of the call goes by.
fn sized(code: Code, n: usize, faults: [Fault; 2]) -> Catalogue {
    let c = plain(code, n, if faults.contains(&OnePack) { 1 } else { 2 }, 2);
    if faults.contains(&OddPiece) { adding(Catalogue { s: 3, ..c }) } else { c }
}

/// The catalogue that the call is given.
fn spoilt(c: Catalogue, faults: [Fault; 2]) -> Catalogue {
    faults.into_iter().fold(c, |c, fault| match fault {
        Mirrors => Catalogue { n: 17, ..c },
        Dates => dated(c, B, A),
        Lengths => placed(c, 31, 1),
        _ => c,
    })
}

fn longer(length: usize, more: isize) -> usize {
    length.checked_add_signed(more).unwrap()
}

impl Cases {
    /// A call with these faults, and both ways to make it.
    fn faulty(&mut self, code: Code, n: usize, faults: [Fault; 2]) {
        let c = sized(code, n, faults);
        let (mut mirror, mut request) = (n - 1, self.some_request(c, n - 1));
        if code == Turn {
            request[0] = 1;
        }
        let (mut asked, mut saved, mut stored) = (request.len(), answer_length(c, &request), c.k * pack_length(c));
        let mut edit = Edit { pack: 0, piece: 0, byte: 0, value: 200 };
        for fault in faults.into_iter().take(if faults[0] == faults[1] { 1 } else { 2 }) {
            match fault {
                Mirror => mirror = 17,
                RequestLength(more) => asked = longer(asked, more),
                RequestByte => request[0] = 255,
                Store(more) => stored = longer(stored, more),
                Pack => edit.pack = c.k,
                Piece => edit.piece = pieces(c),
                Byte => edit.byte = c.s,
                Saved(more) => saved = longer(saved, more),
                NoBytes => saved = 0,
                _ => (),
            }
        }
        self.catalogue_alone(spoilt(c, faults));
        self.put(format!("s 77 {stored}"));
        self.request_bytes(0, &request);
        self.choose(0, mirror, asked, saved);
        self.edit(edit);
        self.put("Y\nX".into());
    }

    /// Each fault by itself, and each two.
    pub fn correction_orders(&mut self) {
        for (code, n) in [(Short, 3), (Turn, 2), (Even, 2), (Round, 3)] {
            self.put(format!("# two refusals at once: {code:?}\ne 3 64"));
            for (i, &first) in FAULTS.iter().enumerate() {
                self.faulty(code, n, [first; 2]);
                for &second in &FAULTS[i + 1..] {
                    self.faulty(code, n, [first, second]);
                }
            }
        }
    }
}
