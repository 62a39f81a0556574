//! What each line of the conformance program of corrections gives.
use crate::Bytes;
use crate::bench::{shown_bytes, sum};
use crate::catalogue::{Catalogue, ZERO};
use crate::codes::answering;
use crate::corrections::{Edit, correct, correct_answer};
use crate::draws::fill_drawn;
use crate::lines::{Line, made, printed, set_optional};

/// The bytes that there are for the store, for requests, and for saved answers; an answer worked out afresh has room for as many.
pub const ROOMS: [usize; 3] = [131328, 8192, 65536];

/// What stands between two lines: the catalogue, one with the dates and lengths that the next one gets, the edit, the mirror, where its request and its
/// saved answer begin and end, the buffers, and how much of the store is lent.
struct Bench {
    cat: Catalogue,
    next: Catalogue,
    edit: Edit,
    mirror: usize,
    request: [usize; 2],
    saved: [usize; 2],
    store: Bytes,
    requests: Bytes,
    answers: Bytes,
    lent: usize,
}

impl Bench {
    fn new() -> Bench {
        let [store, requests, answers] = ROOMS.map(|room| vec![0; room]);
        let edit = Edit { pack: 0, piece: 0, byte: 0, value: 0 };
        Bench { cat: ZERO, next: ZERO, edit, mirror: 0, request: [0; 2], saved: [0; 2], store, requests, answers, lent: 0 }
    }

    /// A line; those that correct nothing print nothing.
    fn line(&mut self, letter: &str, five: [usize; 5]) -> String {
        let [a, b, c, d, e] = five;
        match letter {
            "f" | "l" | "p" | "m" => set_optional(&mut self.next, letter, [a, b, c]),
            "C" => self.cat = made(self.next, five),
            "s" => {
                fill_drawn(a as u64, 256, &mut self.store[..b]);
                self.lent = b;
            }
            "d" => self.store[a] = b as u8,
            "e" => fill_drawn(a as u64, 256, &mut self.answers[..b]),
            "y" => self.answers[a] = b as u8,
            "q" => self.requests[a..a + 4].copy_from_slice(&[b, c, d, e].map(|x| x as u8)),
            "w" => (self.mirror, self.request, self.saved) = (a, [b, c], [d, e]),
            "E" => self.edit = Edit { pack: a, piece: b, byte: c, value: d as u8 },
            "A" => {
                if let Ok(answer) = self.afresh(self.saved[1] - self.saved[0]) {
                    self.answers[self.saved[0]..][..answer.len()].copy_from_slice(&answer);
                }
            }
            _ => return self.call(letter),
        }
        String::new()
    }

    fn asked(&self) -> &[u8] {
        &self.requests[self.request[0]..self.request[1]]
    }

    /// What the answering end gives on the opening day.
    fn afresh(&self, room: usize) -> Result<Bytes, u8> {
        answering(self.cat, self.cat.open, self.mirror, &self.store[..self.lent], self.asked(), room)
    }

    /// One of the two calls, the store set or not; then the saved answer, a sum of the store, and an answer worked out afresh.
    fn call(&mut self, letter: &str) -> String {
        let asked = self.asked().to_vec();
        let (store, saved) = (&mut self.store[..self.lent], &mut self.answers[self.saved[0]..self.saved[1]]);
        let gave = match letter {
            "X" => correct(self.cat, self.mirror, store, &asked, self.edit, saved),
            "Y" => correct_answer(self.cat, self.mirror, store, &asked, self.edit, saved),
            _ => panic!("no such letter: {letter}"),
        };
        let shown = format!("{letter} {} {} {}", gave.err().unwrap_or(0), shown_bytes(saved), sum(0, store));
        match self.afresh(ROOMS[2]) {
            Ok(answer) => format!("{shown} {} {}\n", answer.len(), shown_bytes(&answer)),
            Err(refusal) => format!("{shown} -{refusal}\n"),
        }
    }
}

/// What the program must print for an input.
pub fn expected(input: &[u8]) -> Bytes {
    let mut bench = Bench::new();
    printed(input, |line| match line {
        Line::Text(_) => panic!("no texts are read here"),
        Line::Numbers(letter, five) => bench.line(letter, five),
    })
}
