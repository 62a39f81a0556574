//! Lines about values: the bench cards' bytes, words that carry and borrow in every place of an answer, and values that stay as they are.
use crate::cases::Cases;
use crate::catalogue::{Even, Round, Short, Turn, adding, plain};
use crate::codes::answer_length;
use crate::corrections::Edit;
use crate::samples::edits::{every_byte, place};

/// Words that are saved: all that one more or one less, in either byte, changes both bytes of, and others.
const WORDS: [u16; 10] = [0x0000, 0x00FF, 0x0100, 0xFF00, 0xFFFF, 0x7FFF, 0x8000, 0x00FE, 0xFEFF, 0x1234];

/// A byte before and after.
const MOVES: [(u8, u8); 9] = [(0, 1), (1, 0), (0, 255), (255, 0), (127, 128), (128, 127), (254, 255), (3, 250), (9, 9)];

impl Cases {
    /// The store of bench card B2, and the requests of B2, B3 and B7.
    pub fn cards(&mut self) {
        for code in [Short, Turn] {
            self.open_catalogue("the packs of B2", plain(code, 2, 2, 1));
            self.put("d 0 90\nd 1 195".into());
            for (mirror, request) in [(0, [1, 1]), (1, [0, 1]), (1, [1, 0]), (0, [0, 0])] {
                self.saved(0, plain(code, 2, 2, 1), mirror, &request);
                for (pack, value) in [(0, 91), (0, 90), (1, 60), (1, 195)] {
                    self.both(Edit { pack, piece: 0, byte: 0, value });
                    self.put("A".into());
                }
            }
        }
        let c = plain(Even, 2, 2, 1);
        self.open_catalogue("the requests of B7", c);
        for (mirror, request) in [(0, [0, 0, 2, 1]), (1, [1, 1, 3, 0])] {
            self.saved(0, c, mirror, &request);
            for piece in 0..4 {
                self.both(Edit { pack: 0, piece, byte: 0, value: 200 });
                self.put("A".into());
                self.both(Edit { pack: 1, piece, byte: 0, value: 100 });
                self.put("A".into());
            }
        }
    }

    /// Each of the words saved and each of the moves, in each byte of a piece of two words, of which the other has bytes that a carry would change.
    pub fn words_of_rows(&mut self) {
        let c = adding(plain(Short, 2, 2, 4));
        self.open_catalogue("words and moves", c);
        self.request_bytes(0, &[1, 1]);
        self.choose(0, 0, 2, 4);
        for (i, word) in WORDS.into_iter().enumerate() {
            for (j, (old, value)) in MOVES.into_iter().enumerate() {
                for byte in 0..4 {
                    let edit = Edit { pack: (i + j) % 2, piece: 0, byte, value };
                    let [low, high] = word.to_le_bytes();
                    let other = [0, 255][(i + j + byte) % 2];
                    let four = if byte < 2 { [low, high, other, other] } else { [other, other, low, high] };
                    self.put(format!("d {} {old}", place(c, edit)));
                    self.edit(edit);
                    let call = if (i + j + byte) % 3 == 0 { "Y" } else { "X" };
                    self.put(four.iter().enumerate().map(|(i, b)| format!("y {i} {b}\n")).collect::<String>() + call);
                }
            }
        }
    }

    /// Words that carry and borrow in answers of many rows, all of whose other bytes are 0 or 255: in the first row, the last one and between.
    pub fn word_pairs(&mut self) {
        for (code, n, k, mirror) in [(Even, 2, 2, 1), (Even, 3, 2, 2), (Round, 3, 2, 0), (Round, 3, 2, 1), (Round, 2, 3, 0), (Turn, 3, 3, 2)] {
            let c = adding(plain(code, n, k, 2));
            self.open_catalogue("words of many rows", c);
            let request = self.some_request(c, mirror);
            let length = answer_length(c, &request);
            self.saved(0, c, mirror, &request);
            for (i, edit) in every_byte(c).into_iter().enumerate() {
                let (other, (old, value)) = ([0, 255][i / 2 % 2], MOVES[i % MOVES.len()]);
                self.put((0..length).map(|i| format!("y {i} {other}\n")).collect::<String>() + &format!("d {} {old}", place(c, edit)));
                self.edit(Edit { value, ..edit });
                self.put("X".into());
            }
        }
    }

    /// The new value is the old one: nothing moves, also in a wrong answer.
    pub fn same_values(&mut self) {
        for (code, n, k, s, mirror) in [(Short, 3, 2, 2, 1), (Turn, 2, 3, 4, 0), (Even, 2, 2, 2, 0), (Round, 3, 2, 2, 2)] {
            for c in [plain(code, n, k, s), adding(plain(code, n, k, s))] {
                self.open_catalogue("the same value", c);
                let request = self.some_request(c, mirror);
                self.saved(0, c, mirror, &request);
                for (i, edit) in every_byte(c).into_iter().enumerate().step_by(3) {
                    let value = (i * 37 % 256) as u8;
                    self.put(format!("d {} {value}\nA", place(c, edit)));
                    self.both(Edit { value, ..edit });
                    self.both_wrong(Edit { value, ..edit }, answer_length(c, &request));
                }
            }
        }
    }
}
