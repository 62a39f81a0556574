//! Lines about the turning code (02, item 4).
use crate::cases::Cases;
use crate::catalogue::{Catalogue, Turn, adding, dated, measured, plain};
use crate::samples::keys::{fitted, some};
use crate::samples::lengths::{ends, with_some};
use crate::samples::lines::OTHER_CODES;
use crate::samples::seasons::{A, B};
use crate::sizes::pack_length;
use crate::text::write_text;

impl Cases {
    /// Texts of the turning code (02, item 4): good with each line that it may have, written, before more lines; out of bounds; other words.
    pub fn turn_texts(&mut self) {
        self.put("# texts of the turning code".to_string());
        let (least, most) = (plain(Turn, 2, 2, 1), plain(Turn, 16, 32, 4096));
        let (good, middle) = (plain(Turn, 3, 3, 4), plain(Turn, 5, 2, 6));
        for c in [least, adding(most), good, dated(good, A, B), with_some(dated(adding(middle), A, B))] {
            let text = write_text(c);
            self.written(&text, &[text.len(), text.len() - 1, text.len() + 3, 0], &["wanted=0\n"]);
        }
        for c in [Catalogue { n: 17, ..least }, Catalogue { k: 33, ..most }, Catalogue { k: 1, ..least }, adding(least), measured(good, &[8, 9, 8])] {
            self.text(write_text(c).as_bytes());
        }
        let text = write_text(good);
        for line in OTHER_CODES {
            self.text(text.replacen("code=turn\n", line, 1).as_bytes());
        }
        self.damaged(&text, "code=turn\n");
    }

    /// Each bound of the turning code from both sides, and its sizes for every N.
    pub fn turn_bounds(&mut self) {
        self.put("# bounds of the turning code".to_string());
        for (n, k) in [0, 1, 17, 99999].into_iter().flat_map(|n| [(n, 5), (n, 1)]) {
            self.catalogue(plain(Turn, n, k, 9));
        }
        for (n, k) in (2..=16).map(|n| (n, 2 + n * 7 % 30)).chain([0, 1, 2, 31, 32, 33, 99999].map(|k| (3, k))) {
            self.catalogue(plain(Turn, n, k, 9));
        }
        for s in [0, 1, 2, 4095, 4096, 4097, 99999] {
            self.catalogue(plain(Turn, 3, 2, s));
            self.catalogue(adding(plain(Turn, 3, 2, s)));
        }
        self.catalogue(adding(plain(Turn, 3, 1, 3)));
    }

    /// Every row of two digits below 4 at each of three mirrors, so that digits of 3 are refused and no sum of the others is; rows of other lengths; in
    /// a row of 32, digits at their bound and beyond, in the first, a middle and the last place; and one mirror's request at all others.
    pub fn turn_rows(&mut self) {
        self.put("# rows of the turning code".to_string());
        let (c, last) = (plain(Turn, 3, 2, 1), plain(Turn, 16, 32, 1));
        self.catalogue(c);
        self.lend(c);
        for x in 0..16 {
            self.put(format!("q 0 {}\nq 1 {}\na 0 2 1\na 1 2 1\na 2 2 1", x / 4, x % 4));
        }
        self.put("q 0 1\nq 1 2\nq 2 0\na 0 1 1\na 0 3 1\na 1 0 1\na 3 2 1\nq 1 255\na 1 2 1".to_string());
        self.catalogue(last);
        self.lend(last);
        self.put("b 7\ni 5 32".to_string());
        for mirror in 0..16 {
            self.put(format!("a {mirror} 32 1"));
        }
        for (place, digit) in [0, 13, 31].into_iter().flat_map(|place| [15, 16, 255, 0].map(|digit| (place, digit))) {
            self.put(format!("q {place} {digit}\na {} 32 1", place % 16));
        }
    }

    /// Whole fetches by every turn of every N, in both sums: the other digits zeros, so that each mirror once has the empty answer and its slot bytes
    /// from before; then one of them another.
    pub fn turns(&mut self) {
        self.put("# turns\nz 255".to_string());
        for (n, add) in (2..=16).flat_map(|n| [(n, false), (n, true)]) {
            let k = 2 + (n + add as usize) % 3;
            let c = Catalogue { add, ..plain(Turn, n, k, 1 + add as usize) };
            self.catalogue(c);
            self.put(format!("s {} {}", n + k, k * pack_length(c)));
            for turn in 0..n {
                let (wanted, place, digit) = (self.draw.below(k), self.draw.below(k - 1), 1 + self.draw.below(n - 1));
                self.put(format!("k 0 {k}\no {} {turn}\nx {wanted}\no {place} {digit}\nx {wanted}", k - 1));
            }
        }
    }

    /// The empty answer at every mirror of every N: a whole one is refused there with 10, no bytes are taken. Of up to four mirrors all calls of the
    /// fetch, at every mirror with an answer of either length, and what is recovered from a buffer full of other bytes. Then a turn of N.
    pub fn empty_answers(&mut self) {
        self.put("# empty answers\nz 90".to_string());
        for n in 2..=16 {
            let c = plain(Turn, n, 2, 1);
            self.catalogue(c);
            self.put(format!("s {n} {}\nk 0 2", 2 * (n - 1)));
            for turn in 0..n {
                // the mirror that so many steps bring to the start of the circle
                let mirror = (0..n).cycle().skip(turn).position(|part| part == 0).unwrap();
                self.put(format!("o 1 {turn}\nb {}\ni {mirror} 2\nh {mirror} 1 {n}\nh {mirror} 0 {n}", turn % 2));
                for other in (0..n).filter(|_| n < 5) {
                    self.put(format!("i {other} 2\na {other} 2 1\nh {other} 1 {n}\nh {other} 0 {n}"));
                }
                if n < 5 {
                    self.put(format!("r {n} {0}\nh {mirror} 0 {n}\nr {n} {0}\nz {1}", n - 1, 91 + turn));
                }
            }
            self.put(format!("o 1 {n}\nb 1"));
        }
        // a digit short and one too many come before a bad digit
        self.put("k 0 1\no 0 16\nb 0\nk 0 3\no 1 16\nb 0".to_string());
    }

    /// Whole fetches of the turning code as of the short one: a spread of K, in both sums; in season and out of it; packs with lengths.
    pub fn turn_fetches(&mut self) {
        self.put("# fetches of the turning code".to_string());
        let sizes = [1, 4096, 3, 33, 1000];
        for (i, c) in some(Turn, &[2, 31]).into_iter().enumerate() {
            self.fetches_of(fitted(c, sizes[i % sizes.len()]));
        }
        for (i, c) in some(Turn, &[3, 32]).into_iter().enumerate() {
            self.added_fetches_of(i, c);
        }
        for (i, (n, k, s)) in [(2, 2, 1), (3, 3, 4096), (16, 32, 2)].into_iter().enumerate() {
            self.season_fetches_of(i, plain(Turn, n, k, s));
        }
        for c in [plain(Turn, 4, 3, 5), adding(plain(Turn, 3, 2, 4))] {
            self.cut_fetches(c, &ends(c));
        }
    }
}
