//! Lines about lengths (02, item 6).
use crate::cases::{Cases, some_answer, titled};
use crate::catalogue::{Catalogue, Even, Short, adding, dated, measured, plain, unmeasured};
use crate::samples::keys::fitted;
use crate::samples::lengths::{counted, counted_lines, ends, late_faults, length_faults, moved_lengths, other_lengths, placed, with_some};
use crate::samples::seasons::{A, B, UNREAL};
use crate::sizes::{pack_end, pack_length, request_length, slot};
use crate::text::{length_text, write_text};

impl Cases {
    /// Texts with lengths (02, item 6), in both codes and sums, with dates and without: good, written, before more lines, with other numbers of lines.
    pub fn length_texts(&mut self) {
        self.put("# texts with lengths".to_string());
        let codes = [plain(Short, 3, 3, 4), plain(Even, 2, 2, 2)];
        for c in codes.into_iter().flat_map(|c| [c, adding(c), dated(c, A, B), dated(adding(c), A, B)]) {
            let text = write_text(with_some(c));
            let rooms = [text.len(), text.len() - 1, text.len() - 9, text.len() + 3, 0];
            self.written(&text, &rooms, &["wanted=0\n", "length=1\n", if c.add { "length=" } else { "lengt" }]);
            for count in [0, 1, c.k - 1, 2 * c.k] {
                self.text(format!("{}{}", counted(c, count), if c.code == Even { "wanted=0\n" } else { "" }).as_bytes());
            }
        }
        for text in moved_lengths() {
            self.text(text.as_bytes());
        }
        let good = write_text(measured(dated(adding(plain(Short, 3, 2, 6)), A, B), &[7, 12]));
        for (from, to) in [("", ""), ("packs=2", "packs=000002"), ("piece=6", "piece=0000006"), ("mirrors=3", "mirrors=100003")] {
            self.text(good.replacen(from, to, 1).as_bytes());
        }
        self.damaged(&good, &good);
    }

    /// Numbers of lengths in texts: as many as packs and not, in bounds and out of them, with a fault besides; a later line that is out of form; then
    /// writing 32 of them.
    pub fn count_texts(&mut self) {
        self.put("# numbers of lengths".to_string());
        for (i, text) in counted_lines().into_iter().enumerate() {
            self.text(format!("{text}{}", if i % 3 == 2 { "wanted=0\n" } else { "" }).as_bytes());
        }
        for text in late_faults() {
            self.text(text.as_bytes());
        }
        self.text(counted(plain(Short, 2, 33, 4), 33).trim_end().as_bytes());
        for c in [plain(Short, 2, 32, 4), adding(plain(Short, 16, 32, 4096)), plain(Even, 2, 8, 4096)] {
            let text = write_text(with_some(c));
            self.written(&text, &[text.len(), text.len() - 1, text.len() + 1], &[]);
        }
    }

    /// What may stand in a line `length=`, in the first, a middle or the last one: each bound from both sides, in packs of one byte up to a million;
    /// with a single pack or an odd piece besides; out of form.
    pub fn number_texts(&mut self) {
        self.put("# lengths in texts".to_string());
        for (code, n, k, s) in [(Short, 3, 3, 4), (Short, 2, 2, 1), (Even, 2, 8, 4096), (Even, 3, 2, 3641), (Short, 16, 3, 4096)] {
            let c = with_some(plain(code, n, k, s));
            let whole = pack_length(c);
            for (i, number) in [0, 1, whole - 1, whole, whole + 1, 99999, 100000, 9999999, 10000000].into_iter().enumerate() {
                self.text(write_text(placed(c, i * (k - 1) % k, number)).as_bytes());
            }
            for place in [0, k / 2, k - 1].into_iter().filter(|_| s < 4096) {
                self.text(write_text(placed(c, place, 0)).as_bytes());
                self.text(write_text(placed(c, place, whole + 1)).as_bytes());
            }
        }
        let (one, odd) = (plain(Short, 2, 1, 4), adding(plain(Even, 2, 2, 3)));
        for c in [one, plain(Even, 2, 1, 3), adding(plain(Short, 3, 1, 3)), odd, plain(Even, 2, 2, 3), plain(Short, 1, 2, 4), plain(Short, 2, 2, 4097)] {
            let (start, whole) = (write_text(c), (c.n - 1) * c.s);
            for number in ["0", "1", &whole.to_string(), "9999", "9999999", "01"] {
                self.text(format!("{start}{}", length_text(&vec![number; c.k])).as_bytes());
            }
        }
        for text in other_lengths(measured(plain(Short, 3, 3, 6), &[7, 6, 12])) {
            self.text(text.as_bytes());
        }
    }

    /// Catalogue values with lengths, written and in begin: each fault of the lengths, and what is just none; with each other fault of a value
    /// besides; and then in every call.
    pub fn length_values(&mut self, c: Catalogue) {
        self.put(format!("# lengths in values {}", titled(c)));
        self.catalogue(c);
        self.lend(c);
        let (good, faulty) = (with_some(c), length_faults(c));
        let ends = [0, c.k / 2, c.k - 1].into_iter().flat_map(|p| [1, pack_length(c)].map(|length| placed(good, p, length)));
        for c in [c, good].into_iter().chain(ends).chain(faulty.iter().copied()) {
            self.catalogue(c);
            self.put(format!("w 120\nb {}", c.k - 1));
        }
        for c in [0, 3, 4, 5, 6, 8, 10, 12].map(|i| faulty[i]).into_iter().chain([good]) {
            let (one, odd) = (Catalogue { k: 1, ..c }, Catalogue { s: 7, ..adding(c) });
            let single = placed(Catalogue { measured: c.measured, ..measured(one, &c.lengths[..1]) }, 1, c.lengths[c.k]);
            for c in [Catalogue { n: 17, ..c }, odd, one, single, Catalogue { s: 7, ..adding(single) }] {
                self.catalogue(c);
                self.put("w 0\nb 9".to_string());
            }
        }
        for c in [good, faulty[0], faulty[5], faulty[8]] {
            self.given_values(c, c);
        }
        self.held_values(good, &[faulty[1], faulty[4], faulty[6], faulty[10], good]);
        self.held_values(c, &[faulty[7], good, c]);
    }

    /// Places at the end of a value: 32 packs fill them all, 31 leave the last one.
    pub fn last_places(&mut self) {
        self.put("# lengths of 31 and 32 packs".to_string());
        for c in [plain(Short, 2, 32, 40), plain(Short, 2, 31, 40), adding(plain(Short, 16, 32, 4096)), plain(Even, 2, 8, 4096)] {
            let (good, whole) = (with_some(c), pack_length(c));
            self.catalogue(good);
            self.lend(fitted(c, 40));
            for (place, number) in [30, 31, c.k - 1].into_iter().flat_map(|place| [0, 1, whole, whole + 1].map(|number| (place, number))) {
                self.catalogue(placed(good, place, number));
                self.put("w 700\nb 1".to_string());
            }
            for c in [placed(c, 31, 1), placed(c, 30, 1), measured(c, &[]), c] {
                self.catalogue(c);
                self.put("w 700\nb 1".to_string());
            }
        }
    }

    /// 2 by a length before 13 and 14, which come as ever where the lengths are good; issue, answering, and a whole fetch.
    pub fn length_days(&mut self, c: Catalogue) {
        self.put(format!("# lengths and days {}", titled(c)));
        let (asked, room, slots, pack) = (request_length(c), slot(c), c.n * slot(c), pack_end(c, 1));
        let taken = some_answer(c, 0);
        self.today(c.open);
        self.all_taken(c);
        for day in [c.open, c.close, UNREAL[2]] {
            self.today(day);
            for c in [c, unmeasured(c), placed(c, 0, 0), placed(c, c.k, 1), Catalogue { measured: false, ..c }, placed(c, 1, pack_length(c) + 1)] {
                self.catalogue(c);
                self.put(format!("a 0 {asked} {room}\na 17 0 0\nx 1\nx 1 {}", pack_length(c) - pack + 1));
                self.hold(c);
                self.put(format!("i 0 {asked}\ni 17 0\nh 0 {taken} {slots}\nr {slots} {pack}\nr {slots} {}", pack - 1));
            }
        }
    }

    /// Whole fetches of packs with these lengths, so many at a time as there are packs: into room for the whole, for the length, and for a byte less.
    pub fn cut_fetches(&mut self, c: Catalogue, lengths: &[usize]) {
        self.catalogue(c);
        self.lend(c);
        for start in (0..lengths.len()).step_by(c.k) {
            let some: Vec<usize> = lengths.iter().cycle().skip(start).take(c.k).copied().collect();
            self.catalogue(measured(c, &some));
            for (wanted, length) in some.into_iter().enumerate() {
                let spare = pack_length(c) - length;
                self.put(format!("x {wanted}\nx {wanted} {spare}\nx {wanted} {}", spare + 1));
            }
        }
    }

    /// Fetches of packs that end at, before and behind the end of each piece, where there are few of them, else of some: in both codes and sums, with
    /// pieces of one byte, of one word and long ones, and the largest packs; the answer buffer is full of ones before.
    pub fn length_fetches(&mut self) {
        self.put("# fetches with lengths\nz 255".to_string());
        self.today(A);
        let short = [(2, 2, 1), (3, 3, 1), (4, 3, 5), (3, 2, 4), (5, 4, 2), (2, 3, 4095)].map(|(n, k, s)| plain(Short, n, k, s));
        let even = [(2, 2, 3), (2, 3, 2), (3, 2, 4), (3, 3, 1), (2, 8, 2), (16, 2, 1), (4, 2, 4096)].map(|(n, k, s)| plain(Even, n, k, s));
        for c in short.into_iter().chain(even).chain([fitted(plain(Even, 2, 8, 1), 4096), plain(Short, 16, 2, 4096)]) {
            let c = Catalogue { add: c.s % 2 == 0, ..c };
            self.cut_fetches(c, &ends(c));
        }
        self.cut_fetches(dated(plain(Short, 4, 3, 4), A, B), &[1, 6, 12, 5, 8, 11]);
        // 32 packs of other lengths each
        self.cut_fetches(plain(Short, 5, 32, 9), &(1..=36).rev().collect::<Vec<_>>());
        self.cut_fetches(adding(plain(Short, 16, 32, 4)), &(29..=60).collect::<Vec<_>>());
        // without the lines: the whole pack, as ever
        for c in [plain(Short, 4, 3, 5), adding(plain(Even, 2, 3, 2))] {
            self.catalogue(c);
            self.lend(c);
            self.put(format!("x 1\nx 1 0\nx 1 1\nx 2 {}\nx 2 {}\nx {} 1", pack_length(c), pack_length(c) + 1, c.k));
        }
    }
}
