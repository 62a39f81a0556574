//! Lines about the round code (02, item 8).
use crate::Bytes;
use crate::cases::{Cases, some_answer, titled};
use crate::catalogue::{Catalogue, Round, adding, dated, measured, plain};
use crate::codes::request;
use crate::draws::drawn_key;
use crate::samples::keys::{all_round, fitted};
use crate::samples::lengths::{counted, ends, placed, with_some};
use crate::samples::lines::OTHER_ROUNDS;
use crate::samples::seasons::{A, B};
use crate::sizes::{key_length, pack_length, request_length, slot, varieties};
use crate::text::write_text;

/// A change of a request: the places and their new values.
type Change = Vec<(usize, u8)>;

impl Cases {
    /// Texts: good with each line that there may be, written, before more lines; out of bounds; other words.
    pub fn round_texts(&mut self) {
        self.put("# texts of the round code".to_string());
        let (least, most, good) = (plain(Round, 2, 2, 1), plain(Round, 8, 3, 4096), plain(Round, 3, 3, 4));
        for c in [least, adding(most), plain(Round, 2, 7, 9), good, dated(good, A, B), with_some(dated(adding(plain(Round, 5, 2, 6)), A, B))] {
            let text = write_text(c);
            self.written(&text, &[text.len(), text.len() - 1, text.len() + 3, 0], &["wanted=0\n", "code=round\n"]);
        }
        let faulty = [Catalogue { n: 17, ..least }, Catalogue { k: 8, ..least }, Catalogue { k: 1, ..least }, Catalogue { k: 0, ..least }, adding(least),
            Catalogue { s: 4097, ..most }, Catalogue { k: 4, ..most }, measured(least, &[3, 2]), measured(least, &[2, 0]), measured(least, &[2, 2])];
        for c in faulty {
            self.text(write_text(c).as_bytes());
        }
        // as many lengths as packs and not, in bounds and out of them
        let counts = [(2, 7, 6), (2, 7, 7), (2, 7, 8), (2, 8, 7), (2, 8, 8), (2, 8, 9), (3, 5, 5), (3, 5, 4), (2, 33, 33), (2, 33, 32), (17, 2, 2), (2, 1, 1)];
        for (n, k, count) in counts.into_iter().chain([(2, 1, 2), (2, 0, 1)]) {
            self.text(counted(plain(Round, n, k, 4), count).as_bytes());
        }
        let text = write_text(good);
        for line in OTHER_ROUNDS {
            self.text(text.replacen("code=round\n", line, 1).as_bytes());
        }
        self.damaged(&text, "code=round\n");
    }

    /// Each bound from both sides, for every N; numbers of packs whose blocks no number of 32 or 64 bits can count.
    pub fn round_bounds(&mut self) {
        self.put("# bounds of the round code".to_string());
        for (n, k) in [0, 1, 17, 64, 65, 99999].into_iter().flat_map(|n| [(n, 2), (n, 1)]) {
            self.catalogue(plain(Round, n, k, 9));
        }
        for n in 2..=16 {
            let most = all_round().iter().filter(|c| c.n == n).map(|c| c.k).max().unwrap();
            for k in [0, 1, 2, most, most + 1, most + 2] {
                self.catalogue(plain(Round, n, k, 4096));
            }
        }
        for (n, k) in [2, 4, 16].into_iter().flat_map(|n| [9, 17, 18, 32, 33, 34, 64, 65, 66, 129, 257, 99999, 999999999].map(|k| (n, k))) {
            self.catalogue(plain(Round, n, k, 1));
        }
        for s in [0, 1, 2, 4095, 4096, 4097, 99999] {
            self.catalogue(plain(Round, 3, 2, s));
            self.catalogue(adding(plain(Round, 3, 2, s)));
        }
        for (n, k, s) in [(3, 1, 3), (3, 5, 3), (17, 2, 3), (2, 7, 3), (2, 7, 4)] {
            self.catalogue(adding(plain(Round, n, k, s)));
        }
    }

    /// Lengths at their ends, of every N and K with the longest pieces, the largest pack of all among them: in texts and in values.
    pub fn round_lengths(&mut self) {
        self.put("# lengths of the round code".to_string());
        for (i, c) in all_round().into_iter().enumerate() {
            let c = Catalogue { s: 4096, add: i % 2 == 0, ..c };
            let (whole, pack) = (pack_length(c), i % c.k);
            for length in [1, whole, whole + 1, 0] {
                let c = placed(measured(c, &vec![1; c.k]), pack, length);
                self.text(write_text(c).as_bytes());
                self.catalogue(c);
            }
        }
        let most = with_some(plain(Round, 8, 3, 4096));
        assert_eq!(pack_length(most), 1_835_008);
        for (pack, length) in (0..3).flat_map(|pack| [1_835_007, 1_835_008, 1_835_009, 9_999_999, 10_000_000].map(|length| (pack, length))) {
            self.text(write_text(placed(most, pack, length)).as_bytes());
            self.catalogue(placed(most, pack, length));
        }
        self.optional(plain(Round, 2, 2, 1));
    }

    /// Table IV of 000: two packs of two bits, a byte for each.
    pub fn table_4(&mut self) {
        self.put("# 000, table IV".to_string());
        let c = plain(Round, 2, 2, 1);
        self.catalogue(c);
        self.put("s 1 4\nd 0 1\nd 1 2\nd 2 4\nd 3 8".to_string());
        for (first, second, wanted) in [(0, 1, 0), (1, 0, 0), (0, 1, 1), (1, 0, 1)] {
            self.put(format!("k 0 2\no 0 {first}\no 1 {second}\nb {wanted}\ni 0 4\na 0 4 1\na 0 4 2\ni 1 4\na 1 4 2\na 1 4 1\nx {wanted}"));
        }
    }

    /// Lists of rows: of two mirrors and two packs all that there are, with digits up to 2; then, of every N and K at every mirror, one that is admitted, and
    /// what spoils it.
    pub fn round_lists(&mut self) {
        self.put("# lists of the round code".to_string());
        let c = plain(Round, 2, 2, 1);
        self.catalogue(c);
        self.lend(c);
        for x in 0..81 {
            self.put(format!("q 0 {}\nq 1 {}\nq 2 {}\nq 3 {}\na 0 4 2\na 1 4 2", x / 27, x / 9 % 3, x / 3 % 3, x % 3));
        }
        for c in all_round() {
            self.spoiled_lists(c);
        }
    }

    fn spoiled_lists(&mut self, c: Catalogue) {
        let (asked, store, seed, wanted) = (request_length(c), 1 + self.draw.below(9999), 1 + self.draw.below(9999), self.draw.below(c.k));
        let key = drawn_key(seed as u64, c, key_length(c));
        self.catalogue(c);
        self.put(format!("s {store} {}\nk {seed} {}\nb {wanted}", c.k * pack_length(c), key_length(c)));
        for mirror in 0..c.n {
            let (sent, at) = (request(c, wanted, mirror, &key), self.draw.below(varieties(c)));
            self.put(format!("i {mirror} {asked}\na {mirror} {asked} {}", slot(c)));
            for other in (0..c.n).filter(|&other| other != mirror && (c.n < 5 || other < 2 || other == (mirror + 1) % c.n)) {
                self.put(format!("a {other} {asked} 0"));
            }
            let lengths = [asked - 1, asked + 1, asked - c.k, asked + c.k, c.k, 0];
            lengths.into_iter().for_each(|length| self.put(format!("a {mirror} {length} 0")));
            for (change, room) in self.changes(c, &sent, at) {
                let lines = |from: &dyn Fn(usize, u8) -> u8| change.iter().map(|&(i, x)| format!("q {i} {}\n", from(i, x))).collect::<String>();
                self.put(format!("{}a {mirror} {asked} {room}\n{}", lines(&|_, x| x), lines(&|i, _| sent[i]).trim_end()));
            }
        }
    }

    /// Changes of a list at one of its rows, each with the room that is lent: rows exchanged, which spoil nothing; the row of another place in its own; rows of
    /// other mirrors, alone or in two places that make up for each other; digits exchanged or N and more; zeros throughout, of short lists;
    /// and rows at the ends of the mirror's set repeated.
    fn changes(&mut self, c: Catalogue, sent: &[u8], at: usize) -> Vec<(Change, usize)> {
        let (n, k, v) = (c.n as u8, c.k, varieties(c));
        let (digit, next) = (self.draw.below(k), (at + 1 + self.draw.below(v - 1)) % v);
        let (here, there) = (at * k, next * k);
        let row = |to: usize, from: usize| (0..k).map(|i| (to + i, sent[from + i])).collect::<Change>();
        let up = |place: usize| (place, (sent[place] + 1) % n);
        let down = |place: usize| (place, (sent[place] + n - 1) % n);
        let mut all = vec![
            ([row(here, there), row(there, here)].concat(), slot(c)),
            (row(here, there), 0),
            (vec![up(here + digit)], 0),
            (vec![up(here + digit), down(there + digit)], 0),
            (vec![up(here), down(here + k - 1)], 0),
            (vec![(here + digit, sent[here + digit] + n)], 0),
            (vec![(here + digit, n)], 0),
            (vec![(here + digit, 255)], 0),
        ];
        if sent.len() < 32 {
            all.push(((0..sent.len()).map(|i| (i, 0)).collect(), 0));
        }
        // rows at the ends of the set, by their digits but the first and by those but the last, once more in the last row's place, or in the first's
        let at_an_end = |digits: &[u8]| digits.iter().all(|&d| d == 0) || digits.iter().all(|&d| d == n - 1);
        for p in (0..v).filter(|p| at_an_end(&sent[p * k + 1..p * k + k]) || at_an_end(&sent[p * k..p * k + k - 1])) {
            all.push((row(if p == v - 1 { 0 } else { (v - 1) * k }, p * k), 0));
        }
        all
    }

    /// A key entry by entry, behind which the next bytes stay as they are.
    fn entries(&mut self, c: Catalogue, key: &[u8]) {
        self.put(format!("k 0 {}", key.len()));
        for (place, &entry) in key.iter().enumerate().filter(|&(place, &entry)| place % key_length(c) != entry as usize) {
            self.put(format!("o {place} {entry}"));
        }
    }

    /// Keys: all of two and of three entries, whether permutations or not; of every N and K an entry twice, one of V and more, and the lengths beside V.
    pub fn round_keys(&mut self) {
        self.put("# keys of the round code".to_string());
        for (n, entries) in [(2, 2), (3, 3)] {
            let c = plain(Round, n, 2, 1);
            self.catalogue(c);
            for x in 0..(entries + 1usize).pow(entries as u32) {
                let key: Bytes = (0..entries as u32).map(|place| (x / (entries + 1).pow(place) % (entries + 1)) as u8).collect();
                self.entries(c, &key);
                self.put("b 1".to_string());
            }
        }
        for c in all_round() {
            let (v, seed) = (varieties(c), 1 + self.draw.below(9999));
            let (key, place) = (drawn_key(seed as u64, c, key_length(c)), self.draw.below(v));
            self.catalogue(c);
            let whole = format!("k {seed} {v}");
            for entry in [key[(place + 1) % v] as usize, v, key[place] as usize + 64, key[place] as usize + 128, 255, 0, v - 1] {
                self.put(format!("{whole}\no {place} {entry}\nb {}", entry % c.k));
            }
            for length in [v - 1, v, v + 1, 0, 2 * v, c.k - 1] {
                self.put(format!("k {seed} {length}\nb 0\nb {}", c.k));
            }
        }
    }

    /// Answers taken and the pack recovered: lengths beside the right one, which for mirror 0 is a piece less, by each key of small catalogues, or by one; the
    /// buffer full of other bytes before, of which those behind mirror 0's answer stay.
    pub fn round_takes(&mut self) {
        for (n, k, s) in [(2, 2, 3), (3, 2, 2), (2, 3, 4), (4, 2, 1), (3, 3, 2), (2, 7, 1), (9, 2, 2), (5, 3, 1)] {
            let c = Catalogue { add: s % 2 == 0, ..plain(Round, n, k, s) };
            self.put(format!("# answers of the round code {}", titled(c)));
            self.catalogue(c);
            self.lend(c);
            let wanted = self.draw.below(k);
            for fill in [0, 255, 90] {
                self.put(format!("z {fill}\nb {wanted}"));
                (0..n).for_each(|mirror| self.taken_beside(c, mirror, fill == 0));
                let (slots, pack) = (n * slot(c), pack_length(c));
                self.put(format!("r {slots} {pack}\nr {slots} {}\nr {slots} {}\nr {} {pack}\nr {slots} {pack}", pack + 3, pack - 1, slots - 1));
            }
        }
    }

    /// A mirror's answer, with room for it alone, and taken; where all is tried, with other lengths of room and answer before.
    fn taken_beside(&mut self, c: Catalogue, mirror: usize, all: bool) {
        let (asked, slots, right) = (request_length(c), c.n * slot(c), some_answer(c, mirror));
        if all {
            self.put(format!("h {mirror} {right} {slots}\nr {slots} {}", pack_length(c)));
        }
        self.put(format!("i {mirror} {asked}\na {mirror} {asked} {}\na {mirror} {asked} {right}", right - 1));
        for length in [right - 1, right + 1, right - c.s, right + c.s, 0].into_iter().filter(|_| all) {
            self.put(format!("h {mirror} {length} {slots}"));
        }
        self.put(format!("h {mirror} {right} {}\nh {mirror} {right} {slots}\nh {mirror} {right} {slots}", slots - 1));
    }

    /// Whole fetches of every N and K, every wanted pack, in both sums; by keys in order, from the last entry down, and moved on, so that mirror 0's row of
    /// zeros comes first, last and between; in season and out of it; packs with lengths.
    pub fn round_fetches(&mut self) {
        self.put("# fetches of the round code\nz 255".to_string());
        let sizes = [1, 2, 7, 3, 64, 33, 8, 100, 17];
        for (i, c) in all_round().into_iter().enumerate() {
            self.fetches_of(fitted(c, sizes[i % sizes.len()]));
            self.added_fetches_of(i, c);
            self.moved_keys(fitted(c, 1 + i % 3));
        }
        for (n, k) in [(2, 2), (3, 2), (2, 4), (3, 3), (5, 2)] {
            let c = plain(Round, n, k, 4096);
            assert_eq!(fitted(c, 4096), c);
            self.fetches_of(c);
            self.fetches_of(adding(c));
        }
        for (i, (n, k, s)) in [(2, 2, 1), (3, 2, 4096), (2, 5, 6), (16, 2, 2)].into_iter().enumerate() {
            self.season_fetches_of(i, plain(Round, n, k, s));
        }
        for c in [plain(Round, 2, 2, 5), plain(Round, 2, 3, 3), adding(plain(Round, 3, 2, 4)), plain(Round, 4, 3, 2), adding(plain(Round, 3, 3, 4096))] {
            self.cut_fetches(c, &ends(c));
        }
    }

    fn moved_keys(&mut self, c: Catalogue) {
        let v = varieties(c);
        let mut key: Bytes = (0..v as u8).rev().collect();
        self.catalogue(c);
        self.lend(c);
        for moved in (0..v).filter(|&moved| v < 10 || [0, 1, v / 2, v - 1].contains(&moved)) {
            key.rotate_left(moved);
            self.entries(c, &key);
            self.put(format!("x {}", moved % c.k));
            key.rotate_right(moved);
        }
    }
}
