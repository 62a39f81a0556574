//! Lines about meters (02, item 5): what each call counts, refused ones between, and the limit; and the list of all lines about meters.
use crate::cases::meters::{Standing, all_taken, ends_and_middle, mixed, plain_key};
use crate::cases::{Cases, titled};
use crate::catalogue::{Catalogue, Even, Round, Short, Turn, adding, dated, has_dates, measured, plain, unmeasured};
use crate::meters::{MOST, filled};
use crate::samples::lengths::with_some;
use crate::samples::seasons::{SEASONS, UNREAL};
use crate::sizes::{key_length, pack_end, request_length, slot};

/// The lines about meters: catalogues of each code, in both sums, some with a season, some with lengths.
pub fn metering(cases: &mut Cases) {
    let (open, close) = SEASONS[0];
    let (short, turn) = (plain(Short, 5, 3, 1), adding(plain(Turn, 4, 2, 2)));
    let (even, round) = (measured(plain(Even, 3, 2, 1), &[9, 2]), plain(Round, 3, 2, 1));
    // in the turning code it is the middle mirror whose answer is empty
    for (c, key) in [(short, plain_key(short, 0)), (turn, plain_key(turn, 2)), (even, plain_key(even, 0)), (round, plain_key(round, 0))] {
        cases.counts(c, &key);
        (0..3).for_each(|turn| cases.forged(c, &key, &mixed(c, turn)));
        cases.forged(c, &key, &all_taken(c));
        cases.other_fields(unmeasured(c), &key);
        cases.limits(c, &key);
        cases.full_orders(dated(unmeasured(c), open, close), &key);
    }
    more_sizes(cases);
    // requests whose length goes into the limit, and into the limit and one; long ones
    let rows = [(Short, 3), (Turn, 5), (Short, 15), (Turn, 17), (Short, 2), (Turn, 4), (Short, 32)].map(|(code, k)| plain(code, 2, k, 1));
    let lists = [(Even, 2, 2), (Even, 2, 8), (Round, 2, 2), (Round, 2, 7)].map(|(code, n, k)| plain(code, n, k, 1));
    for c in rows.into_iter().chain(lists) {
        cases.limits(c, &plain_key(c, 1));
    }
    for (code, n, k, s) in [(Short, 3, 3, 2), (Turn, 3, 2, 1), (Even, 2, 3, 1), (Round, 3, 2, 1), (Short, 2, 2, 4096), (Even, 4, 2, 33), (Turn, 16, 32, 1)] {
        cases.session(Catalogue { add: s % 2 == 0, ..plain(code, n, k, s) }, 32);
        cases.put("M".to_string());
    }
}

/// Other sizes and other keys: by these no answer is empty; with 16 mirrors no place is left.
fn more_sizes(cases: &mut Cases) {
    let (open, close) = SEASONS[0];
    let short = dated(adding(plain(Short, 3, 2, 2)), open, close);
    let round = dated(measured(adding(plain(Round, 2, 3, 2)), &[8, 3, 7]), open, close);
    let (turn, even) = (with_some(plain(Turn, 3, 3, 1)), plain(Even, 2, 2, 3));
    for (i, (c, key)) in [(short, vec![2]), (round, vec![2, 0, 3, 1]), (turn, vec![1, 2, 1]), (even, plain_key(even, 0))].into_iter().enumerate() {
        cases.counts(c, &key);
        cases.forged(c, &key, &mixed(c, i));
        cases.other_fields(unmeasured(c), &key);
    }
    let most = plain(Short, 16, 2, 1);
    cases.forged(most, &[0], &mixed(most, 2));
    cases.full_orders(most, &[0]);
}

impl Cases {
    /// A fetch with every refusal of every call between its calls, its requests repeated, and its meters shown on the way: begun over a session with
    /// other meters, after a begin that was refused; all answers taken, recovered twice, issued to once more.
    pub fn counts(&mut self, c: Catalogue, key: &[u8]) {
        self.put(format!("# counts {}", titled(c)));
        let (asked, slots, pack) = (request_length(c), c.n * slot(c), pack_end(c, 1));
        self.stand(c, key, &all_taken(c));
        self.put(format!("U 0 77\nJ 15 4294967295\nb {}\nM\nU 15 4294967296\nJ 0 4294967297\nM\nb 1\nM", c.k));
        let begun = Standing::new(c, key, &vec![(0, false); c.n]);
        for p in ends_and_middle(c) {
            let answer = begun.called[p];
            // issues with room to spare, and each refusal of issue between them
            self.put(format!("i {p} {asked}\ni {p} {}", asked + 7));
            self.refused_between(&begun, key, &format!("i {p} {asked}"));
            self.put(format!("i {} {asked}\ni {p} {}\ni {p} {asked}\nM", c.n, asked - 1));
            // answers of other lengths, and each refusal of take
            self.refused_between(&begun, key, &format!("h {p} {answer} {slots}"));
            self.put(format!("h {p} {} {slots}\nh {} {answer} {slots}\nh {p} {answer} {}", answer + 1, c.n, slots - 1));
            self.put(format!("h {p} {answer} {}\nh {p} {answer} {slots}\ni {p} {asked}\nM", slots + 3));
            // each refusal of recover
            self.refused_between(&begun, key, &format!("r {slots} {pack}"));
            self.put(format!("r {slots} {}\nr {} {pack}", pack - 1, slots - 1));
        }
        for p in (0..c.n).filter(|p| !ends_and_middle(c).contains(p)) {
            self.put(format!("i {p} {asked}\nh {p} {} {slots}", begun.called[p]));
        }
        self.put(format!("r {slots} {pack}\nr {slots} {}\nM\ni 0 {asked}\nh 0 {} {slots}\nM", pack + 1, begun.called[0]));
    }

    /// A call with each fault of the session's fields, with a mark at a place of no mirror, and on days out of season.
    fn refused_between(&mut self, standing: &Standing, key: &[u8], call: &str) {
        let c = standing.c;
        for [set, undo] in self.session_faults(standing, key).into_iter().take(5) {
            self.put(format!("{set}\n{call}\n{undo}"));
        }
        if c.n < 16 {
            self.put(format!("u 15 1\n{call}\nu 15 0"));
        }
        if has_dates(c) && call.starts_with('i') {
            for day in [c.close, UNREAL[2]] {
                self.today(day);
                self.put(call.to_string());
            }
            self.today(c.open);
        }
    }

    /// Meters at the limit, below it and beyond it: 16 for a request that has no room in its meter, of that mirror alone and of no other call; the
    /// last one that has.
    pub fn limits(&mut self, c: Catalogue, key: &[u8]) {
        self.put(format!("# meters at their limit {}", titled(c)));
        let (asked, slots, pack) = (request_length(c), c.n * slot(c), pack_end(c, 1));
        let top = filled(asked, MOST);
        let standing = self.stand(c, key, &vec![(1, false); c.n]);
        for p in ends_and_middle(c) {
            let (other, called) = ((p + 1) % c.n, standing.called[p]);
            self.put(format!("U {p} {top}\ni {p} {asked}\ni {p} {}\ni {other} {asked}\nM", asked + 1));
            self.put(format!("U {p} {}\ni {p} {asked}\ni {p} {asked}\nM", top - asked));
            self.put(format!("U {p} {}\ni {p} {asked}\ni {p} {asked}\ni {p} {asked}\nr {slots} {pack}", top - 2 * asked));
            self.put(format!("h {p} {called} {slots}\ni {p} {asked}\nM"));
            // numbers near the limit that no requests come to, and the half of it
            for sent in [MOST, MOST - 1, top + 1, top - 1, top - asked + 1, 1 << 31, (1 << 31) - 1, filled(asked, 1 << 31)].into_iter().filter(|_| p == 0) {
                self.put(format!("U {p} {sent}\ni {p} {asked}\nr {slots} {pack}"));
            }
            self.put(format!("U {p} {asked}\nU {other} {asked}"));
        }
        // every meter full, and every answer taken
        for p in 0..c.n {
            self.put(format!("U {p} {top}\nj {p} 1\nJ {p} {}", standing.called[p]));
        }
        self.put(format!("i 0 {asked}\ni {} {asked}\nh 0 {} {slots}\nr {slots} {pack}\nM", c.n - 1, standing.called[0]));
    }

    /// 16 beside each other number that issue can give, which comes instead: 2, 17, 15, 13, 14, 3, 4, 6, 9, and 11 by a mark, by this meter and by others.
    pub fn full_orders(&mut self, c: Catalogue, key: &[u8]) {
        self.put(format!("# orders of 16 {}", titled(c)));
        let (asked, top) = (request_length(c), filled(request_length(c), MOST));
        let standing = self.stand(c, key, &mixed(c, 0));
        for (i, p) in ends_and_middle(c).into_iter().enumerate().filter(|&(_, p)| standing.issues[p] > 0) {
            let (full, call) = (format!("U {p} {top}"), format!("i {p} {asked}"));
            self.put(format!("{full}\n{call}\ni {} {asked}\ni {p} {}\ni 99 0\n{call}", c.n, asked - 1));
            for [set, undo] in self.session_faults(&standing, key) {
                self.put(format!("{set}\n{call}\ni {p} {}\n{undo}\n{call}", asked - 1));
            }
            for day in [c.close, UNREAL[i]].into_iter().filter(|_| has_dates(c)) {
                self.today(day);
                self.put(format!("{call}\ni 99 0"));
                self.today(c.open);
            }
            // 11 by the full meter itself, by the other meter, and by those of another mirror and of none
            let other = (p + 1) % c.n;
            for set in [format!("U {p} {MOST}"), format!("U {p} {}", MOST - 1), format!("J {p} {}", standing.got(p) + 1), format!("U {other} 1"),
                format!("J {other} {MOST}"), format!("u {p} 0"), "U 15 1".to_string(), "J 15 1".to_string()] {
                self.put(format!("{set}\n{call}\n{}\n{}\n{}\n{full}", standing.back(p), standing.back(other), standing.back(15)));
            }
            self.put(format!("{call}\nM\n{}\n{call}", standing.back(p)));
        }
        // a key of the wrong length is begin's, which counts nothing, and does not see the old meters
        self.put(format!("U 0 {top}\nk 0 {}\nb 1\nM\nk 0 {}\nb 1\nM", key_length(c) + 1, key_length(c)));
    }
}
