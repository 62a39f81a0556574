//! Lines about days and seasons (02, item 1).
use crate::cases::{Cases, some_answer, titled};
use crate::catalogue::{Catalogue, Even, Short, adding, dated, plain, undated};
use crate::codes::request;
use crate::days::{Day, NO_DAY, later, spelled};
use crate::draws::drawn_key;
use crate::samples::seasons::{A, B, EDGES, FIRST, HUGE, LAST, PAIRS, PARTS, SEASONS, UNREAL, month_ends, moved_lines, other_lines};
use crate::sizes::{key_length, pack_end, pack_length, request_length, slot};
use crate::text::{season_text, write_text};

impl Cases {
    /// Texts with the lines of a season (02, item 1): good, written, before more lines, and then in calls; damaged and misplaced.
    pub fn season_texts(&mut self) {
        self.put("# texts with a season".to_string());
        for (i, (code, n, k, s)) in [(Short, 2, 2, 2), (Short, 16, 32, 4096), (Even, 2, 8, 128), (Even, 16, 2, 10)].into_iter().enumerate() {
            let (open, close) = SEASONS[i];
            let text = write_text(Catalogue { add: i % 2 == 1, ..dated(plain(code, n, k, s), open, close) });
            let rooms = [text.len(), text.len() - 1, text.len() - 33, text.len() + 3];
            let more = ["wanted=0\n", "open=2024-01-01\nclose=2025-01-01\n", "open=", "close=2025-01-01\n", "sum=add\n", "sum=xor\n"];
            self.written(&text, &rooms, &more);
        }
        // the dates of a text in calls
        for (c, (open, close)) in [plain(Short, 3, 3, 4), adding(plain(Even, 2, 3, 2))].into_iter().zip(SEASONS) {
            self.text(write_text(dated(c, open, close)).as_bytes());
            self.lend(c);
            for day in [open, close, NO_DAY] {
                self.today(day);
                self.put("b 2\nx 1".to_string());
            }
        }
        let good = write_text(dated(plain(Short, 3, 3, 4), A, B));
        let lines = season_text(&spelled(A), &spelled(B));
        for to in other_lines() {
            self.text(good.replacen(&lines, &to, 1).as_bytes());
        }
        for (from, to) in moved_lines() {
            self.text(good.replacen(&from, &to, 1).as_bytes());
        }
        self.damaged(&good, &lines);
    }

    /// Days in texts: real and unreal ones in each line, the ends of the months, opening before closing and not; with a fault of the value or a byte
    /// too many besides.
    pub fn day_texts(&mut self) {
        self.put("# days in texts".to_string());
        let (short, even) = (plain(Short, 2, 2, 2), plain(Even, 2, 2, 2));
        for &day in UNREAL.iter().chain(&EDGES) {
            self.text(write_text(dated(short, day, LAST)).as_bytes());
            self.text(write_text(dated(even, FIRST, day)).as_bytes());
        }
        for two in month_ends(2023).chunks(2) {
            self.text(write_text(dated(short, two[0], two[1])).as_bytes());
            for &[year, month, day] in two {
                self.text(write_text(dated(short, FIRST, [year, month, day + 1])).as_bytes());
            }
        }
        for (a, b) in PAIRS {
            self.text(write_text(dated(even, a, b)).as_bytes());
            self.text(write_text(dated(short, b, a)).as_bytes());
        }
        self.text(write_text(dated(even, A, A)).as_bytes());
        for (open, close) in [(A, B), (B, A), (A, [2025, 2, 29])] {
            let odd = Catalogue { s: 7, ..adding(even) };
            for c in [Catalogue { n: 17, ..short }, Catalogue { k: 1, ..short }, odd, Catalogue { k: 1, ..odd }, even] {
                let text = write_text(dated(c, open, close));
                self.text(text.as_bytes());
                self.text(format!("{text}\n").as_bytes());
            }
        }
    }

    /// Catalogue values with dates, written and in begin: each fault of the dates, and what is just none; with each other fault of a value besides;
    /// and then in every call. The single days open in one code and close in the other.
    pub fn season_values(&mut self, c: Catalogue) {
        self.put(format!("# dates in values {}", titled(c)));
        self.today(A);
        self.catalogue(c);
        self.lend(c);
        let single = UNREAL.iter().chain(&HUGE).chain(&EDGES).chain([&NO_DAY]).enumerate();
        let single = single.map(|(i, &day)| if (i % 2 == 0) == (c.code == Even) { (day, LAST) } else { (FIRST, day) });
        let pairs = PAIRS.into_iter().flat_map(|(a, b)| [(a, b), (b, a), (a, a)]);
        for (open, close) in single.chain(pairs).chain(PARTS) {
            self.catalogue(dated(c, open, close));
            self.put("w 100\nb 0".to_string());
        }
        let (faults, odd) = ([(B, A), (A, A), (NO_DAY, B), (A, NO_DAY), (UNREAL[2], LAST), (A, HUGE[0])], Catalogue { s: 7, ..adding(c) });
        for &(open, close) in [(A, B), (NO_DAY, NO_DAY)].iter().chain(&faults) {
            for c in [Catalogue { n: 17, ..c }, Catalogue { k: 1, ..c }, odd, Catalogue { k: 1, ..odd }] {
                self.catalogue(dated(c, open, close));
                self.put("w 0\nb 9".to_string());
            }
        }
        let faulty = faults.map(|(open, close)| dated(c, open, close));
        for c in [faulty[0], faulty[3]] {
            self.given_values(c, c);
        }
        self.held_values(dated(c, A, B), &[faulty[2], faulty[5], dated(c, A, B)]);
    }

    /// Answering and issue on each of these days, as they should be but for the day.
    pub fn on_days(&mut self, c: Catalogue, days: &[Day]) {
        let (asked, last) = (request_length(c), c.n - 1);
        self.put(format!("# days {}", titled(c)));
        self.today(c.open);
        self.catalogue(c);
        self.lend(c);
        self.put(format!("b 0\ni {last} {asked}"));
        for &day in days {
            self.today(day);
            self.put(format!("a {last} {asked} {}", slot(c)));
        }
        for &day in days {
            self.today(day);
            self.put(format!("i {last} {asked}"));
        }
    }

    /// Days near the ends of each season, and the same days of other years; real and unreal days and the ends of the months in a season of all days;
    /// all of these without a season.
    pub fn days(&mut self) {
        let codes = [adding(plain(Short, 2, 2, 2)), plain(Even, 2, 2, 2)];
        for (i, (open, close)) in SEASONS.into_iter().enumerate() {
            let near = [open, close].into_iter().flat_map(|day| [-1, 0, 1].map(|by| (day, by)));
            let mut days: Vec<Day> = near.filter(|pair| ![(FIRST, -1), (LAST, 1)].contains(pair)).map(|(day, by)| later(day, by)).collect();
            days.extend([open, close].iter().flat_map(|&[year, month, day]| [[year - 1, month, day], [year + 1, month, day], [year, day, month]]));
            days.extend(&HUGE[..3]);
            self.on_days(dated(codes[i % 2], open, close), &days);
        }
        let few = [&UNREAL[..8], &HUGE, &[NO_DAY]].concat();
        let all = [&few[..], &UNREAL[8..], &EDGES].concat();
        let ends: Vec<Day> = month_ends(2023).into_iter().flat_map(|[year, month, day]| [[year, month, day], [year, month, day + 1]]).collect();
        self.on_days(dated(codes[0], FIRST, LAST), &[&all[..], &ends].concat());
        self.on_days(dated(codes[1], FIRST, LAST), &few);
        self.on_days(codes[0], &all);
        self.on_days(codes[1], &few);
    }

    /// 13 and 14 of issue and answering with every other number besides, and the calls that test no season on the same days.
    pub fn season_orders(&mut self, c: Catalogue) {
        self.put(format!("# orders {}", titled(c)));
        let (asked, room, slots, pack, last) = (request_length(c), slot(c), c.n * slot(c), pack_length(c), c.n - 1);
        let taken = some_answer(c, 0);
        let faulty = [Catalogue { n: 17, ..c }, Catalogue { k: 1, ..c }, adding(Catalogue { s: c.s | 1, ..c }), dated(c, c.close, c.open)];
        self.today(c.open);
        self.all_taken(c);
        self.put(format!("i {last} {asked}"));
        let first = request(c, 1, last, &drawn_key(0, c, key_length(c)))[0];
        for (day, held) in [(c.close, vec![c]), (UNREAL[2], vec![c, undated(c)])] {
            self.today(day);
            for c in held {
                // answering: as it should be, then 3, 7 by a number and by a length, 8, 9, and all of them; writing
                self.catalogue(c);
                self.put(format!("a {last} {asked} {room}\na {} {asked} {room}\na {last} {} {room}\na {last} {asked} 0", c.n, asked + 1));
                self.put(format!("q 0 255\na {last} {asked} {room}\nq 0 {first}\ns 5 {}\na {last} {asked} {room}\na {} 0 0", c.k * pack + 1, c.n));
                self.put(format!("s 5 {}\nw 100", c.k * pack));
            }
            for c in faulty {
                self.catalogue(c);
                self.put(format!("a {last} {asked} {room}\na 17 0 0"));
            }
        }
        for (day, held) in [(c.close, vec![c]), (UNREAL[2], vec![c, undated(c)])] {
            self.today(day);
            self.held_calls(c, &held);
            for c in faulty {
                self.hold(c);
                self.put(format!("i 0 {asked}\ni 17 0\nh 0 {taken} {slots}\nr {slots} {pack}"));
            }
        }
        // begin, and a whole fetch with its refusals
        self.catalogue(c);
        let (key, packs) = (key_length(c), c.k);
        self.put(format!("b 0\nb {packs}\nx 0\nx {packs}\nk 0 {}\nb 0\nx 0\nk 0 {key}\no 0 255\nb 0\nx 0", key + 1));
    }

    /// Whole fetches on the first and on the last day of a season, on the days beside it, and on no real day.
    pub fn season_fetches(&mut self) {
        self.put("# fetches in season and out of it\nz 255".to_string());
        let even = [(2, 2, 3), (3, 2, 34), (2, 8, 2), (4, 3, 4), (16, 2, 6)].map(|(n, k, s)| plain(Even, n, k, s));
        let short = [(2, 2, 1), (3, 3, 4096), (16, 32, 2), (5, 4, 7), (7, 31, 6)].map(|(n, k, s)| plain(Short, n, k, s));
        for (i, c) in even.into_iter().chain(short).enumerate() {
            self.season_fetches_of(i, c);
        }
    }

    pub fn season_fetches_of(&mut self, i: usize, c: Catalogue) {
        let (open, close) = [SEASONS[0], SEASONS[1], SEASONS[2], SEASONS[4], SEASONS[5], SEASONS[6], SEASONS[7]][i % 7];
        let c = dated(Catalogue { add: c.s % 2 == 0, ..c }, open, close);
        self.catalogue(c);
        self.lend(c);
        for day in [open, later(close, -1), close, later(open, -1), UNREAL[i]] {
            self.today(day);
            let wanted = self.draw.below(c.k);
            self.put(format!("x {wanted}"));
        }
        self.put(format!("x {}", c.k));
    }

    /// Fetches whose calls come on days in season and out of it: begun, taken and recovered out of it; issued in it and asked out of it, and the other
    /// way round.
    pub fn across(&mut self, c: Catalogue) {
        let (asked, room, slots, pack) = (request_length(c), slot(c), c.n * slot(c), pack_end(c, 1));
        self.put(format!("# across the ends {}", titled(c)));
        let (first, last, before, after) = (c.open, later(c.close, -1), later(c.open, -1), c.close);
        self.today(before);
        self.catalogue(c);
        self.lend(c);
        self.put(format!("z 77\nb 1\ni 0 {asked}"));
        self.take_any(c, 0);
        self.put(format!("r {slots} {pack}"));
        for mirror in 0..c.n {
            let (issue, ask) = (format!("i {mirror} {asked}"), format!("a {mirror} {asked} {room}"));
            for (day, calls) in [(first, &format!("{issue}\n{ask}")), (after, &ask), (UNREAL[mirror], &ask), (last, &ask), (after, &issue)] {
                self.today(day);
                self.put(calls.to_string());
            }
            // the request is gone with the issue that was refused; asked for again on the last day, and its answer taken when all is over
            self.today(last);
            self.put(format!("{issue}\n{ask}"));
            self.today([after, before, UNREAL[2]][mirror % 3]);
            self.take_any(c, mirror);
            self.put(format!("r {slots} {pack}"));
        }
        for day in [after, NO_DAY, HUGE[5], first] {
            self.today(day);
            self.put(format!("r {slots} {pack}\ni 0 {asked}"));
        }
    }
}
