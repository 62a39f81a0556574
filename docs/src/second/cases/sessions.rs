//! Sessions with calls in any order, recovery with other lengths, the same exchanges with lengths and without.
use crate::cases::{Cases, called, some_answer, titled};
use crate::catalogue::{Catalogue, has_dates, measured};
use crate::days::{Day, later};
use crate::draws::drawn_key;
use crate::samples::lengths::{ends, some_lengths, with_some};
use crate::samples::seasons::UNREAL;
use crate::sizes::{key_length, pack_end, pack_length, request_length, slot};

impl Cases {
    /// Recovery of a session with other lengths in it, each time into room for the length, a byte less, the whole pack, and more; from answers of the
    /// mirrors, or from any bytes. Then for the other packs, as if they had been wanted, and 9 beside each number that may come instead.
    pub fn cut_session(&mut self, c: Catalogue, honest: bool) {
        self.put(format!("# recovery with lengths {}", titled(c)));
        let (asked, room, slots, whole) = (request_length(c), slot(c), c.n * slot(c), pack_length(c));
        let (ends, wanted, store, key) = (ends(c), self.draw.below(c.k), 1 + self.draw.below(9999), 1 + self.draw.below(9999));
        self.catalogue(with_some(c));
        self.put(format!("s {store} {}\nk {key} {}\nz 255\nb {wanted}", c.k * whole, key_length(c)));
        for mirror in 0..c.n {
            let answer = if honest { format!("a {mirror} {asked} {room}") } else { format!("e {}", 1 + self.draw.below(9999)) };
            self.put(format!("i {mirror} {asked}\n{answer}"));
            self.take_any(c, mirror);
        }
        for start in (0..ends.len()).step_by(2) {
            let some: Vec<usize> = ends.iter().cycle().skip(start).take(c.k).copied().collect();
            self.hold(measured(c, &some));
            let length = some[wanted];
            self.put(format!("r {slots} {length}\nr {slots} {}\nr {slots} {whole}\nr {slots} {}", length - 1, whole + 2));
        }
        self.hold(with_some(c));
        let lengths = some_lengths(c);
        for pack in (0..c.k).filter(|pack| c.k < 9 || pack % 7 < 2) {
            self.put(format!("v {pack}\nr {slots} {}\nr {slots} {}", lengths[pack], lengths[pack] - 1));
        }
        let (length, less, few) = (lengths[wanted], lengths[wanted] - 1, slots - 1);
        let (back, digit) = (format!("v {wanted}"), format!("y 0 {}", drawn_key(key as u64, c, key_length(c))[0]));
        let (issued, taken) = (format!("u 0 1\nU 0 {asked}"), format!("j 0 1\nJ 0 {}", called(c, wanted, key, 0)));
        for (set, undo) in [("v 99", &back[..]), ("y 0 255", &digit), ("u 0 0\nU 0 0", &issued), ("j 0 0\nJ 0 0", &taken)] {
            self.put(format!("{set}\nr {slots} {length}\nr {slots} {less}\nr {few} {length}\nr {few} {less}\nr {slots} 0\n{undo}"));
        }
    }

    /// The same fetch with lengths and without: what each mirror is sent, what it answers, and what is received do not differ.
    pub fn same_exchanges(&mut self, c: Catalogue) {
        self.put(format!("# the same exchanges {}", titled(c)));
        self.catalogue(c);
        self.lend(c);
        for c in [c, with_some(c), measured(c, &vec![1; c.k])] {
            let (asked, room) = (request_length(c), slot(c));
            self.catalogue(c);
            self.put("b 1".to_string());
            for mirror in 0..c.n {
                self.put(format!("i {mirror} {asked}\na {mirror} {asked} {room}\na {mirror} {asked} {}", room - 1));
            }
            self.put("x 1\nx 0".to_string());
        }
    }

    /// A day near the ends of a catalogue's season, more often in it than not.
    pub fn near_day(&mut self, c: Catalogue) -> Day {
        let (first, last) = (c.open, later(c.close, -1));
        [first, last, first, last, first, last, later(first, -1), c.close, UNREAL[self.draw.below(6)]][self.draw.below(9)]
    }

    /// A session with calls in any order, with numbers and lengths at their bounds and beside them; where there are dates, on days near their ends.
    pub fn session(&mut self, c: Catalogue, calls: usize) {
        self.put(format!("# session {}", titled(c)));
        self.catalogue(c);
        self.lend(c);
        let (before, wanted) = (self.draw.below(256), self.draw.below(c.k));
        self.put(format!("z {before}\nb {wanted}"));
        for _ in 0..calls {
            if has_dates(c) {
                let day = self.near_day(c);
                self.today(day);
            }
            let mirror = self.draw.below(c.n + 1).min(c.n - 1 + self.draw.below(20) / 19);
            let mut near = |length: usize| match self.draw.below(8) {
                0 => length - 1,
                1 => length + 1,
                _ => length,
            };
            let (asked, room, slots, pack) = (near(request_length(c)), near(slot(c)), near(c.n * slot(c)), near(pack_end(c, wanted)));
            let size = near(some_answer(c, mirror));
            let line = match self.draw.below(12) {
                0 | 1 => format!("i {mirror} {asked}"),
                2 => format!("h {mirror} {size} {slots}"),
                3 => format!("h {mirror} 0 {slots}"),
                4 => format!("e {}", 1 + self.draw.below(9999)),
                5 => format!("r {slots} {pack}"),
                6 => format!("q {} {}", self.draw.below(request_length(c)), self.draw.below(c.n + 1)),
                7 => format!("a {mirror} {asked} {room}"),
                _ => format!("i {mirror} {0}\na {mirror} {0} {1}\nh {mirror} {2} {slots}", request_length(c), slot(c), some_answer(c, mirror)),
            };
            self.put(line);
        }
    }
}
