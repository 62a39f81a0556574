//! Every refusal of every call, from both sides, and each beside the others.
use crate::bench::given;
use crate::cases::{Cases, called, some_answer, titled};
use crate::catalogue::{Catalogue, Round, Turn, adding, admitted};
use crate::codes::request;
use crate::draws::drawn_key;
use crate::sizes::{ceiling, key_length, pack_end, pack_length, permuted, request_ceiling, request_length, slot};
use crate::text::write_text;

impl Cases {
    /// Every refusal of every call, each with what is just accepted beside it.
    pub fn refusals(&mut self, c: Catalogue) {
        let (asked, slots, stored, pack) = (request_length(c), c.n * slot(c), c.k * pack_length(c), pack_end(c, 0));
        let last = c.n - 1;
        self.put(format!("# refusals {}", titled(c)));
        // a catalogue out of bounds, one of a single pack, and one that adds odd pieces: 2, 17 and 15 of every call that is given one
        let odd = adding(Catalogue { s: c.s | 1, ..c });
        for bad in [Catalogue { n: 17, ..c }, Catalogue { k: 0, ..c }, Catalogue { s: 4097, ..c }, Catalogue { k: 1, ..c }, odd] {
            self.catalogue(bad);
            self.put(format!("b {}\na {} {asked} {}\nw 60\nx 0", c.k, c.n, slot(c)));
        }
        self.catalogue(c);
        self.lend(c);
        self.put("z 51".to_string());
        // begin: 4, 5, 6
        self.put(format!("b {}\nb {}", c.k, c.k - 1));
        for length in [key_length(c) + 1, key_length(c), key_length(c) - 1] {
            self.put(format!("k 3 {length}\nb 0\nb {}", c.k));
        }
        self.put(format!("k 3 {}", key_length(c)));
        let most = ceiling(c);
        for place in [Some(0), matches!(c.code, Turn | Round).then(|| key_length(c) - 1)].into_iter().flatten() {
            for value in [most - 1, most, 255] {
                self.put(format!("k 3 {}\no {place} {value}\nb 0", key_length(c)));
            }
        }
        self.put(format!("k 3 {}\nb 0", key_length(c)));
        // issue: 3, 9, and an issue again; answering: 3, 7, 8, 9
        self.put(format!("i {last} {asked}\ni {} {asked}\ni {last} {}\ni {last} {}", c.n, asked - 1, asked + 2));
        self.put(format!("a {last} {asked} {0}\na {last} {asked} {1}\na {last} {asked} {2}\na {3} {asked} {0}", slot(c), slot(c) - 1, slot(c) + 2, c.n));
        self.put(format!("a {last} {} {}\na {last} {} {}", asked + 1, slot(c), asked - 1, slot(c)));
        self.put(format!("a 0 {asked} {}", slot(c)));
        self.put(format!("q {} {}\na {last} {asked} {}", asked - 1, request_ceiling(c), slot(c)));
        for length in [stored + 1, stored - 1, 0, stored] {
            self.put(format!("s 7 {length}\ni {last} {asked}\na {last} {asked} {}", slot(c)));
        }
        self.refused_answers(c);
        self.fields(c, asked, slots, pack);
    }

    /// Take and recover of a session that has issued the last mirror's request, which has been answered.
    pub fn refused_answers(&mut self, c: Catalogue) {
        let (asked, slots, pack, last) = (request_length(c), c.n * slot(c), pack_end(c, 0), c.n - 1);
        // take: 3, 9, 10, 11, and a second one
        self.put(format!("h 0 {} {slots}", some_answer(c, 0)));
        self.put(format!("h {last} {0} {slots}\nh {last} {1} {slots}\nh {2} {0} {slots}\nh {last} {0} {3}", slot(c) + 1, slot(c) - 1, c.n, slots - 1));
        self.put(format!("r {slots} {pack}"));
        self.put(format!("h {last} {0} {slots}\nh {last} {0} {slots}", slot(c)));
        // recover: 12, 9, then done, into more room, and again
        for mirror in 0..last {
            self.put(format!("r {slots} {pack}\ni {mirror} {asked}\na {mirror} {asked} {}", slot(c)));
            self.take_any(c, mirror);
        }
        self.put(format!("r {} {pack}\nr {slots} {}\nr {slots} {pack}\nr {slots} {}", slots - 1, pack - 1, pack + 1));
    }

    /// Every field of a session set to what no history gives: 2, 17, 4, 6, 11 of each call, and the places that are not used.
    pub fn fields(&mut self, c: Catalogue, asked: usize, slots: usize, pack: usize) {
        let calls = format!("i 0 {asked}\nh 0 {} {slots}\nr {slots} {pack}", some_answer(c, 0));
        let set_cat = |n: usize, k: usize, s: usize| format!("g {}", given(Catalogue { n, k, s, ..c }));
        self.optional(c);
        let (most, key) = (ceiling(c), drawn_key(3, c, key_length(c)));
        let mut sets = vec![
            (set_cat(17, c.k, c.s), set_cat(c.n, c.k, c.s)),
            (set_cat(c.n, 0, c.s), set_cat(c.n, c.k, c.s)),
            (set_cat(c.n, c.k, 4097), set_cat(c.n, c.k, c.s)),
            (set_cat(c.n, 1, c.s), set_cat(c.n, c.k, c.s)),
            (format!("v {}", c.k), "v 0".to_string()),
            ("u 0 0\nU 0 0".to_string(), format!("u 0 1\nU 0 {asked}")),
            ("j 0 0\nJ 0 0".to_string(), format!("j 0 1\nJ 0 {}", called(c, 0, 3, 0))),
            ("y 2047 9".to_string(), "y 2047 0".to_string()),
            (format!("y 0 {most}"), format!("y 0 {}", if permuted(c) { key[0] as usize } else { most - 1 })),
        ];
        if permuted(c) {
            // an entry twice
            sets.push((format!("y 0 {}", key[1]), format!("y 0 {}", key[0])));
        }
        if c.code == Turn {
            let (turn, unused) = (c.k - 1, c.k);
            sets.push((format!("y {turn} {most}"), format!("y {turn} 1")));
            sets.push((format!("y {unused} 255"), format!("y {unused} 0")));
        }
        if c.code == Round {
            // an entry of two bits more, and the first place that is not used
            let (last, unused) = (key_length(c) - 1, key_length(c));
            sets.push((format!("y {last} {}", key[last] | 192), format!("y {last} {}", key[last])));
            sets.push((format!("y {unused} 255"), format!("y {unused} 0")));
        }
        if c.n < 16 {
            // marks of no mirror, with the meters at 0, and with what they would come to
            for bytes in [0, asked] {
                sets.push((format!("u {0} 1\nU {0} {bytes}", c.n), format!("u {0} 0\nU {0} 0", c.n)));
            }
            for bytes in [0, slot(c)] {
                sets.push((format!("j 15 1\nJ 15 {bytes}"), "j 15 0\nJ 15 0".to_string()));
            }
        }
        for (set, undo) in sets {
            self.put(format!("{set}\n{calls}\n{undo}"));
        }
    }

    /// A single pack beside two, in every call (02, item 9): 17 alone, after 1 and 2, and before each number that applies besides.
    pub fn one_pack(&mut self, two: Catalogue) {
        self.put(format!("# one pack {}", titled(two)));
        let one = Catalogue { k: 1, ..two };
        let broken = [Catalogue { n: 17, ..one }, Catalogue { n: 1, ..one }, Catalogue { s: 0, ..one }, Catalogue { s: 4097, ..one }];
        for c in [two, one].into_iter().chain(broken) {
            // whole, a byte too many, a byte too few, and at the start of more
            let text = write_text(c);
            for bytes in [&text, &format!("{text}\n"), &text[..text.len() - 1], &format!("{text}wanted=0\nkey=\n")] {
                self.text(bytes.as_bytes());
            }
            self.catalogue(c);
        }
        for c in [two, one, broken[0]] {
            self.given_values(c, if c == two { two } else { one });
        }
        self.held_values(two, &[two, one, broken[0], two]);
    }

    /// An odd piece beside an even one where words are added (02, item 2): 15 alone, after 1, 2 and 17, and before each number that applies besides;
    /// without the line an odd piece is as good as any.
    pub fn odd_piece(&mut self, whole: Catalogue) {
        self.put(format!("# odd piece {}", titled(whole)));
        let odd = Catalogue { s: whole.s - 1, ..whole };
        let one = Catalogue { k: 1, ..odd };
        let other = [Catalogue { n: 17, ..odd }, Catalogue { s: 4097, ..odd }, one, Catalogue { n: 1, ..one }, Catalogue { add: false, ..odd }];
        for c in [whole, odd].into_iter().chain(other) {
            let text = write_text(c);
            for bytes in [&text, &format!("{text}\n"), &text[..text.len() - 1], &format!("{text}wanted=0\nkey=\n")] {
                self.text(bytes.as_bytes());
            }
            self.catalogue(c);
        }
        for c in [whole, odd] {
            self.given_values(c, c);
        }
        self.held_values(whole, &[whole, odd, other[0], other[2], whole]);
    }

    /// Calls that are given a catalogue, with a key, a request, a store and room that would do for `like`, and each of them broken.
    pub fn given_values(&mut self, c: Catalogue, like: Catalogue) {
        let (key, stored, last) = (key_length(like), like.k * pack_length(like), like.n - 1);
        let (asked, room) = (request_length(like), slot(like));
        let lend = |length: usize| {
            // a key is drawn for an admitted catalogue alone; else its entries are set: zeros, or permutations in order
            let entries: String = (0..key).map(|i| format!("\no {i} {}", if permuted(like) { i % ceiling(like) } else { 0 })).collect();
            format!("k 0 {length}{}", if admitted(like) { "" } else { entries.as_str() })
        };
        self.catalogue(c);
        self.put("w 60\nw 0".to_string());
        // begin, and a whole fetch: as it should be, then 4, 5, 6, and all of them
        self.put(format!("s 5 {stored}\n{}\nb 0\nx 0\nb {}", lend(key), like.k));
        self.put(format!("{}\nb 0\nx 0\n{}\no 0 255\nb 0\nx 0\n{}\no 0 255\nb {}", lend(key + 1), lend(key), lend(key + 2), like.k));
        // answering: as it should be, then 3, 7 by a digit and by a length, 8, 9, and all of them
        let request = if admitted(like) {
            format!("{}\nb 0\ni {last} {asked}", lend(key))
        } else {
            // what the keys of zeros and in order call for, wanted pack 0
            let bytes = request(like, 0, last, &drawn_key(0, like, key));
            bytes.iter().enumerate().map(|(i, b)| format!("q {i} {b}")).collect::<Vec<_>>().join("\n")
        };
        self.put(format!("{request}\na {last} {asked} {room}\na {} {asked} {room}", like.n));
        self.put(format!("q 0 255\na {last} {asked} {room}\n{request}\na {last} {} {room}\na {last} 0 {room}", asked + 1));
        self.put(format!("s 5 {0}\na {last} {asked} {room}\ns 5 {stored}\na {last} {asked} 0\ns 5 {0}\na {1} 0 0", stored + 1, like.n));
    }

    /// The calls of a session that has taken all answers, once with each of these catalogues in it, and each other field and length broken besides.
    pub fn held_values(&mut self, two: Catalogue, held: &[Catalogue]) {
        self.all_taken(two);
        self.held_calls(two, held);
    }

    /// A session for pack 1 that takes all answers.
    pub fn all_taken(&mut self, two: Catalogue) {
        let (asked, room) = (request_length(two), slot(two));
        self.catalogue(two);
        self.put(format!("s 5 {}\nk 0 {}\nb 1", two.k * pack_length(two), key_length(two)));
        for mirror in 0..two.n {
            self.put(format!("i {mirror} {asked}\na {mirror} {asked} {room}"));
            self.take_any(two, mirror);
        }
    }

    pub fn held_calls(&mut self, two: Catalogue, held: &[Catalogue]) {
        let (asked, room, slots, pack) = (request_length(two), slot(two), two.n * slot(two), pack_end(two, 1));
        for &c in held {
            self.hold(c);
            // nothing else, then 4, 6, 11 by a mark, 11 or 12 by a mark, the meters as the marks have it; with each 3, 9, 10
            let (issued, taken) = (format!("u 0 1\nU 0 {asked}"), format!("j 0 1\nJ 0 {}", called(two, 1, 0, 0)));
            let marks = [("u 0 0\nU 0 0", &issued[..]), ("j 0 0\nJ 0 0", &taken)];
            for (set, undo) in [("v 1", "v 1"), ("v 9", "v 1"), ("y 0 255", "y 0 0")].into_iter().chain(marks) {
                self.put(format!("{set}\ni 0 {asked}\ni {} {asked}\ni 0 0", two.n));
                self.put(format!("h 1 {room} {slots}\nh {0} {room} {slots}\nh 1 {room} 0\nh 1 {1} {slots}", two.n, room + 1));
                self.put(format!("r {slots} {pack}\nr 0 {pack}\nr {slots} 0\n{undo}"));
            }
        }
    }
}
