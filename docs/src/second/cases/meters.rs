//! Lines about meters (02, item 5): what calls count, and meters that no calls give.
use crate::bench::given;
use crate::cases::{Cases, titled};
use crate::catalogue::{Catalogue, Short, Turn, adding};
use crate::codes::{answer_length, request};
use crate::draws::drawn_key;
use crate::meters::MOST;
use crate::sizes::{ceiling, key_length, pack_end, pack_length, permuted, request_length, slot};

/// A session for pack 1: how often each mirror was issued to, whether its answer was taken, and how long an answer its request calls for.
pub struct Standing {
    pub c: Catalogue,
    pub issues: Vec<usize>,
    pub taken: Vec<bool>,
    pub called: Vec<usize>,
}

impl Standing {
    pub fn new(c: Catalogue, key: &[u8], roles: &[(usize, bool)]) -> Standing {
        let called = (0..c.n).map(|mirror| answer_length(c, &request(c, 1, mirror, key))).collect();
        Standing { c, issues: roles.iter().map(|role| role.0).collect(), taken: roles.iter().map(|role| role.1).collect(), called }
    }

    pub fn sent(&self, p: usize) -> usize {
        self.issues.get(p).map_or(0, |times| times * request_length(self.c))
    }

    pub fn got(&self, p: usize) -> usize {
        if self.taken.get(p) == Some(&true) { self.called[p] } else { 0 }
    }

    /// A mirror that was issued to and whose answer was not taken.
    pub fn due(&self) -> Option<usize> {
        (0..self.c.n).find(|&p| self.issues[p] > 0 && !self.taken[p])
    }

    /// Lines that put everything at a place back as it was.
    pub fn back(&self, p: usize) -> String {
        let marks = (p < self.c.n).then(|| (self.issues[p] > 0, self.taken[p])).unwrap_or_default();
        format!("u {p} {}\nj {p} {}\nU {p} {}\nJ {p} {}", marks.0 as u8, marks.1 as u8, self.sent(p), self.got(p))
    }

    /// Issue to this mirror, and where an answer is due, to another one and its take; recover; then everything as it was.
    pub fn calls(&self, p: usize) -> String {
        let (c, asked, slots) = (self.c, request_length(self.c), self.c.n * slot(self.c));
        let named = if p < c.n { p } else { 0 };
        let other = (named + 1) % c.n;
        let more = self.due().map_or(String::new(), |due| format!("i {other} {asked}\nh {due} {} {slots}\n", self.called[due]));
        let places = [named, other, p, self.due().unwrap_or(p)];
        let kept: Vec<usize> = (0..16).filter(|place| places.contains(place)).collect();
        let back = kept.into_iter().map(|place| self.back(place)).collect::<Vec<_>>().join("\n");
        format!("i {named} {asked}\n{more}r {slots} {}\n{back}", pack_end(c, 1))
    }
}

/// The first, a middle and the last mirror.
pub fn ends_and_middle(c: Catalogue) -> Vec<usize> {
    let mut all = vec![0, c.n / 2, c.n - 1];
    all.dedup();
    all
}

/// One of those mirrors with an answer taken, one with two or three requests issued and its answer due, one with nothing; which is which turns.
pub fn mixed(c: Catalogue, turn: usize) -> Vec<(usize, bool)> {
    let mut roles = vec![(0, false); c.n];
    for (i, p) in ends_and_middle(c).into_iter().enumerate() {
        roles[p] = [(2, true), (3, false), (0, false)][(i + turn) % 3];
    }
    roles
}

pub fn all_taken(c: Catalogue) -> Vec<(usize, bool)> {
    (0..c.n).map(|p| (1 + p % 3, true)).collect()
}

/// A key whose digits, but for a turn, are zeros, so that one answer is empty; permutations in order.
pub fn plain_key(c: Catalogue, turn: usize) -> Vec<u8> {
    let mut key = drawn_key(0, c, key_length(c));
    if c.code == Turn {
        key[c.k - 1] = turn as u8;
    }
    key
}

impl Cases {
    /// The session, begun and brought so far by calls.
    pub fn stand(&mut self, c: Catalogue, key: &[u8], roles: &[(usize, bool)]) -> Standing {
        let (standing, slots, answer) = (Standing::new(c, key, roles), c.n * slot(c), 1 + self.draw.below(9999));
        self.today(c.open);
        self.catalogue(c);
        self.put(format!("s 9 {}\ne {answer}\nz 7\nk 0 {}", c.k * pack_length(c), key.len()));
        for (place, &x) in key.iter().enumerate().filter(|&(place, &x)| drawn_key(0, c, key.len())[place] != x) {
            self.put(format!("o {place} {x}"));
        }
        self.put("b 1".to_string());
        for (mirror, &(times, taken)) in roles.iter().enumerate() {
            (0..times).for_each(|_| self.put(format!("i {mirror} {}", request_length(c))));
            if taken {
                self.put(format!("h {mirror} {} {slots}", standing.called[mirror]));
            }
        }
        self.put("M".to_string());
        standing
    }

    /// Meters set to what no calls give, and to what some do, at the first, a middle and the last mirror and at places of no mirror, each with the calls
    /// behind it.
    pub fn forged(&mut self, c: Catalogue, key: &[u8], roles: &[(usize, bool)]) {
        self.put(format!("# forged meters {}", titled(c)));
        let standing = self.stand(c, key, roles);
        for p in ends_and_middle(c) {
            for set in forgeries(&standing, p) {
                self.put(format!("{set}\n{}", standing.calls(p)));
            }
        }
        let mut past = vec![c.n, 15];
        past.dedup();
        let (asked, room) = (request_length(c), slot(c));
        for p in past.into_iter().filter(|_| c.n < 16) {
            let meters = [format!("U {p} 1"), format!("U {p} {asked}"), format!("J {p} 1"), format!("J {p} {room}"), format!("u {p} 1\nU {p} {asked}"),
                format!("u {p} 1\nj {p} 1\nU {p} {asked}\nJ {p} {room}")];
            meters.iter().for_each(|set| self.put(format!("{set}\n{}", standing.calls(p))));
        }
        self.put(standing.calls(0));
        self.put("M".to_string());
    }

    /// The other fields set to what goes with other meters: the key, so that another answer is empty or none is; the pack, which moves no lengths; the
    /// catalogue's numbers. Then the meters set to go with them.
    pub fn other_fields(&mut self, c: Catalogue, key: &[u8]) {
        self.put(format!("# meters and other fields {}", titled(c)));
        let standing = self.stand(c, key, &all_taken(c));
        let (asked, slots, pack) = (request_length(c), c.n * slot(c), pack_end(c, 1));
        let calls = format!("i 0 {asked}\nh 1 {} {slots}\nr {slots} {pack}", standing.called[1]);
        let held = |c: Catalogue| format!("g {}", given(c));
        let most = ceiling(c) as u8;
        let mut sets = vec![("v 0".to_string(), "v 1".to_string())];
        for (place, x) in [(0, (key[0] + 1) % most), (key.len() - 1, (key[key.len() - 1] + 1) % most)].into_iter().filter(|_| !permuted(c)) {
            let (set, back) = (format!("y {place} {x}"), format!("y {place} {}", key[place]));
            let mut moved = key.to_vec();
            moved[place] = x;
            let other = Standing::new(c, &moved, &all_taken(c));
            let moves: String = (0..c.n).filter(|&p| other.got(p) != standing.got(p)).map(|p| format!("\nJ {p} {}", other.got(p))).collect();
            let undo: String = (0..c.n).map(|p| format!("\nJ {p} {}", standing.got(p))).collect();
            sets.extend([(set.clone(), back.clone()), (format!("{set}{moves}"), format!("{back}{undo}"))]);
        }
        if permuted(c) {
            let (first, second) = (key[0], key[1]);
            sets.push((format!("y 0 {second}\ny 1 {first}"), format!("y 0 {first}\ny 1 {second}")));
        }
        let step = 1 + c.add as usize;
        for other in [Catalogue { s: c.s + step, ..c }, Catalogue { s: c.s - step, ..c }, Catalogue { n: c.n + 1, ..c }, Catalogue { n: c.n - 1, ..c },
            Catalogue { k: c.k + 1, ..c }, Catalogue { add: !c.add, ..c }, Catalogue { code: if c.code == Short { Turn } else { Short }, ..c }] {
            sets.push((held(other), held(c)));
        }
        for (set, undo) in sets {
            self.put(format!("{set}\n{calls}\nr 4096 4096\nh 0 0 4096\n{undo}\nU 0 {}", standing.sent(0)));
        }
    }

    /// Faults of a session's own fields, and what puts them right: 2, 17, 15, 4, 6, and 11 by a mark.
    pub fn session_faults(&self, standing: &Standing, key: &[u8]) -> Vec<[String; 2]> {
        let (c, held) = (standing.c, |c: Catalogue| format!("g {}", given(c)));
        let free = standing.issues.iter().position(|&times| times == 0).unwrap_or(c.n);
        let odd = Catalogue { s: c.s | 1, ..adding(c) };
        let mut all: Vec<[String; 2]> = [Catalogue { n: 17, ..c }, Catalogue { k: 1, ..c }, odd].map(|bad| [held(bad), held(c)]).to_vec();
        all.push([format!("v {}", c.k), "v 1".to_string()]);
        all.push(["y 0 255".to_string(), format!("y 0 {}", key[0])]);
        all.push([format!("j {free} 1"), format!("j {free} 0")]);
        all
    }
}

/// Meters of a mirror set to other numbers: beside the right ones, none, the least and the most, other numbers of requests, lengths of other answers,
/// and the two of them exchanged; some of them are as good.
fn forgeries(standing: &Standing, p: usize) -> Vec<String> {
    let (c, asked, room, called) = (standing.c, request_length(standing.c), slot(standing.c), standing.called[p]);
    let (sent, got) = (standing.sent(p), standing.got(p));
    let sent_others = match sent {
        0 => vec![1, asked, 2 * asked, MOST],
        _ => vec![sent + 1, sent - 1, 0, asked - 1, asked, 2 * asked, 3 * asked, 1000 * asked, 1000 * asked + 1],
    };
    let mut got_others = vec![0, 1, called, called + 1, called.saturating_sub(1), room, room - c.s, c.s, 2 * room, called + (1 << 16), MOST];
    got_others.sort();
    got_others.dedup();
    // where nothing was taken, fewer will do
    let chosen = |x: &usize| *x != got && (standing.taken[p] || [1, called, room, MOST].contains(x));
    let sets = sent_others.into_iter().filter(|&x| x != sent).map(|x| format!("U {p} {x}"));
    let sets = sets.chain(got_others.into_iter().filter(chosen).map(|x| format!("J {p} {x}")));
    let exchanged = (sent != got).then(|| format!("U {p} {got}\nJ {p} {sent}"));
    let next = (p + 1) % c.n;
    let moved = (standing.got(next) != got).then(|| format!("J {p} {}\nJ {next} {got}", standing.got(next)));
    sets.chain(exchanged).chain(moved).collect()
}
