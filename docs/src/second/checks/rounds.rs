//! The round code (02, item 8): by hand, over all keys where there are few, and whole fetches of every N and K.
use crate::Bytes;
use crate::catalogue::{Catalogue, Round, Short, adding, judged, measured, plain};
use crate::checks::fetched;
use crate::codes::{admits, answer, answer_length, answering, request};
use crate::days::NO_DAY;
use crate::draws::Draw;
use crate::printer::printed;
use crate::rows::{all_rows, short_requests};
use crate::samples::keys::all_round;
use crate::samples::lines::OTHER_ROUNDS;
use crate::session::begin;
use crate::sizes::{key_length, pack_length, pieces, request_length, slot, varieties};
use crate::text::{read, write_text};

/// Table IV of 000: two mirrors, two packs of two pieces, in bits. A mirror's answers stand there in the order of the letters, so they are put in order.
fn table_4() {
    let (c, [a1, a2, b1, b2]) = (plain(Round, 2, 2, 1), [1u8, 2, 4, 8]);
    let table = [([0, 1], vec![a2 ^ b2], [[a1, b2], [a2, b1]]), ([1, 0], vec![a1 ^ b1], [[a2, b1], [a1, b2]])];
    for (key, first, second) in table {
        for wanted in 0..2 {
            let mut answers = [0, 1].map(|mirror| answer(c, &[a1, a2, b1, b2], &request(c, wanted, mirror, &key)));
            answers[1].sort();
            assert_eq!(answers, [first.clone(), second[wanted].to_vec()], "000, Table IV, key {key:?}, wanted {wanted}");
        }
    }
}

/// Fetches worked out by hand: every request and every answer; every piece is a bit of its own.
fn by_hand() {
    // keys 11 00 10 01, wanted pack 0; pack 0 has the bits 0 to 3, pack 1 the bits 4 to 7, pack 2 the bits 8 to 11
    let (c, store) = (plain(Round, 2, 3, 2), [1, 0, 2, 0, 4, 0, 8, 0, 16, 0, 32, 0, 64, 0, 128, 0, 0, 1, 0, 2, 0, 4, 0, 8]);
    let (shown, gave, pack) = fetched(c, &store, 0, &[3, 0, 2, 1], 8);
    assert_eq!(shown[0], [vec![0, 1, 1, 0, 0, 0, 1, 1, 0, 1, 0, 1], vec![16, 1, 68, 0, 8, 8]]);
    assert_eq!(shown[1], [vec![1, 1, 1, 1, 0, 0, 0, 1, 0, 0, 0, 1], vec![17, 1, 2, 0, 64, 0, 0, 8]]);
    assert_eq!((gave, &pack[..]), (Ok(()), &store[..8]));
    // three mirrors, two pieces in a block, keys 2 0 1, wanted pack 1, whose bits are those of the second byte
    let (c, store) = (plain(Round, 3, 2, 2), [1, 0, 2, 0, 4, 0, 8, 0, 16, 0, 32, 0, 0, 1, 0, 2, 0, 4, 0, 8, 0, 16, 0, 32]);
    let (shown, gave, pack) = fetched(c, &store, 1, &[2, 0, 1], 12);
    assert_eq!(shown[0], [vec![2, 1, 0, 0, 1, 2], vec![2, 1, 16, 32]]);
    assert_eq!(shown[1], [vec![2, 2, 0, 1, 1, 0], vec![2, 2, 0, 4, 16, 0]]);
    assert_eq!(shown[2], [vec![2, 0, 0, 2, 1, 1], vec![2, 0, 0, 8, 16, 16]]);
    assert_eq!((gave, &pack[..]), (Ok(()), &store[12..]));
    // words: 255 and 1 are 256 in block 0, 65,535 and 1 are 0 in block 1; mirror 1 is sent single pieces
    let (c, store) = (adding(plain(Round, 2, 2, 2)), [255, 0, 255, 255, 1, 0, 1, 0]);
    assert_eq!([[1, 1, 0, 0], [0, 0, 1, 1]].map(|list| answer(c, &store, &list)), [[0, 1], [0, 0]]);
    for (key, first, second) in [([1, 0], [0, 1], [1, 0, 255, 255]), ([0, 1], [0, 0], [255, 0, 1, 0])] {
        let (shown, gave, pack) = fetched(c, &store, 0, &key, 4);
        assert_eq!((&shown[0][1][..], &shown[1][1][..], gave, &pack[..]), (&first[..], &second[..], Ok(()), &store[..4]));
    }
    // nine blocks by the keys 00 01 02 10 11 12 20 21 22, the digit of the wanted pack between their digits
    let rows = [[0, 2, 0], [0, 1, 1], [0, 0, 2], [1, 1, 0], [1, 0, 1], [1, 2, 2], [2, 0, 0], [2, 2, 1], [2, 1, 2]];
    assert_eq!(request(plain(Round, 3, 3, 1), 1, 2, &[0, 1, 2, 3, 4, 5, 6, 7, 8]), rows.concat());
    let text = "code=round\nmirrors=2\npacks=2\npiece=9\nwanted=1\nkey=1 0\n";
    assert_eq!(printed(text.as_bytes()), "mirror=0 request=1 1 0 0\nmirror=1 request=1 0 0 1\n");
}

/// Keys by their length and their entries, the bounds, and the texts.
fn refused() {
    let c = plain(Round, 3, 2, 4);
    let begun = |key: &[u8]| begin(c, 1, key).err().unwrap_or(0);
    assert_eq!([&[0, 1, 2][..], &[2, 0, 1], &[0, 1], &[0, 1, 2, 0], &[0, 1, 2, 3], &[], &[0, 3], &[0, 0]].map(begun), [0, 0, 5, 5, 5, 5, 5, 5]);
    assert_eq!([[0, 1, 1], [0, 0, 2], [2, 1, 2], [0, 1, 3], [3, 1, 2], [1, 2, 3], [0, 1, 255], [0, 0, 0]].map(|key| begun(&key)), [6; 8]);
    // the greatest K by N, where N multiplied up K - 1 times is at most 64
    let most = [(2, 7), (3, 4), (4, 4), (5, 3), (6, 3), (7, 3), (8, 3), (9, 2), (10, 2), (11, 2), (12, 2), (13, 2), (14, 2), (15, 2), (16, 2)];
    for (n, k) in most {
        let numbers = [0, 1, 2, k, k + 1, 17, 33, 65, 99999].map(|k| judged(plain(Round, n, k, 1)));
        assert_eq!(numbers, [Err(2), Err(17), Ok(()), Ok(()), Err(2), Err(2), Err(2), Err(2), Err(2)]);
        assert!(n.pow(k as u32 - 1) <= 64 && n.pow(k as u32) > 64);
    }
    assert_eq!(all_round().len(), most.iter().map(|(_, k)| k - 1).sum());
    assert_eq!([0, 1, 17, 64, 65].map(|n| judged(plain(Round, n, 2, 1))), [Err(2); 5]);
    assert_eq!([0, 1, 4096, 4097].map(|s| judged(plain(Round, 2, 2, s))), [Err(2), Ok(()), Ok(()), Err(2)]);
    assert_eq!([(3, 2), (3, 1), (3, 5), (4, 2)].map(|(s, k)| judged(adding(plain(Round, 3, k, s)))), [Err(15), Err(17), Err(2), Ok(())]);
    let lengths = [1, 24, 25, 0].map(|length| judged(measured(c, &[length, 24])));
    assert_eq!(lengths, [Ok(()), Ok(()), Err(2), Err(2)]);
    let most = plain(Round, 8, 3, 4096);
    assert_eq!([1_835_008, 1_835_009].map(|length| judged(measured(most, &[1, length, 1]))), [Ok(()), Err(2)]);
    let text = "code=round\nmirrors=3\npacks=2\npiece=4\n";
    assert_eq!((read(text.as_bytes()), write_text(c)), (Ok(c), text.to_string()));
    assert!(OTHER_ROUNDS.iter().all(|line| read(text.replacen("code=round\n", line, 1).as_bytes()) == Err(1)));
}

/// Every order of these, each once.
fn orders(of: &[u8]) -> Vec<Bytes> {
    if of.is_empty() {
        return vec![Vec::new()];
    }
    let rest = |i: usize| orders(&[&of[..i], &of[i + 1..]].concat());
    (0..of.len()).flat_map(|i| rest(i).into_iter().map(move |order| [&[of[i]], &order[..]].concat())).collect()
}

/// Over all keys of up to four blocks: the lists that a mirror admits, of all lists of digits up to N - 1, are the requests of the keys, each of one
/// key, for each wanted pack; and no other mirror admits them.
fn every_list() {
    for (n, k, count) in [(2, 2, 2), (3, 2, 6), (2, 3, 24), (4, 2, 24)] {
        let c = plain(Round, n, k, 1);
        let keys = orders(&(0..varieties(c) as u8).collect::<Bytes>());
        let lists = all_rows(n, request_length(c));
        for mirror in 0..n {
            let good: Vec<Bytes> = lists.iter().filter(|list| admits(c, mirror, list)).cloned().collect();
            assert_eq!((keys.len(), good.len()), (count, count));
            for wanted in 0..k {
                let mut sent: Vec<Bytes> = keys.iter().map(|key| request(c, wanted, mirror, key)).collect();
                sent.sort();
                assert_eq!(sent, good);
            }
            assert!(good.iter().all(|list| (0..n).all(|other| admits(c, other, list) == (other == mirror))));
        }
    }
}

/// Some keys of a catalogue: in order, from the last entry down, moved on by one and by a half, and two drawn.
fn some_keys(c: Catalogue, draw: &mut Draw) -> Vec<Bytes> {
    let first: Bytes = (0..varieties(c) as u8).collect();
    let mut all = vec![first.clone(), first.iter().rev().copied().collect(), first.clone(), first];
    all[2].rotate_left(1);
    all[3].rotate_left(varieties(c) / 2);
    all.extend((0..2).map(|_| draw.key(c).iter().map(|&x| x as u8).collect::<Bytes>()));
    all
}

/// Every N and K: each row of a request is the short code's for the block's key, whose digits are found by division; what is admitted where; which
/// pieces an answer is made of, told from a store where each piece is a bit of its own.
fn every_request() {
    let mut draw = Draw(8);
    for c in all_round() {
        let (v, short, marked) = (varieties(c), Catalogue { code: Short, ..c }, one_hot(c));
        assert_eq!([key_length(c), request_length(c), pieces(c)], [v, v * c.k, v * (c.n - 1)]);
        for key in some_keys(c, &mut draw) {
            let wanted = draw.below(c.k);
            for mirror in 0..c.n {
                let sent = request(c, wanted, mirror, &key);
                for (row, &entry) in sent.chunks(c.k).zip(&key) {
                    let digits: Bytes = (0..c.k as u32 - 1).rev().map(|place| (entry as usize / c.n.pow(place) % c.n) as u8).collect();
                    assert_eq!(row, &short_requests(short, wanted, &digits)[mirror][..]);
                }
                admissions(c, mirror, &sent, draw.below(v));
                named(c, &marked, &sent);
            }
        }
    }
}

/// A store of a catalogue whose pieces are long enough for a bit of every piece of the store; its piece i has the bit i alone.
fn one_hot(c: Catalogue) -> (Catalogue, Bytes) {
    let all = c.k * pieces(c);
    let s = all.div_ceil(8);
    let store = (0..all).flat_map(|i| (0..s).map(move |byte| if byte == i / 8 { 1 << (i % 8) } else { 0 })).collect();
    (Catalogue { s, ..c }, store)
}

/// The answer to an admitted list, piece by piece: row i has the pieces that its digits name in block i, and a row of zeros has no place in it.
fn named(c: Catalogue, (marked, store): &(Catalogue, Bytes), sent: &[u8]) {
    let got = answer(*marked, store, sent);
    let mut parts = got.chunks(marked.s);
    for (i, row) in sent.chunks(c.k).enumerate().filter(|(_, row)| row.iter().any(|&d| d > 0)) {
        let part = parts.next().unwrap();
        let bits: Vec<usize> = (0..marked.s * 8).filter(|bit| part[bit / 8] >> (bit % 8) & 1 == 1).collect();
        let meant = row.iter().enumerate().filter(|(_, &d)| d > 0).map(|(pack, &d)| pack * pieces(c) + i * (c.n - 1) + d as usize - 1);
        assert_eq!(bits, meant.collect::<Vec<_>>());
    }
    assert!(parts.next().is_none());
}

/// A list at its own mirror and at the others; its rows in other orders; and what spoils it, at one of its rows: the row twice, a row of another mirror, a
/// digit N or more, a byte more or less or a row more or less, rows of zeros alone.
fn admissions(c: Catalogue, mirror: usize, sent: &[u8], at: usize) {
    let rows: Vec<Bytes> = sent.chunks(c.k).map(|row| row.to_vec()).collect();
    let (v, next) = (rows.len(), (at + 1) % rows.len());
    let with = |change: &dyn Fn(&mut Vec<Bytes>)| {
        let mut other = rows.clone();
        change(&mut other);
        admits(c, mirror, &other.concat())
    };
    assert!((0..c.n).all(|other| admits(c, other, sent) == (other == mirror)));
    assert!(with(&|rows| rows.reverse()) && with(&|rows| rows.rotate_left(at)) && with(&|rows| rows.swap(at, next)));
    assert!(!with(&|rows| rows[at] = rows[next].clone()) && !with(&|rows| rows[next] = rows[at].clone()));
    assert!(!with(&|rows| rows[at][0] = (rows[at][0] + 1) % c.n as u8) && !with(&|rows| rows[at][c.k - 1] = (rows[at][c.k - 1] + c.n as u8 - 1) % c.n as u8));
    assert!(!with(&|rows| rows[at][0] += c.n as u8) && !with(&|rows| rows[at][c.k - 1] = 255) && !with(&|rows| rows.fill(vec![0; c.k])));
    assert!(!with(&|rows| rows.push(rows[at].clone())) && !with(&|rows| drop(rows.remove(at))) && !with(&|rows| rows.clear()));
    assert!(!with(&|rows| rows[v - 1].push(0)) && !with(&|rows| rows[v - 1].truncate(c.k - 1)) && !with(&|rows| rows[0] = rows[0][1..].to_vec()));
    assert_eq!(answer_length(c, sent), if mirror == 0 { (v - 1) * c.s } else { v * c.s });
}

/// A store of a catalogue.
fn stored(c: Catalogue, draw: &mut Draw) -> Bytes {
    (0..c.k * pack_length(c)).map(|_| draw.below(256) as u8).collect()
}

/// Whole fetches of every N and K: every wanted pack by some keys, with pieces of some lengths in both sums; the bytes of each answer.
fn every_fetch() {
    let mut draw = Draw(88);
    let sizes = [1, 2, 3, 7, 8, 64];
    for (i, c) in all_round().into_iter().enumerate() {
        for (j, key) in some_keys(c, &mut draw).into_iter().enumerate() {
            let s = sizes[(i + j) % sizes.len()];
            fetches_of(Catalogue { s, ..c }, 0..c.k, &key, &mut draw);
            fetches_of(adding(Catalogue { s: s + s % 2, ..c }), 0..c.k, &key, &mut draw);
        }
        let (wanted, key) = (i % c.k, draw.key(c).iter().map(|&x| x as u8).collect::<Bytes>());
        fetches_of(Catalogue { s: 4096, add: i % 2 == 0, ..c }, wanted..wanted + 1, &key, &mut draw);
    }
    for c in [plain(Round, 2, 2, 4096), plain(Round, 3, 2, 4096)] {
        fetches_of(c, 0..c.k, &draw.key(c).iter().map(|&x| x as u8).collect::<Bytes>(), &mut draw);
    }
}

fn fetches_of(c: Catalogue, wanted: std::ops::Range<usize>, key: &[u8], draw: &mut Draw) {
    let store = stored(c, draw);
    for wanted in wanted {
        let v = varieties(c);
        let (shown, gave, pack) = fetched(c, &store, wanted, key, pack_length(c) + 1);
        assert_eq!((gave, &pack[..pack_length(c)], pack[pack_length(c)]), (Ok(()), &store[wanted * pack_length(c)..][..pack_length(c)], 9));
        for (mirror, [sent, got]) in shown.iter().enumerate() {
            assert_eq!((sent.len(), got.len()), (v * c.k, (v - (mirror == 0) as usize) * c.s));
            let refused = |store: &[u8], room: usize| answering(c, NO_DAY, mirror, store, sent, room).err();
            assert_eq!(refused(&store[1..], got.len()), Some(8));
            assert!(c.s > 8 || refused(&store, got.len() - 1) == Some(9));
        }
    }
}

/// What a session takes: mirror 0's answer is a piece shorter than the others', and the place of that piece in its slot is neither written nor read.
fn taken() {
    let mut draw = Draw(888);
    for c in [plain(Round, 2, 2, 3), plain(Round, 3, 3, 2), adding(plain(Round, 4, 2, 4)), plain(Round, 16, 2, 1)] {
        let (store, key) = (stored(c, &mut draw), draw.key(c).iter().map(|&x| x as u8).collect::<Bytes>());
        let mut session = begin(c, 1, &key).unwrap();
        let (mut buffer, mut sent) = (vec![7; c.n * slot(c)], vec![0; request_length(c)]);
        for mirror in 0..c.n {
            let right = slot(c) - if mirror == 0 { c.s } else { 0 };
            session.issue(NO_DAY, mirror, &mut sent).unwrap();
            let got = answering(c, NO_DAY, mirror, &store, &sent, right).unwrap();
            let wrong = [0, right - 1, right + 1, right + c.s, slot(c) - c.s, slot(c)].into_iter().filter(|&length| length != right);
            assert!(wrong.into_iter().all(|length| session.take(mirror, &vec![0; length], &mut buffer) == Err(10)));
            session.take(mirror, &got, &mut buffer).unwrap();
        }
        let meant = &store[pack_length(c)..2 * pack_length(c)];
        let mut recovered = |buffer: &[u8]| {
            let mut pack = vec![9; pack_length(c)];
            session.recover(buffer, &mut pack).unwrap();
            pack
        };
        assert!(buffer[slot(c) - c.s..slot(c)].iter().all(|&b| b == 7));
        for fill in [7, 0, 255] {
            buffer[slot(c) - c.s..slot(c)].fill(fill);
            assert_eq!(recovered(&buffer), meant);
        }
        buffer[slot(c) - c.s - 1] ^= 1;
        assert_ne!(recovered(&buffer), meant);
    }
}

/// All of these.
pub fn rounds() {
    table_4();
    by_hand();
    refused();
    every_list();
    every_request();
    every_fetch();
    taken();
}
