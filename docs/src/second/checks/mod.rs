//! The second implementation checked against what it was not made from.
mod papers;
mod rules;
mod turns;
mod rounds;
mod meters;
mod units;
mod corrections;

use crate::Bytes;
use crate::catalogue::{Catalogue, Even, Round, Short, Turn, adding, admitted, dated, has_dates, measured, plain};
use crate::codes::{answering, request};
use crate::days::{NO_DAY, later};
use crate::draws::Draw;
use crate::samples::lengths::placed;
use crate::samples::seasons::SEASONS;
use crate::session::begin;
use crate::sizes::{pack_length, request_length, slot};
use crate::sums::{combine, take_away};
use crate::text::{read, write_text};

/// Every check; the first that fails stops the program.
pub fn all() {
    papers::tables();
    papers::cards();
    rules::balancing_digits();
    turns::turning_cards();
    turns::turns();
    rounds::rounds();
    added_words();
    rules::days();
    rules::season_rules();
    rules::length_rules();
    meters::meters();
    units::units();
    corrections::corrections();
    fetches();
    cut_packs();
    println!("second implementation: papers' tables, bench cards, balancing digits, turns, rounds, calendar, lengths, meters, answer unit, corrections and \
        whole fetches agree");
}

/// The sum of 02, item 2, by its words: low byte first, carried into the high one, wrapping at 65,536, nothing carried into the next word.
pub fn added_words() {
    let c = adding(plain(Short, 2, 2, 4));
    for (a, b, sum) in [
        ([0xFF, 0x00, 1, 2], [0x01, 0x00, 3, 4], [0x00, 0x01, 4, 6]),
        ([0xFF, 0xFF, 0, 0], [0x01, 0x00, 0, 0], [0x00, 0x00, 0, 0]),
        ([0xFF, 0xFF, 0xFF, 0xFF], [0xFF, 0xFF, 0xFF, 0xFF], [0xFE, 0xFF, 0xFE, 0xFF]),
        ([0x00, 0x80, 0x34, 0x12], [0x00, 0x80, 0xCD, 0xAB], [0x00, 0x00, 0x01, 0xBE]),
    ] {
        let (mut made, mut back) = (a.to_vec(), sum.to_vec());
        combine(c, &mut made, &b);
        take_away(c, &mut back, &b);
        assert_eq!((made, back), (sum.to_vec(), a.to_vec()));
    }
}

/// Whole fetches: every (N, K) of the even and the round code and a spread of the short and the turning one recover each wanted pack, in both sums, by the same
/// requests; with a season too, on its days and on no other.
pub fn fetches() {
    let mut draw = Draw(1);
    for n in 2..=16 {
        let permuted = (2..=8).flat_map(|k| [Even, Round].map(|code| plain(code, n, k, 2)));
        let rows = [2, 5, 32].into_iter().flat_map(|k| [Short, Turn].map(|code| (code, k)));
        let rows = rows.flat_map(|(code, k)| [plain(code, n, k, 3), plain(code, n, k, 6)]);
        let both = permuted.chain(rows).flat_map(|c| [c, adding(c)]);
        let (open, close) = SEASONS[n % SEASONS.len()];
        let all = both.flat_map(|c| [c, dated(c, open, close)]).filter(|&c| admitted(c));
        for c in all.collect::<Vec<_>>() {
            assert_eq!(read(write_text(c).as_bytes()), Ok(c));
            let store: Bytes = (0..c.k * pack_length(c)).map(|_| draw.below(256) as u8).collect();
            for wanted in 0..c.k {
                let key: Bytes = draw.key(c).iter().map(|&x| x as u8).collect();
                let mut session = begin(c, wanted, &key).unwrap();
                let (mut buffer, mut answers, mut pack) = (vec![0; 1024], vec![7; n * slot(c)], vec![9; pack_length(c) + 1]);
                assert_eq!(session.recover(&answers, &mut pack), Err(12));
                for mirror in 0..n {
                    let today = if mirror % 2 == 0 { open } else { later(close, -1) };
                    session.issue(today, mirror, &mut buffer).unwrap();
                    assert_eq!(buffer[..request_length(c)], request(Catalogue { add: !c.add, ..c }, wanted, mirror, &key));
                    let answer = answering(c, today, mirror, &store, &buffer[..request_length(c)], slot(c)).unwrap();
                    if has_dates(c) {
                        assert_eq!(session.issue(close, mirror, &mut buffer), Err(14));
                        assert_eq!(answering(c, NO_DAY, mirror, &store, &buffer[..request_length(c)], slot(c)), Err(13));
                    }
                    session.take(mirror, &answer, &mut answers).unwrap();
                    assert_eq!(session.take(mirror, &answer, &mut answers), Err(11));
                }
                session.recover(&answers, &mut pack).unwrap();
                assert_eq!(pack[..pack_length(c)], store[wanted * pack_length(c)..(wanted + 1) * pack_length(c)]);
                assert_eq!(pack[pack_length(c)], 9);
            }
        }
    }
}

/// A fetch as a lab makes it, into a pack buffer of nines: what each mirror was sent and answered, what recover gave, and the buffer.
pub fn fetched(c: Catalogue, store: &[u8], wanted: usize, key: &[u8], room: usize) -> (Vec<[Bytes; 2]>, Result<(), u8>, Bytes) {
    let mut session = begin(c, wanted, key).unwrap();
    let (mut shown, mut answers, mut pack) = (Vec::new(), vec![7; c.n * slot(c)], vec![9; room]);
    for mirror in 0..c.n {
        let mut request = vec![0; request_length(c)];
        session.issue(NO_DAY, mirror, &mut request).unwrap();
        let answer = answering(c, NO_DAY, mirror, store, &request, slot(c)).unwrap();
        session.take(mirror, &answer, &mut answers).unwrap();
        shown.push([request, answer]);
    }
    let gave = session.recover(&answers, &mut pack);
    (shown, gave, pack)
}

/// Fetches with lengths: mirrors are sent and send what they are without; the pack is the store's first bytes, and nothing behind them is written; 9
/// exactly where the length has no room. Where packs end in zeros, the lengths tell which of them are padding.
pub fn cut_packs() {
    let mut draw = Draw(6);
    for (code, n, k, s) in [(Short, 2, 2, 1), (Short, 4, 3, 5), (Short, 3, 32, 4), (Even, 2, 3, 2), (Even, 3, 2, 3), (Even, 2, 2, 4),
        (Turn, 4, 3, 5), (Turn, 3, 2, 4), (Round, 2, 3, 5), (Round, 3, 2, 4)] {
        let c = Catalogue { add: s % 2 == 0, ..plain(code, n, k, s) };
        let (whole, store): (usize, Bytes) = (pack_length(c), (0..k * pack_length(c)).map(|_| draw.below(256) as u8).collect());
        for length in 1..=whole {
            let wanted = length % k;
            let key: Bytes = draw.key(c).iter().map(|&x| x as u8).collect();
            let long = placed(measured(c, &vec![whole - length / 2; k]), wanted, length);
            let (shown, gave, pack) = fetched(long, &store, wanted, &key, whole + 1);
            assert_eq!((gave, &pack[..length]), (Ok(()), &store[wanted * whole..][..length]));
            assert!(pack[length..].iter().all(|&b| b == 9));
            assert_eq!(fetched(c, &store, wanted, &key, whole).0, shown);
            assert_eq!(fetched(long, &store, wanted, &key, length).1, Ok(()));
            assert_eq!(fetched(long, &store, wanted, &key, length - 1), (shown, Err(9), vec![9; length - 1]));
        }
    }
    let (c, store) = (plain(Short, 3, 2, 2), [5, 0, 0, 0, 6, 0, 0, 0]);
    let packs = [measured(c, &[2, 3]), measured(c, &[3, 2]), c].map(|c| fetched(c, &store, 0, &[1], 5).2);
    assert_eq!(packs, [[5, 0, 9, 9, 9], [5, 0, 0, 9, 9], [5, 0, 0, 0, 9]]);
}
