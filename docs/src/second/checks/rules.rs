//! The rules of single requests: balancing digits, the calendar, seasons, lengths.
use crate::Bytes;
use crate::catalogue::{Catalogue, Even, Short, adding, dated, in_season, judged, measured, plain, undated, unmeasured};
use crate::codes::request;
use crate::days::{Day, NO_DAY, calendar, later, place, spelled};
use crate::samples::keys::sum_keys;
use crate::samples::lengths::{all_lines, counted, length_faults, moved_lengths, other_lengths, placed, with_some};
use crate::samples::seasons::{A, B, EDGES, FIRST, HUGE, LAST, PAIRS, PARTS, SEASONS, UNREAL, other_lines};
use crate::sizes::pack_length;
use crate::text::{lines, read, season_text, write_text};

/// The balancing digit (01, 'Short code'): with it the digits sum up to the mirror's number, modulo N, and with no other.
pub fn balancing_digits() {
    for n in 2..=16 {
        for key in sum_keys(n) {
            let c = plain(Short, n, key.len() + 1, 1);
            let key: Bytes = key.into_iter().map(|d| d as u8).collect();
            for (wanted, mirror) in (0..c.k).flat_map(|wanted| (0..n).map(move |mirror| (wanted, mirror))) {
                let row = request(c, wanted, mirror, &key);
                assert_eq!([&row[..wanted], &row[wanted + 1..]].concat(), key);
                for digit in 0..n as u8 {
                    let tried: usize = row.iter().enumerate().map(|(p, &d)| if p == wanted { digit as usize } else { d as usize }).sum();
                    assert_eq!(tried % n == mirror, digit == row[wanted]);
                }
            }
        }
    }
}

/// The calendar, by facts that it was not made from: how many days there are and of which kinds, days known to be a number of days apart, weekdays.
pub fn days() {
    let all = &calendar().days;
    let count = |test: fn(&&Day) -> bool| all.iter().filter(test).count();
    assert_eq!((all.len(), all.len() % 7, all[0], all[146_096]), (146_097, 0, FIRST, LAST));
    assert_eq!((count(|d| d[1..] == [2, 29]), count(|d| d[2] == 31), count(|d| d[2] == 30), count(|d| d[2] == 1)), (97, 7 * 400, 11 * 400, 12 * 400));
    assert_eq!(calendar().places.len(), all.len());
    assert!(all.iter().enumerate().all(|(i, &day)| place(day) == Some(i)));
    assert!(EDGES.iter().all(|&day| place(day).is_some()));
    assert!(UNREAL.iter().chain(&HUGE).chain([&NO_DAY]).all(|&day| place(day).is_none()));
    assert!((2000..2400).all(|year| place([year, 2, 29]).is_some() == (place([year, 12, 31]).unwrap() - place([year, 1, 1]).unwrap() == 365)));
    // 1970 began 10,957 days before 2000: the days on which the seconds since then pass 2^31, 2^32 and ten milliards
    let seconds = [(1 << 31, [2038, 1, 19]), (1 << 32, [2106, 2, 7]), (10_000_000_000, [2286, 11, 20])];
    assert!(seconds.iter().all(|&(seconds, day)| place(day) == Some(seconds / 86_400 - 10_957)));
    // 2000 began on a Saturday; 2024-02-29 was a Thursday, 2100-03-01 will be a Monday
    assert_eq!([FIRST, [2024, 2, 29], [2100, 3, 1]].map(|day| (place(day).unwrap() + 6) % 7), [6, 4, 1]);
    assert_eq!([later([2024, 2, 28], 1), later([2100, 2, 28], 1), later([2025, 1, 1], -1)], [[2024, 2, 29], [2100, 3, 1], [2024, 12, 31]]);
}

/// Seasons by 02, item 1: dates read and written, their refusals, the days in and out of them.
pub fn season_rules() {
    for c in [plain(Short, 3, 3, 4), adding(plain(Even, 2, 2, 2))] {
        for (open, close) in PAIRS.into_iter().chain(SEASONS) {
            assert_eq!(read(write_text(dated(c, open, close)).as_bytes()), Ok(dated(c, open, close)));
            assert_eq!([(close, open), (open, open)].map(|(open, close)| read(write_text(dated(c, open, close)).as_bytes())), [Err(2); 2]);
            let days = [later(close, -1), open, close, NO_DAY, [2023, 2, 29]];
            assert_eq!(days.map(|day| in_season(dated(c, open, close), day)), [Ok(()), Ok(()), Err(14), Err(13), Err(13)]);
            assert_eq!(days.map(|day| in_season(c, day)), [Ok(()); 5]);
        }
        for day in UNREAL {
            assert_eq!([(day, LAST), (FIRST, day)].map(|(open, close)| read(write_text(dated(c, open, close)).as_bytes())), [Err(1); 2]);
        }
        for day in UNREAL.into_iter().chain(HUGE).chain([NO_DAY]) {
            assert_eq!([(day, LAST), (FIRST, day)].map(|(open, close)| judged(dated(c, open, close))), [Err(2); 2]);
        }
        assert_eq!(PARTS.map(|(open, close)| judged(dated(c, open, close))), [Err(2); 7]);
        let good = write_text(dated(undated(c), A, B));
        let lines = season_text(&spelled(A), &spelled(B));
        assert!(other_lines().iter().all(|to| read(good.replacen(&lines, to, 1).as_bytes()) == Err(1)));
    }
    let text = "code=short\nmirrors=3\npacks=3\npiece=4\nopen=2024-02-03\nclose=2025-10-09\nsum=add\n";
    assert_eq!(write_text(adding(dated(plain(Short, 3, 3, 4), A, B))), text);
}

/// Lengths by 02, item 6: read and written, their number, their refusals and the order of these.
pub fn length_rules() {
    for c in [plain(Short, 3, 3, 4), adding(plain(Even, 2, 2, 2)), dated(plain(Short, 2, 31, 40), A, B), dated(adding(plain(Even, 2, 8, 4096)), A, B)] {
        let (good, whole) = (with_some(c), pack_length(c));
        assert_eq!(read(write_text(good).as_bytes()), Ok(good));
        let counts = [0, c.k, 1, c.k - 1, c.k + 1, 2 * c.k].map(|count| read(counted(c, count).as_bytes()).map(unmeasured));
        assert_eq!(counts, [Ok(c), Ok(c), Err(1), Err(1), Err(1), Err(1)]);
        assert_eq!([1, whole].map(|length| judged(placed(good, c.k - 1, length))), [Ok(()); 2]);
        assert!(length_faults(c).into_iter().all(|bad| judged(bad) == Err(2) && judged(adding(Catalogue { s: c.s - 1, ..bad })) == Err(2)));
        assert_eq!([0, whole + 1, 9999999, 10000000].map(|length| read(write_text(placed(good, 1, length)).as_bytes())), [Err(2), Err(2), Err(2), Err(1)]);
    }
    let outcome = |k: usize, count: usize| read(counted(plain(Short, 2, k, 4), count).as_bytes()).err().unwrap_or(0);
    assert_eq!([(40, 39), (40, 40), (40, 41), (40, 32)].map(|(k, count)| outcome(k, count)), [1, 2, 1, 1]);
    assert_eq!([(33, 32), (33, 33), (32, 32), (32, 31), (32, 33)].map(|(k, count)| outcome(k, count)), [1, 2, 0, 1, 1]);
    assert_eq!([(0, 0), (0, 1), (1, 0), (1, 1), (1, 2), (99999, 0), (99999, 3)].map(|(k, count)| outcome(k, count)), [2, 1, 17, 17, 1, 2, 1]);
    assert_eq!([1, 4, 5, 0].map(|length| judged(measured(plain(Short, 2, 1, 4), &[length]))), [Err(17), Err(17), Err(2), Err(2)]);
    assert_eq!([3, 4, 0].map(|length| judged(measured(adding(plain(Short, 2, 2, 3)), &[1, length]))), [Err(15), Err(2), Err(2)]);
    assert!(other_lengths(all_lines()).iter().chain(&moved_lengths()).all(|text| read(text.as_bytes()) == Err(1)));
    let text = "code=short\nmirrors=3\npacks=3\npiece=6\nopen=2024-02-03\nclose=2025-10-09\nsum=add\nlength=7\nlength=6\nlength=12\n";
    assert_eq!(write_text(all_lines()), text);
    assert_eq!(lines(format!("{text}wanted=0\n").as_bytes()), Some((all_lines(), &b"wanted=0\n"[..])));
}
