//! The turning code, by hand and over all keys.
use crate::Bytes;
use crate::catalogue::{Catalogue, Short, Turn, adding, judged, plain};
use crate::checks::fetched;
use crate::codes::{admits, request};
use crate::rows::all_rows;
use crate::samples::lines::OTHER_CODES;
use crate::session::begin;
use crate::sizes::pack_length;
use crate::text::{read, write_text};

/// The turning code by numbers worked out by hand (02, item 4): the fetches of B1 and B3, turned; its key's length and digits, its texts.
pub fn turning_cards() {
    let c = plain(Turn, 3, 3, 4);
    let rows = |turn: u8| [0, 1, 2].map(|mirror| request(c, 1, mirror, &[2, 0, turn]));
    assert_eq!(rows(0), [[2, 1, 0], [2, 2, 0], [2, 0, 0]]);
    assert_eq!(rows(1), [[2, 2, 0], [2, 0, 0], [2, 1, 0]]);
    assert_eq!(rows(2), [[2, 0, 0], [2, 1, 0], [2, 2, 0]]);
    let b3 = fetched(plain(Turn, 2, 2, 1), &[0x5A, 0xC3], 0, &[0, 1], 1);
    assert_eq!(b3, (vec![[vec![1, 0], vec![0x5A]], [vec![0, 0], vec![]]], Ok(()), vec![0x5A]));
    let begun = |key: &[u8]| begin(c, 1, key).err().unwrap_or(0);
    assert_eq!([&[2, 0][..], &[2, 0, 1, 0], &[], &[2, 0, 2], &[2, 0, 3], &[2, 3, 0], &[3, 0, 0], &[2, 3]].map(begun), [5, 5, 5, 0, 6, 6, 6, 5]);
    assert_eq!([1, 2, 32, 33, 0].map(|k| judged(plain(Turn, 2, k, 1))), [Err(17), Ok(()), Ok(()), Err(2), Err(2)]);
    assert_eq!([1, 2, 16, 17].map(|n| judged(plain(Turn, n, 2, 1))), [Err(2), Ok(()), Ok(()), Err(2)]);
    let text = "code=turn\nmirrors=3\npacks=3\npiece=4\n";
    assert_eq!((read(text.as_bytes()), write_text(c)), (Ok(c), text.to_string()));
    assert!(OTHER_CODES.iter().all(|line| read(text.replacen("code=turn\n", line, 1).as_bytes()) == Err(1)));
}

/// The turning code by what 02, item 4 asks for, over all keys: mirror n's request is the short code's of the mirror whose part it plays; every row at
/// every mirror comes from exactly one key; the row of zeros comes only where the other digits are zeros, and then to the mirror that plays part 0,
/// so that all mirrors have it equally often; a mirror admits all rows and nothing else; every fetch recovers, in both sums.
pub fn turns() {
    for (n, k) in [(2, 2), (2, 3), (2, 5), (3, 2), (3, 3), (4, 2), (4, 3), (5, 2), (7, 2)] {
        let (c, short, all) = (plain(Turn, n, k, 2), plain(Short, n, k, 2), all_rows(n, k));
        assert_eq!(all.len(), n.pow(k as u32));
        let store: Bytes = (0..c.k * pack_length(c)).map(|x| (x * x * 37 + x * 11 + n) as u8).collect();
        for wanted in 0..k {
            let (mut sent, mut nothing) = (vec![Vec::new(); n], vec![0; n]);
            for key in &all {
                let (digits, turn) = (&key[..k - 1], key[k - 1] as usize);
                for (mirror, rows) in sent.iter_mut().enumerate() {
                    let row = request(c, wanted, mirror, key);
                    assert_eq!(row, request(short, wanted, (mirror + turn) % n, digits));
                    assert_eq!(row == vec![0; k], digits.iter().all(|&d| d == 0) && (mirror + turn) % n == 0);
                    nothing[mirror] += (row == vec![0; k]) as usize;
                    rows.push(row);
                }
                for c in [c, adding(c)] {
                    let (_, gave, pack) = fetched(c, &store, wanted, key, pack_length(c));
                    assert_eq!((gave, &pack[..]), (Ok(()), &store[wanted * pack_length(c)..][..pack_length(c)]));
                }
            }
            for mut rows in sent {
                rows.sort();
                assert_eq!(rows, all);
            }
            assert_eq!(nothing, vec![1; n]);
        }
        admissions(c);
    }
}

/// Every row of K digits below N is admitted at every mirror, and no row with a greater digit, and none of another length.
fn admissions(c: Catalogue) {
    for mirror in 0..c.n {
        assert!(all_rows(c.n + 1, c.k).iter().all(|row| admits(c, mirror, row) == row.iter().all(|&d| (d as usize) < c.n)));
        assert!((0..c.k + 3).filter(|&length| length != c.k).all(|length| !admits(c, mirror, &vec![0; length])));
    }
}
