//! The papers' tables and the bench cards.
use crate::Bytes;
use crate::catalogue::{Even, Short, judged, plain};
use crate::codes::{admits, answer, request};
use crate::even::{Row, listed, process};
use crate::printer::printed;
use crate::session::begin;
use crate::sizes::rows;

/// A row as the papers write it: letters are packs, numbers places counted from 1.
fn shown(row: &Row) -> String {
    let terms: Vec<String> = row.iter().map(|&(p, place)| format!("{}{}", (b'a' + p as u8) as char, place + 1)).collect();
    terms.join("+")
}

/// What 003 prints for every mirror, IV-C (for N = 3, K = 3, wanted 1, mirror 2 as in IV-A: IV-C prints a3+b14 and b15+c3 there).
const PAPER: &[(usize, usize, usize, [&str; 3])] = &[
    (2, 2, 0, ["a1 b1 a3+b2", "a2 b2 a4+b1", ""]),
    (2, 2, 1, ["a1 b1 a2+b3", "a2 b2 a1+b4", ""]),
    (3, 3, 0, [
        "a1 b1 c1 a4+b2 a6+b3 a5+c2 a7+c3 b4+c4 b5+c5 a16+b6+c6 a17+b7+c7 a18+b8+c8 a19+b9+c9",
        "a2 b2 c2 a8+b1 a10+b3 a9+c1 a11+c3 b6+c6 b7+c7 a20+b4+c4 a21+b5+c5 a22+b8+c8 a23+b9+c9",
        "a3 b3 c3 a12+b1 a14+b2 a13+c1 a15+c2 b8+c8 b9+c9 a24+b4+c4 a25+b5+c5 a26+b6+c6 a27+b7+c7",
    ]),
    (3, 3, 1, [
        "a1 b1 c1 a2+b4 a3+b6 a4+c4 a5+c5 b5+c2 b7+c3 a6+b16+c6 a7+b17+c7 a8+b18+c8 a9+b19+c9",
        "a2 b2 c2 a1+b8 a3+b10 a6+c6 a7+c7 b9+c1 b11+c3 a4+b20+c4 a5+b21+c5 a8+b22+c8 a9+b23+c9",
        "a3 b3 c3 a1+b12 a2+b14 a8+c8 a9+c9 b13+c1 b15+c2 a4+b24+c4 a5+b25+c5 a6+b26+c6 a7+b27+c7",
    ]),
    (3, 3, 2, [
        "a1 b1 c1 a4+b4 a5+b5 a2+c4 a3+c6 b2+c5 b3+c7 a6+b6+c16 a7+b7+c17 a8+b8+c18 a9+b9+c19",
        "a2 b2 c2 a6+b6 a7+b7 a1+c8 a3+c10 b1+c9 b3+c11 a4+b4+c20 a5+b5+c21 a8+b8+c22 a9+b9+c23",
        "a3 b3 c3 a8+b8 a9+b9 a1+c12 a2+c14 b1+c13 b2+c15 a4+b4+c24 a5+b5+c25 a6+b6+c26 a7+b7+c27",
    ]),
];

/// Table III of 000: the request sets of the three mirrors for N = K = 3.
const TABLE_3: [&str; 3] = [
    "000 012 021 102 111 120 201 210 222",
    "001 010 022 100 112 121 202 211 220",
    "002 011 020 101 110 122 200 212 221",
];

pub fn tables() {
    for &(n, k, wanted, ref mirrors) in PAPER {
        let c = plain(Even, n, k, 1);
        for mirror in 0..n {
            let rows: Vec<String> = listed(&process(c, wanted)[mirror]).iter().map(shown).collect();
            assert_eq!(rows.join(" "), mirrors[mirror], "003, N={n} K={k} wanted {wanted}, mirror {mirror}");
        }
    }
    let c = plain(Short, 3, 3, 1);
    for mirror in 0..3 {
        let all = (0..27u8).map(|x| [x / 9, x / 3 % 3, x % 3]).filter(|q| admits(c, mirror, q));
        let shown: Vec<String> = all.map(|q| q.iter().map(|d| d.to_string()).collect()).collect();
        assert_eq!(shown.join(" "), TABLE_3[mirror], "000, Table III, mirror {mirror}");
    }
    // 000, III-C: key (0, 2), wanted pack 1
    let requests: Vec<Bytes> = (0..3).map(|m| request(c, 1, m, &[0, 2])).collect();
    assert_eq!(requests, [[0, 1, 2], [0, 2, 2], [0, 0, 2]]);
    // 000, Table I: answers 0 and a, a+b and b; 0 and b, a+b and a
    let (c, store) = (plain(Short, 2, 2, 1), [0x5A, 0xC3]);
    let table_1: Vec<Vec<Bytes>> = [(0, 0u8), (0, 1), (1, 0), (1, 1)].iter()
        .map(|&(wanted, key)| (0..2).map(|m| answer(c, &store, &request(c, wanted, m, &[key]))).collect()).collect();
    assert_eq!(table_1, [[vec![], vec![0x5A]], [vec![0x99], vec![0xC3]], [vec![], vec![0xC3]], [vec![0x99], vec![0x5A]]]);
}

pub fn cards() {
    let b1 = "code=short\nmirrors=3\npacks=3\npiece=4\nwanted=1\nkey=2 0\n";
    assert_eq!(printed(b1.as_bytes()), "mirror=0 request=2 1 0\nmirror=1 request=2 2 0\nmirror=2 request=2 0 0\n");
    let c = plain(Even, 2, 2, 1);
    let key = [0, 1, 2, 3, 0, 1, 2, 3];
    assert_eq!([request(c, 0, 0, &key), request(c, 0, 1, &key)], [[0, 0, 2, 1], [1, 1, 3, 0]]);
    assert_eq!([request(c, 1, 0, &key), request(c, 1, 1, &key)], [[0, 0, 1, 2], [1, 1, 0, 3]]);
    let count = |n, k| rows(plain(Even, n, k, 1));
    assert_eq!([count(3, 3), count(2, 8), count(16, 2)], [13, 255, 17]);
    assert_eq!([8, 9].map(|k| judged(plain(Even, 2, k, 1))), [Ok(()), Err(2)]);
    // B11 and B12, as 02, item 9 has them
    assert_eq!(begin(plain(Short, 2, 1, 1), 0, &[]).err(), Some(17));
    assert_eq!(printed(b"code=short\nmirrors=2\npacks=1\npiece=1\nwanted=0\nkey=\n"), "refused=17\n");
    assert_eq!(begin(plain(Even, 2, 1, 1), 0, &[0, 0]).err(), Some(17));
}
