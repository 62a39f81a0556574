//! Inputs of the request printer about the codes that the requests add.
use crate::Bytes;
use crate::catalogue::{Catalogue, Round, Turn, plain, within};
use crate::draws::Draw;
use crate::inputs::{damaged, input, printer_keys};
use crate::inputs::lines::{printer_length, printer_season, printer_sum};
use crate::samples::keys::all_round;
use crate::samples::lines::{OTHER_CODES, OTHER_ROUNDS};
use crate::sizes::varieties;

/// The turning code (02, item 4): every N and a spread of K as of the short code, every turn with zeros before it and with any digits; keys one digit
/// short, a bad first digit, a bad turn; the bounds; lines of the other requests; the word of the code damaged.
pub fn printer_turns(draw: &mut Draw, all: &mut Vec<Bytes>) {
    for c in (2..=16).flat_map(|n| [1, 2, 3, 7, 31, 32].map(|k| plain(Turn, n, k, 4096))) {
        printer_keys(draw, all, c);
        let key = draw.key(c);
        all.push(input(c, 0, &key[1..]).into_bytes());
        all.push(input(c, 0, &[&key[1..], &[c.n - 1]].concat()).into_bytes());
        all.push(input(c, 0, &[&[c.n], &key[1..]].concat()).into_bytes());
        for turn in (0..c.n).filter(|_| c.k == 2 || c.k == 7) {
            let wanted = draw.below(c.k);
            all.push(input(c, wanted, &[&vec![0; c.k - 1][..], &[turn]].concat()).into_bytes());
            all.push(input(c, wanted, &[&key[1..], &[turn]].concat()).into_bytes());
        }
    }
    for (n, k, s) in [(1, 1, 1), (17, 1, 1), (2, 0, 1), (2, 33, 1), (2, 1, 0), (2, 1, 4097), (1, 2, 1), (17, 2, 1), (2, 2, 0), (2, 2, 4097), (99999, 2, 1)] {
        all.push(input(plain(Turn, n, k, s), 0, &[0; 2]).into_bytes());
    }
    printer_sum(draw, all, (Turn, 3, 3));
    printer_season(draw, all, 1, (Turn, 3, 3));
    printer_length(draw, all, 0, (Turn, 3, 3));
    let good = input(plain(Turn, 3, 3, 4), 1, &[2, 0, 1]);
    for line in OTHER_CODES {
        all.push(good.replacen("code=turn\n", line, 1).into_bytes());
    }
    damaged(&good, "code=turn\n", all);
    damaged(&good, "key=2 0 1\n", all);
}

/// The round code (02, item 8): every N and K, and single packs; keys in order, from the last entry down and moved on; bad ones; the bounds, packs one more
/// than N allows among them; lines of the other requests; the word of the code damaged.
pub fn printer_rounds(draw: &mut Draw, all: &mut Vec<Bytes>) {
    for c in [2, 5, 16].map(|n| plain(Round, n, 1, 1)).into_iter().chain(all_round()).map(|c| Catalogue { s: 4096, ..c }) {
        printer_keys(draw, all, c);
        round_keys(draw, all, c);
        if !within(Catalogue { k: c.k + 1, ..c }) {
            all.push(input(Catalogue { k: c.k + 1, ..c }, 0, &draw.key(c)).into_bytes());
        }
    }
    for (n, k, s) in [(1, 1, 1), (17, 1, 1), (2, 0, 1), (2, 8, 1), (2, 33, 1), (2, 65, 1), (16, 17, 1), (4, 99999, 1), (2, 1, 0), (2, 1, 4097), (1, 2, 1),
        (17, 2, 1), (64, 2, 1), (2, 2, 0), (2, 2, 4097), (99999, 2, 1), (0, 2, 1)] {
        all.push(input(plain(Round, n, k, s), 0, &[0, 1]).into_bytes());
    }
    printer_sum(draw, all, (Round, 3, 3));
    printer_season(draw, all, 2, (Round, 3, 2));
    printer_length(draw, all, 0, (Round, 2, 3));
    printer_length(draw, all, 1, (Round, 8, 3));
    let good = input(plain(Round, 3, 2, 4), 1, &[2, 0, 1]);
    for line in OTHER_ROUNDS {
        all.push(good.replacen("code=round\n", line, 1).into_bytes());
    }
    for key in ["", "2 0", "2 0 1 0", "0 1 2 0 1 2", "2 0 2", "2 0 3", "2 0 255", "2 0 256", "2 256 1", "258 0 1", "2 0 01", "2 0 1 ", " 2 0 1", "2  0 1",
        "2,0,1"] {
        all.push(good.replacen("key=2 0 1", &format!("key={key}"), 1).into_bytes());
    }
    damaged(&good, "code=round\n", all);
    damaged(&good, "key=2 0 1\n", all);
}

/// Keys of one catalogue: good in other orders; with an entry in the place of another, or one that is V, 255 or 256 or more, with each other refusal besides;
/// too short.
fn round_keys(draw: &mut Draw, all: &mut Vec<Bytes>, c: Catalogue) {
    let (v, mut key) = (varieties(c), draw.key(c));
    for mut order in [(0..v).collect::<Vec<_>>(), (0..v).rev().collect()] {
        all.push(input(c, c.k - 1, &order).into_bytes());
        order.rotate_left(v / 2);
        all.push(input(c, 0, &order).into_bytes());
    }
    let (place, other) = (draw.below(v), draw.below(v));
    let kept = key[place];
    for entry in [key[other], v, 255, 256, kept + 256, kept + 64, 0, v - 1] {
        key[place] = entry;
        all.push(input(c, other % c.k, &key).into_bytes());
    }
    all.push(input(c, 0, &key[1..]).into_bytes());
    all.push(input(c, c.k, &key[1..]).into_bytes());
    all.push(input(c, c.k, &vec![256; v]).into_bytes());
}
