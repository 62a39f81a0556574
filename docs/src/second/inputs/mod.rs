//! Inputs of the request printer.
mod codes;
mod lines;

use crate::Bytes;
use crate::catalogue::{Catalogue, Even, Short, plain, within};
use crate::draws::Draw;
use crate::inputs::codes::{printer_rounds, printer_turns};
use crate::inputs::lines::{printer_lengths, printer_seasons, printer_sums};
use crate::samples::keys::sum_keys;
use crate::sizes::{ceiling, permuted};
use crate::text::write_text;

/// Inputs of the printer: every (N, K) of the even code and a spread of the short one, single packs too, every wanted pack; each refusal
/// from both sides of its condition; damaged texts; then the turning code's and the round code's.
pub fn printer_inputs() -> Vec<Bytes> {
    let mut draw = Draw(2026);
    let mut all: Vec<Bytes> = Vec::new();
    for n in 2..=16 {
        let even = (1..=8).map(|k| plain(Even, n, k, 1)).filter(|&c| within(c));
        let short = [1, 2, 3, 7, 31, 32].into_iter().map(|k| plain(Short, n, k, 4096));
        for c in even.chain(short).collect::<Vec<_>>() {
            printer_keys(&mut draw, &mut all, c);
        }
    }
    for (code, n, k, s) in [(Short, 1, 1, 1), (Short, 17, 1, 1), (Short, 2, 0, 1), (Short, 2, 33, 1), (Short, 2, 1, 0), (Short, 2, 1, 4097),
        (Short, 1, 2, 1), (Short, 17, 2, 1), (Short, 2, 2, 0), (Short, 2, 2, 4097), (Even, 1, 1, 1), (Even, 17, 1, 1), (Even, 2, 1, 0), (Even, 2, 1, 4097),
        (Even, 2, 9, 1), (Even, 3, 6, 1), (Even, 4, 5, 1), (Even, 5, 4, 1), (Even, 6, 4, 1), (Even, 7, 3, 1), (Even, 16, 3, 1), (Short, 99999, 99999, 99999)] {
        all.push(input(plain(code, n, k, s), 0, &[0]).into_bytes());
    }
    let good = input(plain(Short, 3, 3, 4), 1, &[2, 0]);
    for (from, to) in [("2 0\n", "2  0\n"), ("2 0\n", " 2 0\n"), ("2 0\n", "2 0 \n"), ("2 0\n", "2 0"), ("2 0\n", "2 0\n\n"), ("2 0\n", "02 0\n"),
        ("2 0\n", "2 000000\n"), ("2 0\n", "\n"), ("2 0\n", "2\t0\n"), ("wanted=1", "wanted=01"), ("wanted=1", "wanted="), ("wanted=1", "wanted=100000"),
        ("wanted=", "Wanted="), ("key=", "keys="), ("mirrors=3", "mirrors=3 "), ("packs=3", "packs=003"), ("piece=4\n", "piece=4\n\n"),
        ("code=short", "code=shorts")] {
        all.push(good.replacen(from, to, 1).into_bytes());
    }
    for at in 0..good.len() {
        let mut text = good.clone().into_bytes();
        text[at] ^= 1;
        all.push(text.clone());
        text.truncate(at);
        all.push(text);
    }
    // a single pack in a damaged text, and with everything else wrong
    for code in [Short, Even] {
        let c = plain(code, 3, 1, 4);
        let one = input(c, 0, &draw.key(c));
        for (from, to) in [("wanted=0", "wanted=00"), ("packs=1", "packs=01"), ("piece=4\n", "piece=4\n\n"), ("key=", "keys="), ("key=", "key= ")] {
            all.push(one.replacen(from, to, 1).into_bytes());
        }
        all.push(one.trim_end().as_bytes().to_vec());
        all.push(format!("{one}\n").into_bytes());
        all.push(input(c, 7, &[9, 9, 99999, 9]).into_bytes());
    }
    for (n, key) in (2..=16).flat_map(|n| sum_keys(n).into_iter().map(move |key| (n, key))) {
        all.push(input(plain(Short, n, key.len() + 1, 1), key.iter().sum::<usize>() % (key.len() + 1), &key).into_bytes());
    }
    printer_sums(&mut draw, &mut all);
    printer_seasons(&mut draw, &mut all);
    printer_lengths(&mut draw, &mut all);
    all.push(vec![b'0'; 65536]);
    all.push([good.as_bytes(), &vec![b' '; 65537 - good.len()]].concat());
    all.push((0..=255).collect());
    printer_turns(&mut draw, &mut all);
    printer_rounds(&mut draw, &mut all);
    all
}

pub fn input(c: Catalogue, wanted: usize, key: &[usize]) -> String {
    let key: Vec<String> = key.iter().map(|x| x.to_string()).collect();
    format!("{}wanted={wanted}\nkey={}\n", write_text(c), key.join(" "))
}

/// Keys of a catalogue: wanted packs, one that is none, a number too many, and bad numbers in the last place.
pub fn printer_keys(draw: &mut Draw, all: &mut Vec<Bytes>, c: Catalogue) {
    for wanted in (0..c.k).filter(|&w| c.k < 8 || w % 5 == 0 || w + 1 == c.k) {
        all.push(input(c, wanted, &draw.key(c)).into_bytes());
    }
    let key = draw.key(c);
    all.push(input(c, c.k, &key).into_bytes());
    all.push(input(c, 0, &[&key[..], &[0]].concat()).into_bytes());
    for bad in [ceiling(c), 256, 99999] {
        let mut broken = key.clone();
        if let Some(last) = broken.last_mut() {
            *last = bad;
            all.push(input(c, 0, &broken).into_bytes());
        }
    }
    if permuted(c) && key.len() > 1 {
        let mut twice = key.clone();
        twice[0] = twice[1];
        all.push(input(c, 0, &twice).into_bytes());
    }
}

/// A text with each byte of these lines of it changed, left out, and cut off with all that follows.
pub fn damaged(good: &str, lines: &str, all: &mut Vec<Bytes>) {
    let line = good.find(lines).unwrap();
    for at in line..line + lines.len() {
        let mut text = good.as_bytes().to_vec();
        text[at] ^= 1;
        all.push(text.clone());
        text.remove(at);
        all.push(text.clone());
        text.truncate(at);
        all.push(text);
    }
}
