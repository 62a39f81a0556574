//! Numbers that look random: those that choose the cases, and those that the conformance program draws as well.
use crate::Bytes;
use crate::catalogue::Catalogue;
use crate::sizes::{ceiling, key_length, permuted};

/// Numbers that look random and are the same in every run.
pub struct Draw(pub u64);

impl Draw {
    pub fn below(&mut self, n: usize) -> usize {
        self.0 = self.0.wrapping_mul(6364136223846793005).wrapping_add(1442695040888963407);
        (self.0 >> 33) as usize % n
    }

    pub fn key(&mut self, c: Catalogue) -> Vec<usize> {
        if !permuted(c) {
            return (0..key_length(c)).map(|_| self.below(c.n)).collect();
        }
        let mut key = Vec::new();
        while key.len() < key_length(c) {
            let mut permutation: Vec<usize> = (0..ceiling(c)).collect();
            for i in (1..permutation.len()).rev() {
                permutation.swap(i, self.below(i + 1));
            }
            key.extend(permutation);
        }
        key
    }
}

/// The numbers that keys and stores are drawn from, in `conformance` as here.
fn next(x: u64) -> u64 {
    (x * 1103515245 + 12345) % (1 << 31)
}

fn drawn(x: u64, n: usize) -> usize {
    (x >> 16) as usize % n
}

pub fn fill_drawn(seed: u64, n: usize, out: &mut [u8]) {
    let mut x = seed;
    for place in out.iter_mut() {
        x = next(x);
        *place = drawn(x, n) as u8;
    }
}

/// A key of the catalogue's code, and more of the same up to `length` bytes; for the seed 0, zeros or permutations in order.
pub fn drawn_key(seed: u64, c: Catalogue, length: usize) -> Bytes {
    let mut out = vec![0; length];
    if !permuted(c) {
        if seed > 0 {
            fill_drawn(seed, c.n, &mut out);
        }
        return out;
    }
    let mut x = seed;
    for permutation in out.chunks_exact_mut(ceiling(c)) {
        for (i, entry) in permutation.iter_mut().enumerate() {
            *entry = i as u8;
        }
        for i in (1..permutation.len()).rev().filter(|_| seed > 0) {
            x = next(x);
            permutation.swap(i, drawn(x, i + 1));
        }
    }
    out
}
