//! Whole fetches, in both sums, and by keys whose sums come to N.
use crate::cases::Cases;
use crate::catalogue::{Catalogue, Short, adding, plain};
use crate::samples::keys::{all_even, fitted, some, sum_keys};
use crate::sizes::{key_length, pack_length, permuted};

impl Cases {
    /// Whole fetches: every (N, K) of the even code, every wanted pack; a spread of the short one; two keys each, one in order or of zeros.
    pub fn fetches(&mut self) {
        self.put("# fetches".to_string());
        let sizes = [1, 2, 4096, 3, 33, 4096, 256, 1000];
        for (i, c) in all_even().into_iter().chain(some(Short, &[2, 3, 8, 31, 32])).enumerate() {
            self.fetches_of(fitted(c, sizes[i % sizes.len()]));
        }
    }

    pub fn fetches_of(&mut self, c: Catalogue) {
        self.catalogue(c);
        let (store, other) = (1 + self.draw.below(9999), self.draw.below(c.k));
        self.put(format!("s {store} {}", c.k * pack_length(c)));
        for wanted in (0..c.k).filter(|&w| permuted(c) || w == 0 || w == c.k / 2 || w + 1 == c.k) {
            let key = 1 + self.draw.below(9999);
            self.put(format!("k {key} {}\nx {wanted}", key_length(c)));
        }
        self.put(format!("k 0 {}\nx {other}\nx {}", key_length(c), c.k));
    }

    /// Whole fetches of servers that add: every (N, K) of the even code and a spread of the short one, the first, a middle or the last pack; the
    /// answer buffer is full of ones before, so that an empty answer's slot is not zeros.
    pub fn added_fetches(&mut self) {
        self.put("# fetches by addition\nz 255".to_string());
        for (i, c) in all_even().into_iter().chain(some(Short, &[2, 3, 32])).enumerate() {
            self.added_fetches_of(i, c);
        }
    }

    pub fn added_fetches_of(&mut self, i: usize, c: Catalogue) {
        let sizes = [2, 4096, 4, 34, 4096, 256, 1000, 6];
        let c = fitted(adding(c), sizes[i % sizes.len()]);
        self.catalogue(c);
        let store = 1 + self.draw.below(9999);
        let wanted = [0, c.k / 2, c.k - 1][i % 3];
        let key = 1 + self.draw.below(9999);
        self.put(format!("s {store} {}\nk {key} {1}\nx {wanted}\nk 0 {1}\nx {2}", c.k * pack_length(c), key_length(c), c.k - 1 - wanted));
    }

    /// Whole fetches by keys whose sums come to N, or nearly, on the way (02, item 3): every key of one digit, those of two that sum up to N, and, of 3
    /// and of 16 mirrors, those of 31.
    pub fn digit_sums(&mut self) {
        self.put("# sums of digits".to_string());
        for n in 2..=16 {
            let chosen = |key: &Vec<usize>| match key.len() {
                1 => true,
                2 => key[0] + key[1] == n,
                _ => n == 3 || n == 16,
            };
            let mut last = 0;
            for key in sum_keys(n).into_iter().filter(chosen) {
                let c = plain(Short, n, key.len() + 1, 1);
                if last != key.len() {
                    self.catalogue(c);
                    self.lend(c);
                    last = key.len();
                }
                self.put(format!("k 0 {last}"));
                for (place, digit) in key.iter().enumerate().filter(|(_, &digit)| digit != 0) {
                    self.put(format!("o {place} {digit}"));
                }
                self.put(format!("x {}", key.iter().sum::<usize>() % c.k));
            }
        }
    }
}
