//! Lines about texts and bounds, the papers' tables, and single words.
use crate::cases::Cases;
use crate::catalogue::{Even, Short, ZERO, adding, plain};
use crate::samples::lines::OTHER_SUMS;
use crate::text::write_text;

impl Cases {
    /// Catalogue texts, good and damaged, and writing them with the room that they need, less and more.
    pub fn texts(&mut self) {
        self.put("# texts".to_string());
        for (code, n, k, s) in [(Short, 2, 2, 1), (Short, 16, 32, 4096), (Even, 2, 8, 128), (Even, 16, 2, 10), (Short, 3, 3, 4)] {
            let text = write_text(plain(code, n, k, s));
            self.written(&text, &[text.len(), text.len() - 1, text.len() + 3, 0], &["wanted=0\n"]);
        }
        self.text(b"code=short\nmirrors=17\npacks=3\npiece=4\n");
        self.put("w 100".to_string());
        self.text(b"code=even\nmirrors=99999\npacks=99999\npiece=99999\n\n");
        let good = write_text(plain(Short, 3, 12, 40));
        for (from, to) in [("short", "Short"), ("short", "shorts"), ("short", ""), ("mirrors=3", "mirrors=03"), ("mirrors=3", "mirrors="),
            ("mirrors=3", "mirrors=0"), ("mirrors=3", "mirrors=+3"), ("mirrors=3", " mirrors=3"), ("mirrors=3", "mirrors=3 "), ("packs=12", "packs=00"),
            ("packs=12", "packs=000012"), ("packs=12", "packs=100012"), ("packs=12", "packs=1x"), ("piece=40\n", "piece=40"), ("piece=40\n", "piece=40\r\n"),
            ("piece=40", "piece=40960"), ("piece", "pieces"), ("mirrors=3\npacks=12", "packs=12\nmirrors=3"),
            ("code=short\n", ""), ("code=short\n", "code=short\ncode=short\n")] {
            self.text(good.replacen(from, to, 1).as_bytes());
        }
        self.damaged(&good, &good);
        self.text(b"code=short\nmirrors=3\npacks=3\npiece=\xB4\n");
    }

    /// Texts with a line of the sum (02, item 2): good, damaged, misplaced, and before more lines; with a fault of the value besides.
    pub fn sum_texts(&mut self) {
        self.put("# texts with a sum".to_string());
        for (code, n, k, s) in [(Short, 2, 2, 2), (Short, 16, 32, 4096), (Even, 2, 8, 128), (Even, 16, 2, 10), (Short, 3, 3, 4)] {
            let text = write_text(adding(plain(code, n, k, s)));
            let rooms = [text.len(), text.len() - 1, text.len() - 8, text.len() + 3];
            self.written(&text, &rooms, &["wanted=0\n", "sum=add\n", "sum=xor\n", "s", "\n"]);
        }
        let good = write_text(adding(plain(Short, 3, 12, 40)));
        for to in OTHER_SUMS {
            self.text(good.replacen("sum=add\n", to, 1).as_bytes());
        }
        for (from, to) in [("piece=40\nsum=add\n", "sum=add\npiece=40\n"), ("packs", "sum=add\npacks"), ("code", "sum=add\ncode"), ("piece=40\n", ""),
            ("piece=40\n", "piece=041\n"), ("packs=12", "packs=1"), ("packs=12", "packs=33"), ("mirrors=3", "mirrors=1")] {
            self.text(good.replacen(from, to, 1).as_bytes());
        }
        self.damaged(&good, "sum=add\n");
    }

    /// Each bound of the catalogue from both sides.
    pub fn bounds(&mut self) {
        self.put("# bounds".to_string());
        for n in [0, 1, 2, 16, 17, 99999] {
            self.catalogue(plain(Short, n, 5, 9));
            self.catalogue(plain(Even, n, 2, 9));
            self.catalogue(plain(Short, n, 1, 9));
            self.catalogue(plain(Even, n, 1, 9));
        }
        for k in [0, 1, 2, 32, 33, 99999] {
            self.catalogue(plain(Short, 3, k, 9));
        }
        for s in [0, 1, 4096, 4097, 99999] {
            self.catalogue(plain(Short, 3, 2, s));
            self.catalogue(plain(Even, 3, 2, s));
        }
        for s in [0, 1, 2, 3, 4094, 4095, 4096, 4097, 4098, 99999] {
            for (code, n, k) in [(Short, 3, 2), (Even, 3, 2), (Short, 3, 1), (Even, 17, 2)] {
                self.catalogue(adding(plain(code, n, k, s)));
            }
        }
        for n in 2..=16usize {
            for k in 0..=9 {
                let near = |k: usize| n.saturating_pow(k as u32) <= 256;
                if near(k) || k > 0 && near(k - 1) {
                    self.catalogue(plain(Even, n, k, 4096));
                }
            }
        }
    }

    /// The requests and answers of the papers' tables: I to III of 000 and those of 003, with keys that leave places in order.
    pub fn papers(&mut self) {
        self.optional(ZERO);
        self.put("# 000, table I".to_string());
        self.put("c 0 2 2 1\ns 1 2\nd 0 90\nd 1 195".to_string());
        for (key, wanted) in [(0, 0), (1, 0), (0, 1), (1, 1)] {
            self.put(format!("k 0 1\no 0 {key}\nb {wanted}\ni 0 2\na 0 2 1\ni 1 2\na 1 2 1"));
        }
        self.put("# 000, table II and 003, N = K = 2".to_string());
        self.put("c 1 2 2 1\ns 1 8\nk 0 8".to_string());
        for place in 0..8 {
            self.put(format!("d {place} {}", 1 << place));
        }
        for wanted in 0..2 {
            self.put(format!("b {wanted}\ni 0 4\na 0 4 3\ni 1 4\na 1 4 3"));
        }
        self.put("# 000, table III and section III-C".to_string());
        self.put("c 0 3 3 1\ns 1 6".to_string());
        for place in 0..6 {
            self.put(format!("d {place} {}", 1 << place));
        }
        for x in 0..27 {
            self.put(format!("q 0 {}\nq 1 {}\nq 2 {}", x / 9, x / 3 % 3, x % 3));
            self.put("a 0 3 1\na 1 3 1\na 2 3 1".to_string());
        }
        self.put("k 0 2\no 1 2\nb 1\ni 0 3\na 0 3 1\ni 1 3\na 1 3 1\ni 2 3\na 2 3 1".to_string());
        self.put("# 003, N = K = 3".to_string());
        self.put("c 1 3 3 1\nk 0 81".to_string());
        for wanted in 0..3 {
            self.put(format!("b {wanted}\ni 0 27\ni 1 27\ni 2 27"));
        }
    }

    /// Single words added and taken away again: a carry from the low byte into the high one and none beyond, the wrap at 65,536, a borrow, and bytes
    /// that are no words of exclusive or; in both codes, and by each key of the short one.
    pub fn words(&mut self) {
        self.put("# words".to_string());
        for (x, y) in [(0x00FF, 0x0001), (0xFFFF, 0x0001), (0xFFFF, 0xFFFF), (0x8000, 0x8000), (0xFF00, 0x0100), (0x0100, 0x00FF), (0x1234, 0xABCD), (0, 0)] {
            for s in [2, 4] {
                // each pack's first word, and zeros after it
                self.catalogue(adding(plain(Short, 2, 2, s)));
                self.put(format!("s 0 {}\nz 255", 2 * s));
                let bytes: [usize; 4] = [x & 255, x >> 8, y & 255, y >> 8];
                for (place, byte) in [0, 1, s, s + 1].into_iter().zip(bytes) {
                    self.put(format!("d {place} {byte}"));
                }
                for place in (0..2 * s).filter(|p| p % s > 1) {
                    self.put(format!("d {place} 0"));
                }
                self.put(format!("q 0 1\nq 1 1\na 0 2 {s}"));
                for key in 0..2 {
                    self.put(format!("k 0 1\no 0 {key}\nx 0\nx 1"));
                }
            }
        }
        self.catalogue(adding(plain(Even, 2, 2, 2)));
        self.put("s 9 16\nk 0 8\nx 0\nx 1\nk 3 8\nx 0\nx 1".to_string());
        for place in 0..16 {
            self.put(format!("d {place} {}", if place < 8 { 255 } else { place % 2 * 254 + 1 }));
        }
        self.put("x 0\nx 1\nk 0 8\nb 0\ni 0 4\na 0 4 6\ni 1 4\na 1 4 6".to_string());
    }
}
