//! The speed of `gozimpe_answer`, beside a plain loop in Rust over the same store and requests. A measurement, not a test.
//!
//! Words here are document 01's: mirror, pack, piece, request. The plain loop is what a programmer would write first: for each row, for
//! each of its pieces, for each byte, exclusive or; under `sum=add`, for each word, addition. It reads no catalogue, checks nothing, and is given
//! the rows of packs ready made.
//!
//!     scripts/bench           builds the archive and this program, and prints the tables of docs/BENCHMARKS.md
use std::hint::black_box;
use std::time::Instant;

extern "C" {
    fn gozimpe_answer(
        catalogue: *const u8, catalogue_len: usize, year: u32, month: u32, day: u32, mirror: u64, store: *const u8, store_len: usize,
        request: *const u8, request_len: usize, answer: *mut u8, answer_len: usize,
    ) -> i64;
}

const ROUNDS: usize = 301;
const REQUESTS: usize = 16;
/// A batch of calls takes about this long, so that reading the clock costs nothing beside it.
const BATCH_NANOSECONDS: f64 = 200_000.0;

#[derive(Clone, Copy, PartialEq)]
enum Code {
    Short,
    Even,
    Round,
}

#[derive(Clone, Copy)]
struct Shape {
    code: Code,
    n: usize,
    k: usize,
    s: usize,
    add: bool,
}

const fn short(n: usize, k: usize, s: usize) -> Shape {
    Shape { code: Code::Short, n, k, s, add: false }
}

const fn even(n: usize, k: usize, s: usize) -> Shape {
    Shape { code: Code::Even, n, k, s, add: false }
}

const fn round(n: usize, k: usize, s: usize) -> Shape {
    Shape { code: Code::Round, n, k, s, add: false }
}

const fn adding(shape: Shape) -> Shape {
    Shape { add: true, ..shape }
}

/// Stores of 1 MiB or more, four of them with pieces that begin at odd offsets, five of them added.
const LARGE: [Shape; 20] = [
    short(16, 32, 4096), short(9, 32, 4096), short(16, 32, 2300), short(16, 32, 4095), even(2, 8, 4096),
    even(16, 2, 4096), even(4, 4, 1024), even(6, 3, 4096), even(3, 5, 1001), even(2, 8, 512),
    adding(short(16, 32, 4096)), adding(short(16, 32, 2300)), adding(even(2, 8, 4096)), adding(even(4, 4, 1024)),
    round(8, 3, 4096), round(2, 7, 4096), round(4, 4, 4096), round(16, 2, 4096), round(4, 4, 1601), adding(round(8, 3, 4096)),
];

/// Short pieces: what a call costs beside its bytes.
const SMALL: [Shape; 20] = [
    short(2, 2, 1), short(16, 32, 1), short(16, 32, 16), short(16, 32, 64), even(2, 2, 1), even(2, 3, 16),
    even(2, 8, 1), even(2, 8, 16), even(2, 8, 64), even(4, 4, 16), even(16, 2, 16), even(16, 2, 64),
    adding(short(2, 2, 2)), adding(short(16, 32, 64)), adding(even(2, 8, 64)),
    round(2, 2, 1), round(2, 7, 1), round(2, 7, 64), round(8, 3, 16), round(16, 2, 64),
];

/// Xorshift: the same stores and requests in each run.
struct Random(u64);

impl Random {
    fn below(&mut self, bound: usize) -> usize {
        self.0 ^= self.0 << 13;
        self.0 ^= self.0 >> 7;
        self.0 ^= self.0 << 17;
        (self.0 >> 11) as usize % bound
    }
}

impl Shape {
    /// The blocks of a pack: several in the round code alone.
    fn blocks(self) -> usize {
        if self.code == Code::Round { self.n.pow(self.k as u32 - 1) } else { 1 }
    }

    fn pieces(self) -> usize {
        if self.code == Code::Even { self.n.pow(self.k as u32) } else { self.blocks() * (self.n - 1) }
    }

    /// Which mirror is asked. In the round code mirror 0 has nothing to send for one row; the others answer each.
    fn mirror(self) -> usize {
        (self.code == Code::Round) as usize
    }

    /// The piece that a number names in a row of a request; in the codes over rows of digits, 0 names none.
    fn piece(self, row: usize, number: usize) -> Option<usize> {
        match self.code {
            Code::Even => Some(number),
            _ => number.checked_sub(1).map(|d| row * (self.n - 1) + d),
        }
    }

    fn name(self) -> &'static str {
        match self.code {
            Code::Short => "short",
            Code::Even => "even",
            Code::Round => "round",
        }
    }

    fn text(self) -> String {
        let code = self.name();
        let sum = if self.add { "sum=add\n" } else { "" };
        format!("code={code}\nmirrors={}\npacks={}\npiece={}\n{sum}", self.n, self.k, self.s)
    }

    /// The packs of each row of a request, in order.
    fn rows(self) -> Vec<Vec<usize>> {
        if self.code != Code::Even {
            return vec![(0..self.k).collect(); self.blocks()];
        }
        let mut sets: Vec<Vec<usize>> =
            (1..1usize << self.k).map(|set| (0..self.k).filter(|p| set >> p & 1 == 1).collect()).collect();
        sets.sort_by_key(|set| (set.len(), set.clone()));
        sets.iter().flat_map(|set| vec![set.clone(); (self.n - 1).pow(set.len() as u32 - 1)]).collect()
    }

    /// The rows of the mirror's set in a drawn order, each once.
    fn round_request(self, random: &mut Random) -> Vec<u8> {
        let mut left: Vec<usize> = (0..self.blocks()).collect();
        (0..self.blocks()).flat_map(|_| {
            let i = random.below(left.len());
            let mut rest = left.swap_remove(i);
            let mut row = vec![0; self.k];
            for digit in row[..self.k - 1].iter_mut() {
                *digit = (rest % self.n) as u8;
                rest /= self.n;
            }
            let sum: usize = row.iter().map(|&d| d as usize).sum();
            row[self.k - 1] = ((self.mirror() + self.k * self.n - sum) % self.n) as u8;
            row
        }).collect()
    }

    /// A request that the mirror admits and that has a piece to answer with.
    fn request(self, rows: &[Vec<usize>], random: &mut Random) -> Vec<u8> {
        if self.code == Code::Round {
            return self.round_request(random);
        }
        if self.code == Code::Short {
            let mut row: Vec<u8> = (1..self.k).map(|_| random.below(self.n) as u8).collect();
            row[0] = 1 + random.below(self.n - 1) as u8;
            let sum: usize = row.iter().map(|&d| d as usize).sum();
            row.push(((self.n - sum % self.n) % self.n) as u8);
            return row;
        }
        let mut unused: Vec<Vec<u8>> = (0..self.k).map(|_| (0..self.pieces()).map(|x| x as u8).collect()).collect();
        rows.iter().flatten().map(|&p| {
            let i = random.below(unused[p].len());
            unused[p].swap_remove(i)
        }).collect()
    }

    /// Where the pieces that a request names begin in the store, row by row.
    fn starts(self, rows: &[Vec<usize>], request: &[u8]) -> Vec<Vec<usize>> {
        let mut numbers = request.iter().map(|&x| x as usize);
        rows.iter().enumerate().map(|(i, row)| row.iter().filter_map(|&p| {
            let x = numbers.next().unwrap();
            self.piece(i, x).map(|piece| (p * self.pieces() + piece) * self.s)
        }).collect()).collect()
    }
}

/// The library's call.
fn library(text: &str, mirror: usize, store: &[u8], request: &[u8], answer: &mut [u8]) -> i64 {
    unsafe {
        gozimpe_answer(
            text.as_ptr(), text.len(), 2026, 11, 16, mirror as u64, store.as_ptr(), store.len(),
            request.as_ptr(), request.len(), answer.as_mut_ptr(), answer.len(),
        )
    }
}

/// The plain loop.
#[inline(never)]
fn plain(shape: Shape, rows: &[Vec<usize>], store: &[u8], request: &[u8], answer: &mut [u8]) {
    let (s, pieces) = (shape.s, shape.pieces());
    let mut numbers = request.iter();
    for (row, packs) in rows.iter().enumerate() {
        let out = &mut answer[row * s..(row + 1) * s];
        out.fill(0);
        for (&pack, &number) in packs.iter().zip(&mut numbers) {
            let Some(piece) = shape.piece(row, number as usize) else {
                continue;
            };
            let start = (pack * pieces + piece) * s;
            let piece = &store[start..start + s];
            if shape.add {
                for (to, from) in out.chunks_exact_mut(2).zip(piece.chunks_exact(2)) {
                    let sum = u16::from_le_bytes([to[0], to[1]]).wrapping_add(u16::from_le_bytes([from[0], from[1]]));
                    to.copy_from_slice(&sum.to_le_bytes());
                }
            } else {
                for (to, from) in out.iter_mut().zip(piece) {
                    *to ^= *from;
                }
            }
        }
    }
}

/// The same pieces read as words of eight bytes into one sum: no answer is written, so this is about as fast as they can be read.
#[inline(never)]
fn words(s: usize, store: &[u8], starts: &[Vec<usize>]) -> u64 {
    let mut sum = 0;
    for &start in starts.iter().flatten() {
        for word in store[start..start + s].chunks_exact(8) {
            sum ^= u64::from_ne_bytes(word.try_into().unwrap());
        }
    }
    sum
}

/// The same pieces copied to their row's place in the answer, each over the last.
#[inline(never)]
fn copies(s: usize, store: &[u8], starts: &[Vec<usize>], answer: &mut [u8]) {
    for (row, starts) in starts.iter().enumerate() {
        for &start in starts {
            answer[row * s..(row + 1) * s].copy_from_slice(&store[start..start + s]);
        }
    }
}

/// A shape with a store and requests, and all that the sides are handed.
struct Case {
    shape: Shape,
    text: String,
    rows: Vec<Vec<usize>>,
    store: Vec<u8>,
    requests: Vec<Vec<u8>>,
    starts: Vec<Vec<Vec<usize>>>,
    answer: Vec<u8>,
}

impl Case {
    fn new(shape: Shape) -> Case {
        let mut random = Random(0x9E37_79B9_7F4A_7C15);
        let rows = shape.rows();
        let store = (0..shape.k * shape.pieces() * shape.s).map(|_| random.below(256) as u8).collect();
        let requests: Vec<Vec<u8>> = (0..REQUESTS).map(|_| shape.request(&rows, &mut random)).collect();
        let starts = requests.iter().map(|request| shape.starts(&rows, request)).collect();
        let answer = vec![0xA5; rows.len() * shape.s];
        Case { shape, text: shape.text(), rows, store, requests, starts, answer }
    }

    /// Both sides answer every request with the same bytes.
    fn check(&mut self) {
        let mut expected = self.answer.clone();
        for request in &self.requests {
            assert_eq!(library(&self.text, self.shape.mirror(), &self.store, request, &mut self.answer), expected.len() as i64);
            plain(self.shape, &self.rows, &self.store, request, &mut expected);
            assert!(self.answer == expected, "the two sides write different answers");
        }
    }

    /// Nanoseconds for each of `calls` calls of one side: library, plain loop, words, copies.
    fn time(&mut self, side: usize, calls: usize) -> f64 {
        let begin = Instant::now();
        for call in 0..calls {
            let (request, starts) = (black_box(&self.requests[call % REQUESTS]), black_box(&self.starts[call % REQUESTS]));
            match side {
                0 => drop(black_box(library(&self.text, self.shape.mirror(), &self.store, request, black_box(&mut self.answer)))),
                1 => plain(self.shape, &self.rows, &self.store, request, black_box(&mut self.answer)),
                2 => drop(black_box(words(self.shape.s, &self.store, starts))),
                _ => copies(self.shape.s, &self.store, starts, black_box(&mut self.answer)),
            }
        }
        begin.elapsed().as_nanos() as f64 / calls as f64
    }

    /// The bytes of the pieces that a request names, on average.
    fn bytes_read(&self) -> f64 {
        let named: usize = self.starts.iter().flatten().map(Vec::len).sum();
        (named * self.shape.s) as f64 / REQUESTS as f64
    }
}

/// Nanoseconds for each call, and ratios of the library's to the plain loop's, each from one round; sorted.
struct Measured {
    times: [Vec<f64>; 4],
    ratios: Vec<f64>,
    bytes_read: f64,
    store: usize,
}

fn sorted(mut values: Vec<f64>) -> Vec<f64> {
    values.sort_by(f64::total_cmp);
    values
}

/// The value below which `percent` of the sorted values lie.
fn centile(values: &[f64], percent: usize) -> f64 {
    values[(values.len() - 1) * percent / 100]
}

fn measure(shape: Shape) -> Measured {
    let mut case = Case::new(shape);
    case.check();
    let mut calls = REQUESTS;
    while case.time(0, calls) * (calls as f64) < BATCH_NANOSECONDS {
        calls += REQUESTS;
    }
    let mut times: [Vec<f64>; 4] = Default::default();
    for round in 0..ROUNDS {
        for turn in 0..4 {
            let side = (round + turn) % 4;
            times[side].push(case.time(side, calls));
        }
    }
    let ratios = sorted(times[0].iter().zip(&times[1]).map(|(a, b)| a / b).collect());
    Measured { times: times.map(sorted), ratios, bytes_read: case.bytes_read(), store: case.store.len() }
}

fn ratio_text(ratios: &[f64]) -> String {
    format!("{:.2} ({:.2} to {:.2})", centile(ratios, 50), centile(ratios, 10), centile(ratios, 90))
}

fn name(shape: Shape) -> String {
    let (code, sum) = (shape.name(), if shape.add { " add" } else { "" });
    format!("{code} {} {} {}{sum}", shape.n, shape.k, shape.s)
}

fn main() {
    println!("Each ratio is library / plain loop, in one round; median of {ROUNDS} rounds (tenth to ninetieth centile).\n");
    println!("| code N K S | store MiB | ratio | library us | plain us | library GB/s | plain GB/s | words GB/s | copies GB/s |");
    println!("|---|---|---|---|---|---|---|---|---|");
    for shape in LARGE {
        let m = measure(shape);
        let typical = |side: usize| centile(&m.times[side], 50);
        let rate = |side: usize| m.bytes_read / typical(side);
        println!(
            "| {} | {:.2} | {} | {:.1} | {:.1} | {:.1} | {:.1} | {:.1} | {:.1} |",
            name(shape), m.store as f64 / 1048576.0, ratio_text(&m.ratios), typical(0) / 1000.0, typical(1) / 1000.0,
            rate(0), rate(1), rate(2), rate(3),
        );
    }
    println!("\n| code N K S | store bytes | ratio | library ns | plain ns |");
    println!("|---|---|---|---|---|");
    for shape in SMALL {
        let m = measure(shape);
        println!(
            "| {} | {} | {} | {:.0} | {:.0} |",
            name(shape), m.store, ratio_text(&m.ratios), centile(&m.times[0], 50), centile(&m.times[1], 50),
        );
    }
}
