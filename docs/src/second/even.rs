//! The even code: its process with counters, row by row; answers; recovery, which finds rows again by comparing them.
use crate::Bytes;
use crate::catalogue::Catalogue;
use crate::sizes::{pack_length, pieces};
use crate::sums::{combine, piece, take_away};

/// One row: the packs it has, with the place of each.
pub type Row = Vec<(usize, usize)>;

/// Rows of every mirror for a wanted pack, made block by block, with counters; `made[mirror][block - 1]` in the order made.
pub fn process(c: Catalogue, wanted: usize) -> Vec<Vec<Vec<Row>>> {
    let mut next = vec![0; c.k];
    let mut take = |pack: usize| {
        next[pack] += 1;
        next[pack] - 1
    };
    let mut made: Vec<Vec<Vec<Row>>> = vec![Vec::new(); c.n];
    for mirror in 0..c.n {
        let block = (0..c.k).map(|p| vec![(p, take(p))]).collect();
        made[mirror].push(block);
    }
    for b in 2..=c.k {
        let mut blocks = Vec::new();
        for mirror in 0..c.n {
            let mut block: Vec<Row> = Vec::new();
            for set in sets(c.k, b).into_iter().filter(|set| !set.contains(&wanted)) {
                for _ in 0..(c.n - 1).pow(b as u32 - 1) {
                    block.push(set.iter().map(|&p| (p, take(p))).collect());
                }
            }
            for other in (0..c.n).filter(|&m| m != mirror) {
                for row in made[other][b - 2].iter().filter(|row| row.iter().all(|&(p, _)| p != wanted)) {
                    let mut joined = row.clone();
                    joined.push((wanted, take(wanted)));
                    joined.sort();
                    block.push(joined);
                }
            }
            blocks.push(block);
        }
        for (mirror, block) in blocks.into_iter().enumerate() {
            made[mirror].push(block);
        }
    }
    made
}

/// The sets of `b` of `k` packs as ascending lists, in lexicographic order.
fn sets(k: usize, b: usize) -> Vec<Vec<usize>> {
    let mut all: Vec<Vec<usize>> = (0..1usize << k).map(|x| (0..k).filter(|p| x >> p & 1 == 1).collect()).collect();
    all.retain(|set: &Vec<usize>| set.len() == b);
    all.sort();
    all
}

/// A mirror's rows in the order of the request: by block, then by set, then in the order made.
pub fn listed(made: &[Vec<Row>]) -> Vec<Row> {
    let mut out = Vec::new();
    for block in made {
        let mut block = block.clone();
        block.sort_by_key(|row| row.iter().map(|&(p, _)| p).collect::<Vec<_>>());
        out.extend(block);
    }
    out
}

/// The sets of the rows of a request, from N and K alone.
pub fn layout(c: Catalogue) -> Vec<Vec<usize>> {
    let mut out = Vec::new();
    for b in 1..=c.k {
        for set in sets(c.k, b) {
            for _ in 0..(c.n - 1).pow(b as u32 - 1) {
                out.push(set.clone());
            }
        }
    }
    out
}

pub fn even_answer(c: Catalogue, store: &[u8], request: &[u8]) -> Bytes {
    let mut numbers = request.iter();
    let mut out = Vec::new();
    for set in layout(c) {
        let mut sum = vec![0; c.s];
        for p in set {
            combine(c, &mut sum, piece(c, store, p, *numbers.next().unwrap() as usize));
        }
        out.extend(sum);
    }
    out
}

pub fn even_recover(c: Catalogue, wanted: usize, key: &[u8], answers: &[Bytes]) -> Bytes {
    let mut pack = vec![0; pack_length(c)];
    let made = process(c, wanted);
    let all: Vec<Vec<Row>> = made.iter().map(|m| listed(m)).collect();
    for mirror in 0..c.n {
        for (i, row) in all[mirror].iter().enumerate() {
            let Some(&(_, place)) = row.iter().find(|&&(p, _)| p == wanted) else { continue };
            let mut got = answers[mirror][i * c.s..(i + 1) * c.s].to_vec();
            let rest: Row = row.iter().copied().filter(|&(p, _)| p != wanted).collect();
            if !rest.is_empty() {
                let (m, j) = all.iter().enumerate().filter(|&(m, _)| m != mirror)
                    .find_map(|(m, rows)| rows.iter().position(|r| *r == rest).map(|j| (m, j))).unwrap();
                take_away(c, &mut got, &answers[m][j * c.s..(j + 1) * c.s]);
            }
            let number = key[wanted * pieces(c) + place] as usize;
            pack[number * c.s..(number + 1) * c.s].copy_from_slice(&got);
        }
    }
    pack
}
