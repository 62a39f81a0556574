//! The round code (02, item 8): the short code once for every block of a pack, by each of its keys once. Keys and rows are looked up in lists of all of
//! them, made by counting up; a list of rows is put in order and compared with the mirror's set; the store is cut into one of the short code for
//! each block; and recovery walks along all answers at once, a step where a row was answered.
use crate::Bytes;
use crate::catalogue::{Catalogue, Short};
use crate::rows::{all_rows, row_answer, short_recover};
use crate::sizes::pack_length;

/// How many keys the short code has, which is how many blocks a pack has: N multiplied up K - 1 times; none where that is more than 64.
pub fn blocks(n: usize, k: usize) -> Option<usize> {
    (1..k).try_fold(1, |v, _| Some(v * n).filter(|&v| v <= 64))
}

/// The catalogue that each block is fetched by.
fn short(c: Catalogue) -> Catalogue {
    Catalogue { code: Short, ..c }
}

/// The keys of the short code, counted up: the last digit moves first.
pub fn short_keys(c: Catalogue) -> Vec<Bytes> {
    all_rows(c.n, c.k - 1)
}

/// The rows that a mirror of the short code admits, in their order.
pub fn mirror_set(c: Catalogue, mirror: usize) -> Vec<Bytes> {
    let total = |row: &Bytes| row.iter().map(|&d| d as usize).sum::<usize>();
    all_rows(c.n, c.k).into_iter().filter(|row| total(row) % c.n == mirror).collect()
}

/// The rows of a request: for each block, the one row of the mirror's set that is the block's key but for its digit of the wanted pack.
pub fn round_rows(c: Catalogue, wanted: usize, mirror: usize, key: &[u8]) -> Vec<Bytes> {
    let (keys, set) = (short_keys(c), mirror_set(c, mirror));
    let others = |row: &Bytes| [&row[..wanted], &row[wanted + 1..]].concat();
    key.iter().map(|&entry| set.iter().find(|row| others(row) == keys[entry as usize]).unwrap().clone()).collect()
}

/// Whether a list of bytes is a mirror's set, in any order.
pub fn round_admits(c: Catalogue, mirror: usize, request: &[u8]) -> bool {
    let mut rows: Vec<Bytes> = request.chunks(c.k).map(|row| row.to_vec()).collect();
    rows.sort();
    rows == mirror_set(c, mirror)
}

/// The blocks of this number of all packs, one after another: a store of the short code.
fn block_store(c: Catalogue, store: &[u8], number: usize) -> Bytes {
    let block = pack_length(short(c));
    store.chunks(pack_length(c)).map(|pack| pack.chunks(block).nth(number).unwrap()).collect::<Vec<_>>().concat()
}

/// The answers to the rows of a request, of which the one to zeros is empty.
pub fn round_answers(c: Catalogue, store: &[u8], request: &[u8]) -> Vec<Bytes> {
    request.chunks(c.k).enumerate().map(|(i, row)| row_answer(short(c), &block_store(c, store, i), row)).collect()
}

/// The rows of a request that are answered.
pub fn answered(c: Catalogue, request: &[u8]) -> usize {
    request.chunks(c.k).filter(|row| row.iter().any(|&d| d != 0)).count()
}

/// The wanted pack: block by block, each mirror's next answer, or none where its row is zeros.
pub fn round_recover(c: Catalogue, wanted: usize, key: &[u8], answers: &[Bytes]) -> Bytes {
    let keys = short_keys(c);
    let mut walks: Vec<_> = answers.iter().enumerate()
        .map(|(mirror, bytes)| (round_rows(c, wanted, mirror, key).into_iter(), bytes.chunks(c.s))).collect();
    let mut pack = Vec::new();
    for &entry in key {
        let block: Vec<Bytes> = walks.iter_mut().map(|(rows, pieces)| match rows.next().unwrap().iter().all(|&d| d == 0) {
            true => Vec::new(),
            false => pieces.next().unwrap().to_vec(),
        }).collect();
        pack.extend(short_recover(short(c), &keys[entry as usize], &block));
    }
    pack
}
