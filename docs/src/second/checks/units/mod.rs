//! The answer unit (02, item 12): against what is told from the log of accesses, over all short lists and long drawn ones, and against runs by hand.
mod log;
mod hand;
mod faults;

use crate::Bytes;
use crate::catalogue::{Catalogue, Short, plain};
use crate::codes::answering;
use crate::days::NO_DAY;
use crate::draws::Draw;
use crate::rows::all_rows;
use crate::sizes::pack_length;
use crate::unit::{Access, Read, Unit, Write};
use log::Log;

/// A unit after set-up.
pub fn fresh(c: Catalogue, mirror: usize) -> Unit {
    let (gave, unit) = Unit::set_up(c, mirror);
    assert_eq!((gave, &unit), (Ok(()), &Unit::empty(c, mirror)));
    unit
}

pub fn store_of(c: Catalogue, draw: &mut Draw) -> Bytes {
    (0..c.k * pack_length(c)).map(|_| draw.below(256) as u8).collect()
}

/// Makes an access on the unit and in the log: the byte, all that the unit holds, all that it would read, and its line are as the log tells.
fn agreed(unit: &mut Unit, log: &mut Log, access: Access, store: &[u8]) {
    let before = unit.clone();
    assert_eq!(unit.access(access, store), Ok(log.push(access, store)), "{access:?} on {before:?}");
    assert_eq!((&*unit, unit.line()), (&log.unit(), log.line()), "{access:?} on {before:?}");
    let reads: [u8; 6] = std::array::from_fn(|register| unit.clone().access(Read(register), store).unwrap());
    assert_eq!(reads, log.registers(), "after {access:?} on {before:?}");
    // what is refused leaves everything
    let mut kept = unit.clone();
    let refusals = [kept.access(Read(6), store), kept.access(Write(3, 1), &store[1..]), kept.access(Write(256, 1), &[]), kept.access(Read(3), &[])];
    assert_eq!((refusals, &kept), ([Err(18), Err(8), Err(18), Err(8)], &*unit));
}

/// All lists of so many accesses, and their starts.
fn all_lists(unit: &Unit, log: &Log, steps: &[Access], depth: usize, store: &[u8]) {
    for &access in steps.iter().filter(|_| depth > 0) {
        let (mut unit, mut log) = (unit.clone(), log.clone());
        agreed(&mut unit, &mut log, access, store);
        all_lists(&unit, &log, steps, depth - 1, store);
    }
}

/// All short lists of accesses for small catalogues, from set-up, and from when the request is all but full.
fn short_lists() {
    let steps = [Write(2, 0), Write(2, 1), Write(0, 1), Write(0, 2), Write(0, 3), Write(0, 129), Read(3), Write(5, 1)];
    let others = [Write(2, 2), Write(0, 0), Write(0, 0x7D), Write(0, 255), Write(5, 0xFE), Write(1, 255), Write(3, 255), Write(4, 255), Read(0), Read(1),
        Read(2), Read(4), Read(5)];
    let all = [&steps[..], &others].concat();
    let mut draw = Draw(12);
    for (n, s, deep) in [(2, 1, 6), (2, 2, 5), (3, 2, 5)] {
        let c = plain(Short, n, 2, s);
        let store = store_of(c, &mut draw);
        for mirror in 0..n {
            let (unit, log) = (fresh(c, mirror), Log::new(c, mirror));
            all_lists(&unit, &log, &steps, if mirror == 0 { deep } else { deep - 1 }, &store);
            all_lists(&unit, &log, &all, 3, &store);
            for many in 30..=33 {
                let (mut unit, mut log) = (unit.clone(), log.clone());
                (0..many).for_each(|i| agreed(&mut unit, &mut log, Write(2, i % 2), &store));
                all_lists(&unit, &log, &steps, 4, &store);
            }
        }
    }
}

/// Accesses of which many are good requests and starts.
fn some_accesses(c: Catalogue, mirror: usize, draw: &mut Draw) -> Vec<Access> {
    let mut row: Bytes = (0..c.k).map(|_| draw.below(c.n) as u8).collect();
    let rest: usize = row[1..].iter().map(|&d| d as usize).sum();
    row[0] = ((mirror + 32 * c.n - rest) % c.n) as u8;
    let value = |draw: &mut Draw| [0, 1, 2, 3, 4, 128, 131, draw.below(256) as u8][draw.below(8)];
    match draw.below(8) {
        0..=2 => row.into_iter().map(|d| Write(2, d)).chain([Write(0, 1 + draw.below(2) as u8 * 2)]).collect(),
        3 => vec![Read(3); draw.below(c.s + 2)],
        4 => vec![Write(2, value(draw)); draw.below(40)],
        5 => vec![Write(draw.below(6), value(draw))],
        6 => vec![Write(0, value(draw) & 127), Read(1), Write(5, value(draw))],
        _ => vec![Read(draw.below(6)), Write(2, value(draw))],
    }
}

/// Long lists, over many catalogues.
fn long_lists() {
    let mut draw = Draw(13);
    for (n, k, s) in [(2, 2, 1), (2, 2, 64), (3, 2, 5), (5, 4, 3), (16, 32, 1), (2, 32, 7), (16, 2, 63), (7, 31, 2), (4, 3, 33)] {
        let c = plain(Short, n, k, s);
        for mirror in [0, 1, n - 1] {
            let (mut unit, mut log) = (fresh(c, mirror), Log::new(c, mirror));
            for _ in 0..60 {
                // each group of accesses has a store of its own
                let store = store_of(c, &mut draw);
                for access in some_accesses(c, mirror, &mut draw) {
                    agreed(&mut unit, &mut log, access, &store);
                }
            }
            assert_eq!((unit.access(Write(0, 128), &store_of(c, &mut draw)), unit), (Ok(0), fresh(c, mirror)));
        }
    }
}

/// Every request of K digits, and some of other lengths, is answered through the registers as the answering end answers it.
fn answered() {
    let mut draw = Draw(14);
    for (n, k, s) in [(2, 2, 1), (2, 3, 64), (3, 2, 2), (4, 2, 5), (3, 3, 7)] {
        let c = plain(Short, n, k, s);
        let store = store_of(c, &mut draw);
        for (mirror, row) in (0..n).flat_map(|mirror| (0..=k + 1).flat_map(move |length| all_rows(n + 1, length).into_iter().map(move |row| (mirror, row)))) {
            let mut unit = fresh(c, mirror);
            row.iter().for_each(|&d| assert_eq!(unit.access(Write(2, d), &store), Ok(0)));
            unit.access(Write(0, 1), &store).unwrap();
            let mut get = |register| unit.access(Read(register), &store).unwrap();
            let gave = answering(c, NO_DAY, mirror, &store, &row, s);
            assert_eq!([get(4), get(5)], [gave.as_ref().err().copied().unwrap_or(0), 1]);
            for &byte in gave.as_deref().unwrap_or(&[]) {
                assert_eq!([get(1), get(3)], [1, byte]);
            }
            assert_eq!([get(1), get(3), get(1)], [2 * gave.is_err() as u8, 0, 2 * gave.is_err() as u8]);
        }
    }
}

pub fn units() {
    hand::by_hand();
    hand::all_values();
    hand::many_bytes();
    faults::set_ups();
    faults::orders();
    faults::forged();
    answered();
    short_lists();
    long_lists();
}
