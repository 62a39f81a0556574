//! What set-up turns away, which refusal of an access comes first, and units that no accesses give.
use crate::catalogue::{Catalogue, Even, Round, Short, Turn, ZERO, adding, dated, measured, plain};
use crate::checks::units::fresh;
use crate::days::NO_DAY;
use crate::samples::lengths::{length_faults, with_some};
use crate::samples::seasons::{A, B};
use crate::unit::{Access, Read, Unit, Write};

/// Numbers of registers that are none, the least and others, among them those whose lowest bytes are a register's.
const NONE: [usize; 9] = [6, 7, 8, 127, 128, 255, 256, 4294967298, usize::MAX];

fn set(c: Catalogue, mirror: usize) -> u8 {
    let (gave, unit) = Unit::set_up(c, mirror);
    assert_eq!(unit, if gave.is_ok() { Unit::empty(c, mirror) } else { Unit::blank() });
    gave.err().unwrap_or(0)
}

/// Both sides of each bound, in the order of the refusals.
pub fn set_ups() {
    for (n, gave) in [(0, 2), (1, 2), (2, 0), (16, 0), (17, 2), (usize::MAX, 2)] {
        assert_eq!([set(plain(Short, n, 2, 1), 0), set(plain(Short, n, 1, 1), 0)], [gave, if gave == 0 { 17 } else { 2 }]);
    }
    for (k, gave) in [(0, 2), (1, 17), (2, 0), (3, 0), (32, 0), (33, 2), (usize::MAX, 2)] {
        assert_eq!([set(plain(Short, 3, k, 9), 2), set(plain(Short, 3, k, 9), 3)], [gave, if gave == 0 { 3 } else { gave }]);
    }
    for (s, gave) in [(0, 2), (1, 0), (63, 0), (64, 0), (65, 2), (4096, 2), (4097, 2), (usize::MAX, 2)] {
        assert_eq!([set(plain(Short, 2, 2, s), 1), set(plain(Short, 2, 1, s), 1)], [gave, if gave == 0 { 17 } else { 2 }]);
    }
    for c in [1, 2].map(|k| plain(Short, 2, k, 2)) {
        let others = [Even, Turn, Round].map(|code| Catalogue { code, ..c }).into_iter().chain([adding(c), adding(Catalogue { s: 1, ..c })]);
        let dates = [(A, B), (B, A), (A, A), (NO_DAY, A), (A, NO_DAY), ([0, 0, 1], NO_DAY), (NO_DAY, [1, 0, 0]), ([0, 1, 0], [0, 1, 0])];
        for other in others.chain(dates.map(|(open, close)| dated(c, open, close))).chain(length_faults(plain(Short, 2, 2, 2))) {
            assert_eq!([0, 1, 2, usize::MAX].map(|mirror| set(other, mirror)), [2; 4]);
        }
        let gave = if c.k == 1 { [17; 3] } else { [0, 0, 3] };
        assert_eq!([0, 1, 2].map(|mirror| set(with_some(c), mirror)), gave);
        assert_eq!(set(measured(c, &vec![3; c.k]), 0), 2);
    }
    for n in 2..=16 {
        assert_eq!([n - 1, n, n + 1, 256, usize::MAX].map(|mirror| set(plain(Short, n, 32, 64), mirror)), [0, 3, 3, 3, 3]);
    }
    assert_eq!([set(ZERO, 0), set(ZERO, 5)], [2, 2]);
}

/// A fault of a unit or an access, its place in the order of refusals, and what it is by itself.
type Fault = (usize, u8, fn(&mut Unit, &mut usize, &mut Vec<u8>));

const FAULTS: [Fault; 10] = [
    (0, 18, |_, register, _| *register = 6),
    (1, 2, |unit, _, _| unit.cat.s += 64),
    (1, 2, |unit, _, _| unit.cat.add = true),
    (1, 2, |unit, _, _| unit.cat.open = A),
    (1, 2, |unit, _, _| unit.cat.lengths[31] = 1),
    (2, 17, |unit, _, store| (unit.cat.k, *store) = (1, store[store.len() / 2..].to_vec())),
    (3, 3, |unit, _, _| unit.mirror = unit.cat.n),
    (4, 8, |_, _, store| store.push(0)),
    (5, 11, |unit, _, _| unit.held = 33),
    (5, 11, |unit, _, _| unit.waiting = unit.cat.s + 1),
];

/// Of any two faults together the first in the order is given, by every access, and nothing moves.
pub fn orders() {
    let (c, good) = (plain(Short, 3, 2, 2), vec![1, 2, 3, 4, 5, 6, 7, 8]);
    for (first, second) in FAULTS.iter().flat_map(|first| FAULTS.iter().map(move |second| (first, second))) {
        for named in 0..=5 {
            let (mut unit, mut register, mut store) = (fresh(c, 1), named, good.clone());
            (unit.held, unit.waiting, unit.kept) = (2, 1, [2, 6, 0, 0, 7, 1]);
            // what depends on other fields goes last
            let (early, late) = if first.0 > second.0 { (second, first) } else { (first, second) };
            (early.2)(&mut unit, &mut register, &mut store);
            (late.2)(&mut unit, &mut register, &mut store);
            for access in [Read(register), Write(register, 0), Write(register, 1), Write(register, 255)] {
                let mut after = unit.clone();
                assert_eq!((after.access(access, &store), &after), (Err(early.1), &unit), "{access:?}");
                assert!(after.line());
            }
        }
    }
    for (unit, register) in [Unit::blank(), fresh(c, 0)].iter().flat_map(|unit| NONE.map(|register| (unit, register))) {
        let mut after = unit.clone();
        let all: [Access; 2] = [Read(register), Write(register, 128)];
        assert_eq!((all.map(|access| after.access(access, &[])), &after), ([Err(18); 2], unit));
    }
    let mut blank = Unit::blank();
    assert_eq!([0, 1, 2, 3, 4, 5].map(|register| (blank.access(Read(register), &[]), blank.line())), [(Err(2), false); 6]);
}

/// Units that no accesses give: each field by itself, and what the next accesses make of it.
pub fn forged() {
    let (c, store) = (plain(Short, 3, 2, 2), [1, 2, 3, 4, 5, 6, 7, 8]);
    let with = |change: fn(&mut Unit)| {
        let mut unit = fresh(c, 1);
        change(&mut unit);
        unit
    };
    for (held, gave) in [(31, Ok(0)), (32, Ok(0)), (33, Err(11)), (64, Err(11)), (usize::MAX, Err(11))] {
        let mut unit = with(|_| ());
        unit.held = held;
        assert_eq!((unit.access(Write(2, 9), &store), unit.held, unit.kept[1]), (gave, held.max(32), 4 * (held == 32) as u8));
    }
    for (waiting, gave, left) in [(0, Ok(0), 0), (1, Ok(8), 0), (2, Ok(7), 1), (3, Err(11), 3), (64, Err(11), 64), (usize::MAX, Err(11), usize::MAX)] {
        let mut unit = with(|unit| unit.answer[..3].copy_from_slice(&[7, 8, 9]));
        unit.waiting = waiting;
        assert_eq!((unit.access(Read(3), &store), unit.waiting), (gave, left));
    }
    // an overrun by itself is a refusal, though the request is good
    let mut unit = with(|unit| (unit.held, unit.request[0], unit.kept[1]) = (2, 1, 4));
    assert_eq!([unit.access(Write(0, 1), &store), unit.access(Read(1), &store), unit.access(Read(4), &store)], [Ok(0), Ok(2), Ok(7)]);
    // the refused bit and the number are each as they are, until a start clears both
    for (refused, number) in [(0, 9), (2, 0), (2, 255), (0, 0)] {
        let mut unit = with(|unit| (unit.held, unit.request[0]) = (2, 1));
        (unit.kept[1], unit.kept[4]) = (refused, number);
        assert_eq!([unit.access(Read(1), &store), unit.access(Read(4), &store), unit.access(Write(0, 1), &store)], [Ok(refused), Ok(number), Ok(0)]);
        assert_eq!([unit.access(Read(1), &store), unit.access(Read(4), &store), unit.access(Read(3), &store)], [Ok(1), Ok(0), Ok(1)]);
    }
    // the line is told of any unit
    for (enable, flag) in [(0, 0), (0, 1), (2, 0), (2, 1)] {
        let mut unit = Unit::blank();
        (unit.kept[0], unit.kept[5], unit.held, unit.waiting) = (enable, flag, usize::MAX, usize::MAX);
        assert_eq!(unit.line(), enable == 2 && flag == 1);
    }
}
