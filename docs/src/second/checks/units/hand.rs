//! Runs of accesses worked out by hand, sentence by sentence of 02, item 12.
use crate::catalogue::{Short, measured, plain};
use crate::checks::units::{fresh, store_of};
use crate::draws::Draw;
use crate::unit::{Access, Read, Unit, Write};

/// What each access must give: the byte of a read, 0 for a write.
fn run(unit: &mut Unit, store: &[u8], steps: &[(Access, u8)]) {
    for (i, &(access, byte)) in steps.iter().enumerate() {
        assert_eq!(unit.access(access, store), Ok(byte), "step {i} of {steps:?}");
    }
}

/// The smallest catalogue, and the store of the bench cards.
const STORE: [u8; 2] = [0x5A, 0xC3];

pub fn by_hand() {
    let c = plain(Short, 2, 2, 1);
    // a request, its answer, the flag and the line; then the flag is cleared
    let mut unit = fresh(c, 0);
    run(&mut unit, &STORE, &[(Write(2, 1), 0), (Write(2, 1), 0), (Read(1), 0), (Read(5), 0), (Write(0, 3), 0)]);
    assert!(unit.line());
    run(&mut unit, &STORE, &[(Read(5), 1), (Read(4), 0), (Read(1), 1), (Read(3), 0x99), (Read(1), 0), (Read(3), 0), (Read(5), 1)]);
    run(&mut unit, &STORE, &[(Write(5, 0xFE), 0), (Read(5), 1), (Write(5, 0), 0), (Read(5), 1), (Read(0), 2), (Write(5, 1), 0), (Read(5), 0)]);
    assert!(!unit.line());
    // a refused start: the bit, the number, the flag, and nothing to read; the next start is a good one and clears both
    run(&mut unit, &STORE, &[(Write(2, 1), 0), (Write(0, 1), 0), (Read(0), 0), (Read(1), 2), (Read(4), 7), (Read(5), 1), (Read(3), 0)]);
    assert!(!unit.line());
    run(&mut unit, &STORE, &[(Write(2, 0), 0), (Write(2, 0), 0), (Read(1), 2), (Read(4), 7), (Write(5, 1), 0), (Write(0, 1), 0)]);
    // which is answered with no bytes, so that nothing waits, and yet it has finished
    run(&mut unit, &STORE, &[(Read(1), 0), (Read(4), 0), (Read(5), 1), (Read(3), 0)]);
    // a start of no bytes at all is refused; the request was emptied by the last one
    run(&mut unit, &STORE, &[(Write(0, 1), 0), (Read(4), 7), (Read(1), 2)]);
    ignored_starts();
    resets();
    ignored_writes();
    other_stores();
}

/// Start while an answer waits: nothing but bit 1.
fn ignored_starts() {
    let (c, store) = (plain(Short, 2, 2, 2), [1, 2, 4, 8]);
    let mut unit = fresh(c, 1);
    run(&mut unit, &store, &[(Write(2, 1), 0), (Write(2, 0), 0), (Write(0, 1), 0), (Write(5, 1), 0), (Write(2, 0), 0), (Write(2, 1), 0)]);
    run(&mut unit, &store, &[(Write(0, 3), 0), (Read(0), 2), (Read(1), 1), (Read(5), 0), (Read(3), 1), (Write(0, 1), 0), (Read(0), 0), (Read(5), 0)]);
    // the bytes that were written meanwhile are the next request, once the answer has been read
    run(&mut unit, &store, &[(Read(3), 2), (Read(1), 0), (Write(0, 3), 0), (Read(1), 1), (Read(5), 1), (Read(3), 4), (Read(3), 8), (Read(3), 0)]);
    // an overrun meanwhile stays until a start that is not ignored
    run(&mut unit, &store, &[(Write(2, 0), 0), (Write(2, 1), 0), (Write(0, 1), 0)]);
    (0..33).for_each(|_| run(&mut unit, &store, &[(Write(2, 1), 0)]));
    run(&mut unit, &store, &[(Read(1), 5), (Write(0, 1), 0), (Read(1), 5), (Read(4), 0), (Read(3), 4), (Read(3), 8), (Read(1), 4)]);
    run(&mut unit, &store, &[(Write(0, 1), 0), (Read(1), 2), (Read(4), 7), (Write(2, 1), 0), (Write(2, 0), 0), (Write(0, 1), 0), (Read(1), 1)]);
}

/// Reset wins over the other bits, and clears all but what set-up gave, the enable bit too.
fn resets() {
    let c = plain(Short, 2, 2, 1);
    for value in 128..=255 {
        let mut unit = fresh(c, 0);
        run(&mut unit, &STORE, &[(Write(2, 1), 0), (Write(0, 3), 0), (Write(2, 1), 0), (Write(2, 1), 0), (Write(0, value), 0)]);
        assert_eq!(unit, fresh(c, 0));
        run(&mut unit, &STORE, &[(Write(2, 1), 0), (Write(2, 1), 0), (Write(0, 2), 0), (Write(0, value), 0), (Write(0, 1), 0), (Read(4), 7), (Read(0), 0)]);
    }
    let mut unit = fresh(c, 0);
    (0..34).for_each(|_| run(&mut unit, &STORE, &[(Write(2, 1), 0)]));
    run(&mut unit, &STORE, &[(Read(1), 4), (Write(0, 0x83), 0), (Read(1), 0), (Read(5), 0)]);
    assert_eq!(unit, fresh(c, 0));
}

/// Registers 1, 3 and 4 ignore writes, and 2 reads 0.
fn ignored_writes() {
    let c = plain(Short, 2, 2, 2);
    let (store, mut unit) = ([9, 8, 7, 6], fresh(c, 0));
    run(&mut unit, &store, &[(Write(2, 1), 0), (Write(2, 1), 0), (Write(0, 3), 0), (Write(2, 1), 0)]);
    for value in 0..=255 {
        let before = unit.clone();
        run(&mut unit, &store, &[(Write(1, value), 0), (Write(3, value), 0), (Write(4, value), 0), (Read(2), 0)]);
        assert_eq!(unit, before);
    }
    run(&mut unit, &store, &[(Read(3), 9 ^ 7), (Read(3), 8 ^ 6), (Write(0, 1), 0), (Read(4), 7)]);
}

/// The answer is of the store lent at the start; lengths of packs change nothing.
fn other_stores() {
    for c in [plain(Short, 2, 2, 1), measured(plain(Short, 2, 2, 1), &[1, 1])] {
        let mut unit = fresh(c, 0);
        run(&mut unit, &[1, 1], &[(Write(2, 1), 0), (Write(2, 1), 0)]);
        run(&mut unit, &STORE, &[(Write(0, 1), 0)]);
        run(&mut unit, &[0, 0], &[(Read(3), 0x99)]);
    }
}

/// All values of the two registers that have bits to write, on a unit that has nothing, one with a request, and one with an answer.
pub fn all_values() {
    let c = plain(Short, 2, 2, 1);
    for value in 0..=255u8 {
        let (reset, start, enable) = (value >= 128, value % 2, value & 2);
        let (mut unit, mut asked, mut waits) = (fresh(c, 0), fresh(c, 0), fresh(c, 0));
        run(&mut unit, &STORE, &[(Write(0, 2), 0), (Write(0, value), 0)]);
        run(&mut asked, &STORE, &[(Write(2, 1), 0), (Write(2, 1), 0), (Write(0, value), 0)]);
        run(&mut waits, &STORE, &[(Write(2, 1), 0), (Write(2, 1), 0), (Write(0, 1), 0), (Write(0, value), 0)]);
        let reads = |unit: &mut Unit| [0, 1, 4, 5, 3].map(|register| unit.access(Read(register), &STORE).unwrap());
        if reset {
            assert_eq!([&mut unit, &mut asked, &mut waits].map(reads), [[0; 5]; 3]);
        } else {
            assert_eq!(reads(&mut unit), [enable, 2 * start, 7 * start, start, 0]);
            assert_eq!(reads(&mut asked), [enable, start, 0, start, 0x99 * start]);
            assert_eq!(reads(&mut waits), [enable, 1, 0, 1, 0x99]);
        }
        let mut flagged = fresh(c, 0);
        run(&mut flagged, &STORE, &[(Write(5, value), 0), (Read(5), 0), (Write(0, 3), 0), (Write(5, value), 0), (Read(5), 1 - start), (Read(0), 2)]);
        assert_eq!(flagged.line(), start == 0);
    }
}

/// Requests of 32 bytes, and of more: a byte too many is dropped, and the start refused though the first 32 are good; then all is as before.
pub fn many_bytes() {
    let (c, mut draw) = (plain(Short, 2, 32, 64), Draw(15));
    let store = store_of(c, &mut draw);
    for many in [31, 32, 33, 34, 64, 65, 300] {
        let (mut unit, good, over) = (fresh(c, 1), many == 32, many > 32);
        run(&mut unit, &store, &[(Write(2, 1), 0)]);
        (1..many).for_each(|_| run(&mut unit, &store, &[(Write(2, 0), 0), (Read(2), 0)]));
        run(&mut unit, &store, &[(Read(1), 4 * over as u8), (Write(0, 1), 0), (Read(1), if good { 1 } else { 2 }), (Read(4), 7 * !good as u8)]);
        assert_eq!(unit.held, 0);
        (0..64).for_each(|i| run(&mut unit, &store, &[(Read(3), if good { store[i] } else { 0 })]));
        run(&mut unit, &store, &[(Read(3), 0), (Read(1), 2 * !good as u8)]);
        (0..31).for_each(|_| run(&mut unit, &store, &[(Write(2, 0), 0)]));
        run(&mut unit, &store, &[(Write(2, 1), 0), (Write(0, 1), 0), (Read(1), 1), (Read(4), 0), (Read(3), store[31 * 64])]);
    }
    // the 33rd byte is the one that is dropped, and not the 32nd
    let mut unit = fresh(c, 1);
    (0..32).for_each(|i| run(&mut unit, &store, &[(Write(2, i), 0)]));
    run(&mut unit, &store, &[(Write(2, 99), 0), (Write(2, 98), 0)]);
    assert_eq!((unit.held, unit.request), (32, std::array::from_fn(|i| i as u8)));
}
