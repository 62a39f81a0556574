//! Meters (02, item 5): by hand, over all short lists of calls against the rule, and at their limit.
use crate::Bytes;
use crate::catalogue::{Catalogue, Even, Round, Short, Turn, adding, dated, plain};
use crate::codes::{answer, request};
use crate::days::NO_DAY;
use crate::meters::{MOST, Marks, Meters, NOTHING, UNMARKED, filled, reached};
use crate::rows::all_rows;
use crate::samples::seasons::{A, B};
use crate::session::{Session, begin, blank};
use crate::sizes::{pack_length, request_length, slot};
use std::collections::{HashMap, HashSet};

/// A call: `i` with the room for a request, `h` with the length of an answer, `r` with the room for a pack.
type Step = (char, usize, usize);

fn made(session: &mut Session, (kind, mirror, length): Step) -> u8 {
    let c = session.cat;
    let mut answers = vec![0; c.n * slot(c)];
    match kind {
        'i' => session.issue(A, mirror, &mut vec![0; length]),
        'h' => session.take(mirror, &vec![0; length], &mut answers),
        _ => session.recover(&answers, &mut vec![0; length]),
    }.err().unwrap_or(0)
}

/// What each call since begin gave, and the first meters, of requests and of answers, when all were made.
fn after<const N: usize>(c: Catalogue, wanted: usize, key: &[u8], steps: &[Step]) -> (Vec<u8>, [[usize; N]; 2]) {
    let mut session = begin(c, wanted, key).unwrap();
    let gave = steps.iter().map(|&step| made(&mut session, step)).collect();
    let Meters { sent, got } = session.meters();
    assert!(sent[N..].iter().chain(&got[N..]).all(|&x| x == 0));
    (gave, [sent, got].map(|row| std::array::from_fn(|p| row[p])))
}

/// Lists of calls whose bytes were counted by hand.
fn by_hand() {
    // three requests of three bytes to mirror 1, a refused one between, and one answer of a piece
    let steps = [('i', 1, 3), ('i', 1, 2), ('i', 1, 9), ('h', 1, 3), ('h', 1, 0), ('i', 1, 3), ('h', 1, 4), ('h', 1, 4), ('r', 0, 8)];
    assert_eq!(after(plain(Short, 3, 3, 4), 1, &[2, 0], &steps), (vec![0, 9, 0, 10, 10, 0, 0, 11, 12], [[0, 9, 0], [0, 4, 0]]));
    // mirror 0 is sent zeros, and its answer is empty: taken, and nothing came
    let steps = [('h', 0, 0), ('i', 0, 2), ('h', 0, 1), ('h', 0, 0), ('i', 1, 2), ('i', 2, 2), ('h', 1, 1), ('i', 0, 2), ('r', 0, 1)];
    assert_eq!(after(plain(Short, 2, 2, 1), 0, &[0], &steps), (vec![11, 0, 10, 0, 0, 3, 0, 0, 0], [[4, 2], [0, 1]]));
    // in the turning code, with a turn of 1, it is mirror 2 of three that is sent zeros
    let steps = [('i', 2, 2), ('h', 2, 5), ('h', 2, 0), ('i', 0, 2), ('h', 0, 5), ('h', 0, 5), ('h', 1, 5)];
    assert_eq!(after(plain(Turn, 3, 2, 5), 0, &[0, 1], &steps), (vec![0, 10, 0, 0, 0, 11, 11], [[2, 0, 2], [5, 0, 0]]));
    // four bytes ask for three rows, of two bytes each
    let (c, key) = (adding(plain(Even, 2, 2, 2)), [0, 1, 2, 3, 0, 1, 2, 3]);
    let steps = [('i', 0, 4), ('i', 0, 4), ('h', 0, 6), ('i', 1, 3), ('h', 1, 6), ('i', 1, 4), ('h', 1, 0), ('h', 1, 6), ('r', 0, 8), ('r', 0, 8)];
    assert_eq!(after(c, 0, &key, &steps), (vec![0, 0, 0, 9, 11, 0, 10, 0, 0, 0], [[8, 4], [6, 6]]));
    // three rows of two digits each; mirror 0 answers two of them and the others three
    let steps = [('i', 0, 6), ('h', 0, 6), ('h', 0, 4), ('i', 2, 6), ('h', 2, 4), ('h', 2, 6), ('i', 2, 6), ('i', 3, 6)];
    assert_eq!(after(dated(plain(Round, 3, 2, 2), A, B), 1, &[2, 0, 1], &steps), (vec![0, 10, 0, 0, 10, 0, 0, 3], [[6, 0, 12], [4, 0, 6]]));
    assert_eq!(blank().meters(), NOTHING);
}

/// At the limit: requests of three bytes end there exactly, those of two a byte before; an answer is taken there as anywhere.
fn at_limit() {
    for (k, most) in [(3, MOST), (2, MOST - 1), (4, MOST - 3), (7, MOST - 3), (15, MOST), (17, MOST), (32, MOST - 31)] {
        assert_eq!((filled(k, MOST), most % k, MOST - most < k), (most, 0, true));
        let mut session = begin(plain(Short, 2, k, 1), 0, &vec![1; k - 1]).unwrap();
        let mut give = |sent: usize, step: Step| {
            session.history.forge(|meters| meters.sent[1] = sent);
            (made(&mut session, step), session.meters().sent[1])
        };
        assert_eq!([give(0, ('i', 1, k)), give(most - k, ('i', 1, k)), give(most, ('i', 1, k))], [(0, k), (0, most), (16, most)]);
        assert_eq!([give(most, ('i', 1, k - 1)), give(most, ('i', 2, k)), give(most - 1, ('i', 1, k))], [(9, most), (3, most), (11, most - 1)]);
        assert_eq!([give(most - 1, ('h', 1, 1)), give(most - 1, ('r', 0, 1)), give(0, ('r', 0, 1))], [(11, most - 1), (11, most - 1), (11, 0)]);
        assert_eq!([give(most, ('i', 0, k)), give(most, ('h', 1, 1)), give(most, ('r', 0, 1))], [(0, most), (0, most), (12, most)]);
    }
    assert!((1..70).all(|length| (0..300).all(|x| filled(length, x) == x - x % length)));
}

/// What a list of calls reaches: the marks and the meters.
type Place = (Marks, Meters);

/// A session as begin leaves it, with a limit of its own.
fn limited(c: Catalogue, key: &[u8], most: usize) -> Session {
    let mut session = begin(c, c.k - 1, key).unwrap();
    session.history.most = most;
    session
}

/// Makes a call, and sees that it moved what it should: the counts are kept up here, call by call.
fn stepped(session: &Session, step: Step) -> Session {
    let (mut next, (kind, mirror, length)) = (session.clone(), step);
    let (mut marks, mut meters) = (session.marks, session.meters());
    match (made(&mut next, step), kind) {
        (0, 'i') => (marks.issued[mirror], meters.sent[mirror]) = (true, meters.sent[mirror] + request_length(session.cat)),
        (0, 'h') => (marks.taken[mirror], meters.got[mirror]) = (true, meters.got[mirror] + length),
        _ => (),
    }
    assert_eq!((next.marks, next.meters()), (marks, meters));
    next
}

/// Everything that lists of up to so many of these calls reach, each list made in full.
fn by_lists(session: &Session, steps: &[Step], length: usize, found: &mut HashSet<Place>) {
    found.insert((session.marks, session.meters()));
    if length > 0 {
        steps.iter().for_each(|&step| by_lists(&stepped(session, step), steps, length - 1, found));
    }
}

/// Everything that any lists of these calls reach, a place where two lists meet followed once.
fn by_places(session: Session, steps: &[Step]) -> HashSet<Place> {
    let (mut found, mut open) = (HashSet::from([(session.marks, session.meters())]), vec![session]);
    while let Some(session) = open.pop() {
        let all = steps.iter().map(|&step| stepped(&session, step));
        open.extend(all.filter(|next| found.insert((next.marks, next.meters()))).collect::<Vec<_>>());
    }
    found
}

/// What may stand at a place: whether issued and taken, and the two meters.
type Held = (bool, bool, usize, usize);

/// All marks with all meters up to a limit.
fn all_held(most: usize) -> Vec<Held> {
    let marks = [(false, false), (false, true), (true, false), (true, true)];
    let meters: Vec<(usize, usize)> = (0..=most).flat_map(|sent| (0..=most).map(move |got| (sent, got))).collect();
    marks.iter().flat_map(|&(issued, taken)| meters.iter().map(move |&(sent, got)| (issued, taken, sent, got))).collect()
}

/// Everything that the rule passes, of all marks and all meters up to a limit at the mirrors, and some at the place behind them.
fn by_rule(c: Catalogue, key: &[u8], most: usize) -> HashSet<Place> {
    let (store, asked) = (vec![1; c.k * pack_length(c)], request_length(c));
    let called: Vec<usize> = (0..c.n).map(|mirror| answer(c, &store, &request(c, c.k - 1, mirror, key)).len()).collect();
    let past = vec![(false, false, 0, 0), (true, false, asked, 0), (true, false, 0, 0), (true, true, asked, slot(c)), (false, false, 1, 0),
        (false, false, 0, 1)];
    let held = [vec![all_held(most); c.n], vec![past]].concat();
    let count = held.iter().map(|choices| choices.len()).product();
    let mut passed = HashSet::new();
    for mut number in 0..count {
        let (mut marks, mut meters) = (UNMARKED, NOTHING);
        for (p, choices) in held.iter().enumerate() {
            (marks.issued[p], marks.taken[p], meters.sent[p], meters.got[p]) = choices[number % choices.len()];
            number /= choices.len();
        }
        if reached(asked, &called, &marks, &meters) {
            passed.insert((marks, meters));
        }
    }
    passed
}

/// Calls on each mirror: a request, and answers of the lengths that some answer has; where all are asked for, also without room, of other lengths, on
/// no mirror, and recover.
fn steps(c: Catalogue, all: bool) -> Vec<Step> {
    let (asked, some) = (request_length(c), [slot(c) - c.s, slot(c)]);
    let few = (0..c.n).flat_map(|m| [('i', m, asked), ('h', m, some[0]), ('h', m, some[1])]);
    let more = (0..c.n).flat_map(|m| [('i', m, asked - 1), ('i', m, asked + 1), ('h', m, 0), ('h', m, slot(c) + 1)]);
    let none = [('i', c.n, asked), ('h', c.n, slot(c)), ('r', 0, pack_length(c)), ('r', 0, 0)];
    if all { few.chain(more).chain(none).collect() } else { few.collect() }
}

/// What calls reach is what the rule passes, in each code.
fn against_rule() {
    let even: Bytes = vec![2, 0, 3, 1, 0, 1, 2, 3];
    for (code, keys) in [(Short, vec![vec![0], vec![1]]), (Turn, vec![vec![0, 0], vec![0, 1], vec![1, 1]]), (Even, vec![even]), (Round, vec![vec![1, 0]])] {
        let c = plain(code, 2, 2, 1);
        let two = 2 * request_length(c);
        for (key, most) in keys.iter().flat_map(|key| [two, two + 1].map(|most| (key, most))) {
            let (rule, begun, mut found) = (by_rule(c, key, most), limited(c, key, most), HashSet::new());
            by_lists(&begun, &steps(c, false), 6, &mut found);
            by_lists(&begun, &steps(c, true), 3, &mut found);
            assert_eq!((found.len(), found == rule), (25, true), "{code:?}, key {key:?}, limit {most}");
            assert_eq!(by_places(begun, &steps(c, true)), rule);
        }
    }
    for (c, key) in [(plain(Short, 3, 2, 2), &[0][..]), (plain(Turn, 3, 2, 3), &[0, 2]), (plain(Short, 3, 3, 1), &[1, 1])] {
        let most = request_length(c) + 1;
        assert_eq!(by_places(limited(c, key, most), &steps(c, true)), by_rule(c, key, most));
    }
}

/// Fetches that send a mirror the same request, of whatever pack and by whatever key, leave it the same two meters where the same calls name it,
/// whatever the calls between that name others.
fn matched() {
    let permutations = vec![vec![0, 1], vec![1, 0]];
    for (c, keys) in [(plain(Short, 3, 2, 2), all_rows(3, 1)), (plain(Turn, 3, 2, 1), all_rows(3, 2)), (plain(Round, 2, 2, 1), permutations)] {
        let (asked, room) = (request_length(c), slot(c));
        for mirror in 0..c.n {
            let mut seen = HashMap::new();
            for (wanted, key) in (0..c.k).flat_map(|wanted| keys.iter().map(move |key| (wanted, key))) {
                let mut session = begin(c, wanted, key).unwrap();
                for (i, (kind, length)) in [('i', asked), ('h', 0), ('h', room - c.s), ('i', asked - 1), ('h', room), ('i', asked)].into_iter().enumerate() {
                    let others = (0..c.n).filter(|&other| other != mirror && (i + other + wanted + key[0] as usize) % 2 == 0);
                    others.for_each(|other| { made(&mut session, (if i < 3 { 'i' } else { 'h' }, other, if i < 3 { asked } else { room })); });
                    made(&mut session, (kind, mirror, length));
                }
                let Meters { sent, got } = session.meters();
                assert_eq!(*seen.entry(session.request(mirror)).or_insert((sent[mirror], got[mirror])), (sent[mirror], got[mirror]));
            }
            // each request comes from one key for each pack
            assert_eq!(seen.len(), keys.len());
        }
    }
}

pub fn meters() {
    by_hand();
    at_limit();
    against_rule();
    matched();
    let session = begin(plain(Short, 2, 2, 1), 0, &[1]).unwrap();
    assert_eq!((session.meters(), session.history.most), (NOTHING, MOST));
    assert_eq!(begin(dated(plain(Short, 2, 2, 1), NO_DAY, A), 0, &[1]).err(), Some(2));
}
