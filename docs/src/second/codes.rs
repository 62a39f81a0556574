//! All codes by their names: requests, admission, answers, recovery, and the answering end.
use crate::Bytes;
use crate::catalogue::{Catalogue, Even, Round, Short, Turn, in_season, judged};
use crate::days::Day;
use crate::even::{even_answer, even_recover, layout, listed, process};
use crate::round::{answered, round_admits, round_answers, round_recover, round_rows};
use crate::rows::{parted, row_answer, short_recover, short_requests};
use crate::sizes::{pack_length, pieces, request_ceiling, request_length, slot};

pub fn request(c: Catalogue, wanted: usize, mirror: usize, key: &[u8]) -> Bytes {
    match c.code {
        Short => short_requests(c, wanted, key).swap_remove(mirror),
        Turn => {
            // the short code's mirrors pass the circle of the turning code's, one place for each step of the turn
            let (digits, turn) = parted(key);
            let mut parts = short_requests(c, wanted, digits);
            parts.rotate_left(turn);
            parts.swap_remove(mirror)
        }
        Even => {
            let m = pieces(c);
            listed(&process(c, wanted)[mirror]).iter().flatten().map(|&(p, place)| key[p * m + place]).collect()
        }
        Round => round_rows(c, wanted, mirror, key).concat(),
    }
}

pub fn admits(c: Catalogue, mirror: usize, request: &[u8]) -> bool {
    let formed = request.len() == request_length(c) && request.iter().all(|&x| (x as usize) < request_ceiling(c));
    formed && match c.code {
        Short => request.iter().map(|&d| d as usize).sum::<usize>() % c.n == mirror,
        Turn => true,
        Even => {
            let packs: Vec<usize> = layout(c).concat();
            let mut seen: Vec<(usize, u8)> = packs.into_iter().zip(request.iter().copied()).collect();
            seen.sort();
            seen.windows(2).all(|w| w[0] != w[1])
        }
        Round => round_admits(c, mirror, request),
    }
}

pub fn answer(c: Catalogue, store: &[u8], request: &[u8]) -> Bytes {
    match c.code {
        Short | Turn => row_answer(c, store, request),
        Even => even_answer(c, store, request),
        Round => round_answers(c, store, request).concat(),
    }
}

pub fn answer_length(c: Catalogue, request: &[u8]) -> usize {
    match c.code {
        Short | Turn if request.iter().all(|&d| d == 0) => 0,
        Round => answered(c, request) * c.s,
        _ => slot(c),
    }
}

/// The wanted pack as it is stored, from the answers of all mirrors; an empty answer counts as zeros.
pub fn recover(c: Catalogue, wanted: usize, key: &[u8], answers: &[Bytes]) -> Bytes {
    match c.code {
        Short => short_recover(c, key, answers),
        Turn => {
            // the circle of the answers, turned back, is that of the short code's mirrors
            let (digits, turn) = parted(key);
            let mut parts = answers.to_vec();
            parts.rotate_right(turn);
            short_recover(c, digits, &parts)
        }
        Even => even_recover(c, wanted, key, answers),
        Round => round_recover(c, wanted, key, answers),
    }
}

/// The answering end: the answer, or the refusal.
pub fn answering(c: Catalogue, today: Day, mirror: usize, store: &[u8], request: &[u8], room: usize) -> Result<Bytes, u8> {
    judged(c)?;
    in_season(c, today)?;
    if mirror >= c.n {
        return Err(3);
    }
    if !admits(c, mirror, request) {
        return Err(7);
    }
    if store.len() != c.k * pack_length(c) {
        return Err(8);
    }
    let out = answer(c, store, request);
    if room < out.len() { Err(9) } else { Ok(out) }
}
