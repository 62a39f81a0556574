//! One corrected byte (02, item 13): the store with the byte set, and the saved answer moved by what an answer worked out afresh from the new store is
//! more than one from the old. Whether the request names the piece, and in which row, is not asked.
use crate::Bytes;
use crate::catalogue::{Catalogue, judged, undated};
use crate::codes::{answer, answering};
use crate::days::NO_DAY;
use crate::sizes::pack_length;
use crate::sums::{combine, take_away};

/// A byte of a piece of a pack, and its new value.
#[derive(Clone, Copy, PartialEq, Debug)]
pub struct Edit {
    pub pack: usize,
    pub piece: usize,
    pub byte: usize,
    pub value: u8,
}

/// A store of the catalogue's length with the byte set; none where there is no such byte.
fn edited(c: Catalogue, store: &[u8], edit: Edit) -> Option<Bytes> {
    let mut out = store.to_vec();
    let pack = out.chunks_mut(pack_length(c)).nth(edit.pack)?;
    *pack.chunks_mut(c.s).nth(edit.piece)?.get_mut(edit.byte)? = edit.value;
    Some(out)
}

/// The new store and the new answer, or the refusal.
fn corrected(c: Catalogue, mirror: usize, store: &[u8], request: &[u8], edit: Edit, saved: &[u8]) -> Result<(Bytes, Bytes), u8> {
    judged(c)?;
    // no day is given, so that no season is tested; an answer of any length has room
    let old = answering(undated(c), NO_DAY, mirror, store, request, usize::MAX)?;
    let stored = edited(c, store, edit).ok_or(19)?;
    if saved.len() != old.len() {
        return Err(10);
    }
    let mut moved = saved.to_vec();
    combine(c, &mut moved, &answer(c, &stored, request));
    take_away(c, &mut moved, &old);
    Ok((stored, moved))
}

/// Sets the byte of the store and updates the saved answer.
pub fn correct(c: Catalogue, mirror: usize, store: &mut [u8], request: &[u8], edit: Edit, saved: &mut [u8]) -> Result<(), u8> {
    let (stored, moved) = corrected(c, mirror, store, request, edit, saved)?;
    store.copy_from_slice(&stored);
    saved.copy_from_slice(&moved);
    Ok(())
}

/// Updates the saved answer alone: where several are saved, each from the store as it was.
pub fn correct_answer(c: Catalogue, mirror: usize, store: &[u8], request: &[u8], edit: Edit, saved: &mut [u8]) -> Result<(), u8> {
    let (_, moved) = corrected(c, mirror, store, request, edit, saved)?;
    saved.copy_from_slice(&moved);
    Ok(())
}
