//! What cases are made of: catalogues, days, lengths, keys, edits, and texts that are nearly right.
pub mod keys;
pub mod edits;
pub mod lines;
pub mod seasons;
pub mod lengths;
