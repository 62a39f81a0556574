//! The lines about one corrected byte (02, item 13): what they are made of, and the list of them.
mod words;
mod places;
mod rows;
mod refusals;
mod orders;
mod runs;

use crate::Bytes;
use crate::bench::given;
use crate::cases::{Cases, titled};
use crate::catalogue::Catalogue;
use crate::codes::answer_length;
use crate::corrections::Edit;
use crate::samples::edits;

/// Where the requests and the saved answers begin that several of them are kept at, side by side.
const REQUESTS: usize = 1024;
const ANSWERS: usize = 8192;

impl Cases {
    /// The catalogue of the next calls, under a title, and a store for it.
    pub fn open_catalogue(&mut self, title: &str, c: Catalogue) {
        self.put(format!("# {title}: {}", titled(c)));
        self.catalogue_alone(c);
        self.stored(c, 0);
    }

    /// The catalogue of the next calls.
    pub fn catalogue_alone(&mut self, c: Catalogue) {
        self.optional(c);
        self.put(format!("C {}", given(c)));
    }

    /// A request that a mirror admits.
    pub fn some_request(&mut self, c: Catalogue, mirror: usize) -> Bytes {
        edits::some_request(c, mirror, &mut self.draw)
    }

    /// The bytes of a request, from a place on, four by four.
    pub fn request_bytes(&mut self, from: usize, request: &[u8]) {
        for (i, part) in request.chunks(4).enumerate() {
            let mut four = [0; 4];
            four[..part.len()].copy_from_slice(part);
            self.put(format!("q {} {}", from + 4 * i, four.map(|b| b.to_string()).join(" ")));
        }
    }

    /// The mirror, the length of its request and that of its saved answer, for the next calls: the first of those that are kept, or another one.
    pub fn choose(&mut self, which: usize, mirror: usize, request: usize, saved: usize) {
        let (asked, answer) = (which * REQUESTS, which * ANSWERS);
        self.put(format!("w {mirror} {asked} {} {answer} {}", asked + request, answer + saved));
    }

    /// A request and its saved answer, of the length that it calls for, worked out afresh.
    pub fn saved(&mut self, which: usize, c: Catalogue, mirror: usize, request: &[u8]) {
        self.request_bytes(which * REQUESTS, request);
        self.choose(which, mirror, request.len(), answer_length(c, request));
        self.put("A".into());
    }

    pub fn edit(&mut self, edit: Edit) {
        self.put(format!("E {} {} {} {}", edit.pack, edit.piece, edit.byte, edit.value));
    }

    /// Both calls on the right answer, the store set by the second.
    pub fn both(&mut self, edit: Edit) {
        self.edit(edit);
        self.put("Y\nA\nX".into());
    }

    /// Both calls on an answer that is drawn.
    pub fn both_wrong(&mut self, edit: Edit, length: usize) {
        let seed = 1 + self.draw.below(9999);
        self.edit(edit);
        self.put(format!("e {seed} {length}\nY\nX"));
    }
}

/// All lines about corrections.
pub fn corrections(cases: &mut Cases) {
    cases.cards();
    cases.words_of_rows();
    cases.word_pairs();
    cases.same_values();
    cases.every_place();
    cases.corners();
    cases.limit_catalogues();
    cases.zero_rows();
    cases.named_rows();
    cases.empty_saved();
    cases.other_lines_of_catalogues();
    cases.edit_bounds();
    cases.saved_lengths();
    cases.request_faults();
    cases.catalogue_faults();
    cases.correction_orders();
    cases.several_saved();
    cases.drawn_corrections();
}
