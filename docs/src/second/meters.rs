//! The meters of a session (02, item 5): sums over what the calls since begin did, and which marks and sums some list of calls gives.

/// What no meter may pass.
pub const MOST: usize = 4_294_967_295;

#[derive(Clone, Copy, PartialEq, Debug)]
pub enum Kind {
    Issue,
    Take,
    Recover,
}

/// What a call did: its kind, the mirror that it named, what it gave, and its bytes: those of the request that it left, or of the answer that it was
/// lent; of an issue that was refused, the room that it was lent, which is not counted.
#[derive(Clone, Copy, PartialEq, Debug)]
pub struct Call {
    pub kind: Kind,
    pub mirror: Option<usize>,
    pub gave: Result<(), u8>,
    pub bytes: usize,
}

/// What went to and came from each mirror.
#[derive(Clone, Copy, PartialEq, Eq, Hash, Debug)]
pub struct Meters {
    pub sent: [usize; 16],
    pub got: [usize; 16],
}

pub const NOTHING: Meters = Meters { sent: [0; 16], got: [0; 16] };

/// Which mirrors were issued to, and which answers were taken.
#[derive(Clone, Copy, PartialEq, Eq, Hash, Debug)]
pub struct Marks {
    pub issued: [bool; 16],
    pub taken: [bool; 16],
}

pub const UNMARKED: Marks = Marks { issued: [false; 16], taken: [false; 16] };

/// The calls since begin. Where a test sets a meter, what stood there is the base from then on, and the calls are those since.
#[derive(Clone, Debug)]
pub struct History {
    base: Meters,
    pub calls: Vec<Call>,
    pub most: usize,
}

impl History {
    pub fn new() -> History {
        History { base: NOTHING, calls: Vec::new(), most: MOST }
    }

    /// The bytes of all calls of this kind that named this mirror and were not refused.
    fn total(&self, kind: Kind, mirror: usize) -> usize {
        self.calls.iter().filter(|call| (call.kind, call.mirror, call.gave) == (kind, Some(mirror), Ok(()))).map(|call| call.bytes).sum()
    }

    pub fn meters(&self) -> Meters {
        Meters {
            sent: std::array::from_fn(|mirror| self.base.sent[mirror] + self.total(Kind::Issue, mirror)),
            got: std::array::from_fn(|mirror| self.base.got[mirror] + self.total(Kind::Take, mirror)),
        }
    }

    /// Whether one more request of this length would be too much for the mirror's meter.
    pub fn full(&self, mirror: usize, length: usize) -> bool {
        self.meters().sent[mirror] + length > self.most
    }

    /// Meters that no call has given.
    pub fn forge(&mut self, change: impl FnOnce(&mut Meters)) {
        self.base = self.meters();
        self.calls.clear();
        change(&mut self.base);
    }
}

/// The most bytes that requests of this length come to without passing a number: halves of what is left are filled first, and nothing is divided by
/// the length.
pub fn filled(length: usize, up_to: usize) -> usize {
    let mut many = length;
    while many <= up_to {
        many *= 2;
    }
    let mut total = 0;
    while many >= length {
        if total + many <= up_to {
            total += many;
        }
        many /= 2;
    }
    total
}

/// Whether some list of calls since begin leaves these marks and these meters, where a request has `asked` bytes and each mirror's request calls for an
/// answer of so many: told mirror by mirror, from the one list that would do, of issues and then a take. Places of no mirror stay as begin leaves them.
pub fn reached(asked: usize, called: &[usize], marks: &Marks, meters: &Meters) -> bool {
    let place = |p: usize| (marks.issued[p], marks.taken[p], meters.sent[p], meters.got[p]);
    let at_mirror = |p: usize| match place(p) {
        (false, false, sent, got) => sent + got == 0,
        (false, true, ..) => false,
        (true, false, sent, got) => sent > 0 && filled(asked, sent) == sent && got == 0,
        (true, true, sent, got) => sent > 0 && filled(asked, sent) == sent && got == called[p],
    };
    (0..16).all(|p| if p < called.len() { at_mirror(p) } else { place(p) == (false, false, 0, 0) })
}
