//! The second implementation: written from the documents, by other means than the crates, sharing no text with them.
//!
//! Words here are document 01's: mirror, pack, piece, request. The short code follows the formulas of source 000, section III-B;
//! the even code runs the process of document 01 with counters, row by row, and finds rows again by comparing them; the turning code makes what
//! all mirrors of the short one are sent and turns that list, and turns the list of answers back; the round code looks its rows up in a list of all
//! rows, cuts the store into one of the short code for each block, and recovers by walking along all answers at once. A day is looked up in a list
//! of all days of the calendar, walked month by month; no date is compared or tested by its numbers. Lines `length=` are collected, however many there are, and
//! counted afterwards; a pack is recovered whole and then cut. A session keeps every call since begin, and its meters are sums over these; whether bytes
//! are those of whole requests is told by adding up, without a division. The answer unit keeps a byte for each register, and a read looks in the row
//! of all six. A corrected byte moves a saved answer by what lies between two answers worked out afresh, from the store before and after. Each module of
//! the folder `second` says in its first line what it holds.
//!
//!     rustc --edition 2021 -O docs/src/second.rs -o second
//!     ./second self               checks it against the bench cards and the papers' tables, balancing digits, turns, rounds, the rules of
//!                                 seasons and lengths, the meters against all short lists of calls, the answer unit against what all short
//!                                 lists of accesses leave, corrected bytes against the rule in numbers, and that fetches recover
//!     ./second printer FOLDER     writes inputs of the request printer, and what it must print for each
//!     ./second cases PROGRAM      prints the calls that the program makes, `conformance`, `conformance_codes`, `conformance_meters`,
//!                                 `conformance_unit` or `conformance_corrections` (its `stdin`)
//!     ./second expected PROGRAM   prints what they must give (its `stdout`)
#[path = "second/days.rs"]
mod days;
#[path = "second/catalogue.rs"]
mod catalogue;
#[path = "second/sizes.rs"]
mod sizes;
#[path = "second/text.rs"]
mod text;
#[path = "second/sums.rs"]
mod sums;
#[path = "second/even.rs"]
mod even;
#[path = "second/rows.rs"]
mod rows;
#[path = "second/round.rs"]
mod round;
#[path = "second/codes.rs"]
mod codes;
#[path = "second/meters.rs"]
mod meters;
#[path = "second/session.rs"]
mod session;
#[path = "second/printer.rs"]
mod printer;
#[path = "second/draws.rs"]
mod draws;
#[path = "second/unit.rs"]
mod unit;
#[path = "second/corrections.rs"]
mod corrections;
#[path = "second/lines.rs"]
mod lines;
#[path = "second/bench.rs"]
mod bench;
#[path = "second/unit_bench.rs"]
mod unit_bench;
#[path = "second/corrections_bench.rs"]
mod corrections_bench;
#[path = "second/samples/mod.rs"]
mod samples;
#[path = "second/inputs/mod.rs"]
mod inputs;
#[path = "second/cases/mod.rs"]
mod cases;
#[path = "second/checks/mod.rs"]
mod checks;

use std::io::Write;

type Bytes = Vec<u8>;

fn main() {
    let words: Vec<String> = std::env::args().collect();
    match words.iter().map(|w| w.as_str()).collect::<Vec<_>>()[1..] {
        ["self"] => checks::all(),
        ["printer", folder] => {
            for (i, input) in inputs::printer_inputs().iter().enumerate() {
                std::fs::write(format!("{folder}/{i:04}.in"), input).unwrap();
                std::fs::write(format!("{folder}/{i:04}.out"), printer::printed(input)).unwrap();
            }
        }
        ["cases", program] => std::io::stdout().write_all(&cases::cases(program)).unwrap(),
        ["expected", "conformance_unit"] => std::io::stdout().write_all(&unit_bench::expected(&cases::cases("conformance_unit"))).unwrap(),
        ["expected", "conformance_corrections"] =>
            std::io::stdout().write_all(&corrections_bench::expected(&cases::cases("conformance_corrections"))).unwrap(),
        ["expected", program] => std::io::stdout().write_all(&bench::expected(&cases::cases(program))).unwrap(),
        _ => eprintln!("usage: second self | printer FOLDER | cases PROGRAM | expected PROGRAM"),
    }
}
