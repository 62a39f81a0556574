//! The input of a conformance program, line by line, and what lines of all programs set: the catalogue of five numbers, its dates and its lengths.
use crate::Bytes;
use crate::catalogue::{CODES, Catalogue, Short};

/// A line that is no comment: the text of a catalogue, or a letter and its numbers, 0 for each that is not there.
pub enum Line<'a> {
    Text(&'a [u8]),
    Numbers(&'a str, [usize; 5]),
}

/// The letter and the numbers of a line.
fn numbers(line: &str) -> Line<'_> {
    let (letter, words) = line.split_at(1);
    let mut five = [0; 5];
    for (place, word) in five.iter_mut().zip(words.split_whitespace()) {
        assert!(word.len() <= 10, "a program reads ten digits: {line}");
        *place = word.parse().unwrap();
    }
    Line::Numbers(letter, five)
}

/// What a program prints for an input: comments as they stand, and what each other line gives.
pub fn printed(input: &[u8], mut given: impl FnMut(Line) -> String) -> Bytes {
    let (mut out, mut at) = (Vec::new(), 0);
    while at < input.len() {
        let stop = if input[at] == b't' { b'~' } else { b'\n' };
        let end = at + input[at..].iter().position(|&b| b == stop).unwrap();
        match input[at] {
            b'#' => out.extend_from_slice(&input[at..=end]),
            b't' => out.extend(given(Line::Text(&input[at + 1..end])).bytes()),
            _ => out.extend(given(numbers(std::str::from_utf8(&input[at..end]).unwrap())).bytes()),
        }
        at = if stop == b'~' { end + 2 } else { end + 1 };
    }
    out
}

/// The catalogue of five numbers, with the dates and lengths of another.
pub fn made(next: Catalogue, [a, n, k, s, add]: [usize; 5]) -> Catalogue {
    let code = CODES.get(a).map_or(Short, |&(code, _)| code);
    Catalogue { code, n, k, s, add: add != 0, ..next }
}

/// Sets the dates and lengths that later catalogues have: the opening day, the closing day, whether there are lengths (all places 0), and one place.
pub fn set_optional(next: &mut Catalogue, letter: &str, [a, b, c]: [usize; 3]) {
    match letter {
        "f" => next.open = [a, b, c],
        "l" => next.close = [a, b, c],
        "p" => (next.measured, next.lengths) = (a != 0, [0; 32]),
        _ => next.lengths.iter_mut().skip(a).take(1).for_each(|place| *place = b % (1 << 32)),
    }
}
