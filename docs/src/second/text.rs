//! The text of a catalogue, read and written.
use crate::catalogue::{CODES, Catalogue, adding, dated, has_dates, judged, measured, plain};
use crate::days::{Day, calendar, spelled};

/// A number in text form: one to five digits, no leading zero but `0` itself.
pub fn number(text: &str) -> Option<usize> {
    digits(text, 5)
}

/// A number in text form, of one digit up to so many.
fn digits(text: &str, most: usize) -> Option<usize> {
    let good = (1..=most).contains(&text.len()) && text.bytes().all(|b| b.is_ascii_digit()) && (text == "0" || !text.starts_with('0'));
    if good { text.parse().ok() } else { None }
}

/// A line of this name with a real day, at the start of a text, and what follows it.
fn dated_line<'a>(name: &str, text: &'a [u8]) -> Option<(Day, &'a [u8])> {
    let (line, rest) = text.split_at(text.iter().position(|&b| b == 10)?);
    let date = std::str::from_utf8(line).ok()?.strip_prefix(name)?;
    Some((calendar().days[*calendar().places.get(date)?], &rest[1..]))
}

/// The catalogue with the dates at the start of a text, and what follows them: both lines where one of their names stands there (02, item 1).
fn season_lines(c: Catalogue, text: &[u8]) -> Option<(Catalogue, &[u8])> {
    if !["open=", "close="].iter().any(|name| text.starts_with(name.as_bytes())) {
        return Some((c, text));
    }
    let (open, text) = dated_line("open=", text)?;
    let (close, text) = dated_line("close=", text)?;
    Some((dated(c, open, close), text))
}

/// The catalogue with the lengths at the start of a text, and what follows them: all lines of that name are collected, and then there must be none
/// or as many as the packs, whatever their number (02, item 6).
fn length_lines(c: Catalogue, text: &[u8]) -> Option<(Catalogue, &[u8])> {
    let (mut found, mut rest) = (Vec::new(), text);
    while let Some(line) = rest.strip_prefix(b"length=") {
        let end = line.iter().position(|&b| b == 10)?;
        found.push(digits(std::str::from_utf8(&line[..end]).ok()?, 7)?);
        rest = &line[end + 1..];
    }
    match found.len() {
        0 => Some((c, rest)),
        count => (count == c.k).then(|| (measured(c, &found), rest)),
    }
}

/// The catalogue's lines at the start, and what follows them: the four of document 01, then a season (02, item 1), then `sum=add` where a line of
/// that name stands there (02, item 2), then the lengths (02, item 6).
pub fn lines(text: &[u8]) -> Option<(Catalogue, &[u8])> {
    let mut rest = text;
    let mut line = |name: &str| -> Option<String> {
        let end = rest.iter().position(|&b| b == 10)?;
        let (this, after) = (std::str::from_utf8(&rest[..end]).ok()?, &rest[end + 1..]);
        rest = after;
        Some(this.strip_prefix(name)?.to_string())
    };
    let word = line("code=")?;
    let (code, _) = CODES.into_iter().find(|(_, known)| word == *known)?;
    let n = number(&line("mirrors=")?)?;
    let k = number(&line("packs=")?)?;
    let s = number(&line("piece=")?)?;
    let (c, rest) = season_lines(plain(code, n, k, s), rest)?;
    match rest.strip_prefix(b"sum=") {
        Some(value) => length_lines(adding(c), value.strip_prefix(b"add\n")?),
        None => length_lines(c, rest),
    }
}

/// Reads catalogue text: the value, or refusal 1, 2, 17 or 15.
pub fn read(text: &[u8]) -> Result<Catalogue, u8> {
    match lines(text) {
        Some((c, [])) => judged(c).map(|_| c),
        _ => Err(1),
    }
}

pub fn write_text(c: Catalogue) -> String {
    let ((_, code), sum) = (CODES[c.code as usize], if c.add { "sum=add\n" } else { "" });
    let season = if has_dates(c) { season_text(&spelled(c.open), &spelled(c.close)) } else { String::new() };
    let lengths = if c.measured { length_text(&c.lengths[..c.k.min(32)]) } else { String::new() };
    format!("code={code}\nmirrors={}\npacks={}\npiece={}\n{season}{sum}{lengths}", c.n, c.k, c.s)
}

/// Lines `length=` of these numbers, or of anything that stands in their place.
pub fn length_text<T: std::fmt::Display>(numbers: &[T]) -> String {
    numbers.iter().map(|number| format!("length={number}\n")).collect()
}

pub fn season_text(open: &str, close: &str) -> String {
    format!("open={open}\nclose={close}\n")
}
