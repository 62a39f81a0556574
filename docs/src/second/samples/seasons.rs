//! Days and seasons, real and not, and lines that are no season.
use crate::days::{Day, NO_DAY, calendar, spelled};
use crate::text::season_text;

/// The first and the last day of the calendar, and two days between them.
pub const FIRST: Day = [2000, 1, 1];
pub const LAST: Day = [2399, 12, 31];
pub const A: Day = [2024, 2, 3];
pub const B: Day = [2025, 10, 9];

/// Seasons: months of one and of two digits, a year's end, a leap day alone, all days, a month that comes sooner in its year, a century without its
/// leap day, first days that follow a 31st, a closing day with the smaller month and day.
pub const SEASONS: [(Day, Day); 8] = [([2024, 9, 30], [2024, 10, 2]), ([2024, 12, 30], [2025, 1, 2]), ([2024, 2, 29], [2024, 3, 1]), (FIRST, LAST),
    ([2023, 11, 15], [2024, 2, 10]), ([2099, 12, 31], [2100, 3, 1]), ([2024, 2, 1], [2024, 6, 1]), ([2019, 8, 25], [2021, 3, 7])];

/// Days of which the first of each two comes before the second, though not by each way to compare them.
pub const PAIRS: [(Day, Day); 12] = [([2024, 5, 6], [2024, 5, 7]), ([2024, 12, 31], [2025, 1, 1]), ([2024, 2, 29], [2024, 3, 1]), ([2023, 2, 28], [2023, 3, 1]),
    ([2024, 1, 31], [2024, 2, 1]), ([2023, 5, 6], [2024, 5, 5]), ([2023, 5, 6], [2024, 4, 6]), ([2024, 9, 30], [2024, 10, 1]), ([2024, 10, 9], [2024, 10, 10]),
    ([2099, 12, 31], [2100, 1, 1]), ([2399, 12, 30], LAST), (FIRST, [2000, 1, 2])];

/// Real days at the ends of the calendar, and leap days and their neighbours.
pub const EDGES: [Day; 10] = [FIRST, LAST, [2000, 2, 29], [2024, 2, 29], [2096, 2, 29], [2396, 2, 29], [2100, 2, 28], [2100, 3, 1], [2023, 2, 28],
    [2200, 2, 28]];

/// No real days of the years 2000 to 2399; a date of the text form has room for each.
pub const UNREAL: [Day; 26] = [[1999, 12, 31], [2400, 1, 1], [2023, 2, 29], [2024, 13, 10], [2024, 5, 0], [2024, 9, 31], [2024, 0, 10], [2024, 5, 32],
    [2024, 4, 31], [2024, 6, 31], [2024, 11, 31], [2024, 2, 30], [2001, 2, 29], [2100, 2, 29], [2200, 2, 29], [2300, 2, 29], [2400, 2, 29], [1996, 2, 29],
    [2399, 12, 32], [2024, 10, 0], [2024, 0, 0], [0, 0, 5], [0, 5, 0], [24, 5, 6], [9999, 12, 31], [2024, 99, 99]];

/// Two dates of a value that are neither both there nor both zeros, though some of their numbers look so.
pub const PARTS: [(Day, Day); 7] = [([0, 0, 5], NO_DAY), ([0, 5, 0], NO_DAY), ([2024, 0, 0], NO_DAY), (NO_DAY, [0, 0, 5]), (NO_DAY, [0, 5, 0]),
    (NO_DAY, [2024, 0, 0]), ([0, 5, 6], [0, 5, 7])];

/// No real days either, and with numbers that the form has no room for; the first three are days of a season in their lowest bytes.
pub const HUGE: [Day; 9] = [[67560, 9, 30], [2024, 265, 30], [2024, 9, 286], [20240, 5, 6], [99999, 12, 31], [999999999, 1, 1], [2024, 999999999, 1],
    [2024, 1, 999999999], [999999999, 999999999, 999999999]];

/// What may stand in the place of a date and is none.
const OTHER_DATES: [&str; 36] = ["", "2024-2-03", "2024-02-3", "02024-02-03", "12024-02-03", "20240-02-03", "024-02-03", "24-02-03", "2024/02/03",
    "2024.02-03", "20240203", "2024-0203", "2024-02-03 ", " 2024-02-03", "2024 02 03", "2024-02-03\r", "2024-02-0a", "2024-0b-03", "2o24-02-03", "+024-02-03",
    "2024-+2-03", "2024-02-+3", "2024--2-03", "2024-002-03", "2024-02-003", "2024-02", "2024-02-03-04", "03-02-2024", "2024-02-03\n", "\n2024-02-03",
    "2024-02-\u{663}", "0000-00-00", "2024-0:-03", "2024-02-0:", "202:-02-03", "2024-1/-03"];

/// What may stand in the place of the two lines and is not both of them, A and B for the dates.
const OTHER_LINES: [&str; 38] = ["open=A\n", "close=B\n", "close=B\nopen=A\n", "open=A\nopen=A\nclose=B\n", "open=A\nclose=B\nclose=B\n",
    "open=A\nclose=B\nopen=A\nclose=B\n", "open=A\nopen=B\n", "close=A\nclose=B\n", "open=A\nsum=add\nclose=B\n", "sum=add\nopen=A\nclose=B\n",
    "open=A\nclose=B\nsum=add\nopen=A\n", "sum=add\nclose=B\n", "open=A\n\nclose=B\n", "\nopen=A\nclose=B\n", "open=Aclose=B\n", "open=A close=B\n",
    "open=A\nclose=B", "open=A\nclose=B\r\n", "Open=A\nclose=B\n", "opens=A\nclose=B\n", "open:A\nclose=B\n", "open =A\nclose=B\n", " open=A\nclose=B\n",
    "open=A\nClose=B\n", "open=A\ncloses=B\n", "open=A\n close=B\n", "open=A\nclose B\n", "open=\nclose=\n", "open\n", "close\n", "open", "clos", "open=",
    "close=", "open=0000-00-00\nclose=0000-00-00\n", "open=A\nwanted=0\n", "A\nB\n", "open=A\nclose=B\nsum=add\nsum=add\n"];

/// What may stand in the place of the lines with the dates A and B, and is no season: other lines, and other dates in the first or the second.
pub fn other_lines() -> Vec<String> {
    let (a, b) = (spelled(A), spelled(B));
    let lines = OTHER_LINES.iter().map(|lines| lines.replace('A', &a).replace('B', &b));
    let dates = OTHER_DATES.iter().enumerate().map(|(i, date)| if i % 2 == 0 { season_text(date, &b) } else { season_text(&a, date) });
    lines.chain(dates).collect()
}

/// The lines with the dates A and B, or one of them, moved to other places of a text.
pub fn moved_lines() -> Vec<(String, String)> {
    let (a, b) = (format!("open={}\n", spelled(A)), format!("close={}\n", spelled(B)));
    let places = ["code=", "mirrors=", "piece="].map(|name| (name.to_string(), format!("{a}{b}{name}")));
    places.into_iter().chain([(format!("piece=4\n{a}"), format!("{a}piece=4\n")), (format!("piece=4\n{a}{b}"), format!("{a}{b}piece=4\n"))]).collect()
}

/// The last day of each month of a year.
pub fn month_ends(year: usize) -> Vec<Day> {
    calendar().days.windows(2).filter(|two| two[0][0] == year && two[1][2] == 1).map(|two| two[0]).collect()
}
