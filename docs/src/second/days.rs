//! Days: the Gregorian calendar of the years 2000 to 2399, walked once, and the place of a day in it (02, item 1).
use std::collections::HashMap;
use std::sync::OnceLock;

/// Year, month, day; any numbers, so it need not be a real day.
pub type Day = [usize; 3];

/// What stands where a catalogue has no date.
pub const NO_DAY: Day = [0; 3];

/// The Gregorian calendar of the years 2000 to 2399: its days in their order, and the place of each in it, found by its ten characters.
pub struct Calendar {
    pub days: Vec<Day>,
    pub places: HashMap<String, usize>,
}

/// A date as a catalogue's text has it.
pub fn spelled([year, month, day]: Day) -> String {
    format!("{year:04}-{month:02}-{day:02}")
}

/// The calendar, walked once, month by month. Every fourth year has a leap day, but of those that begin a century only the first one here.
pub fn calendar() -> &'static Calendar {
    static ONCE: OnceLock<Calendar> = OnceLock::new();
    ONCE.get_or_init(|| {
        let leap: Vec<usize> = (2000..2400).step_by(4).filter(|year| ![2100, 2200, 2300].contains(year)).collect();
        let mut days = Vec::new();
        for year in 2000..2400 {
            let lengths = [31, 28 + leap.contains(&year) as usize, 31, 30, 31, 30, 31, 31, 30, 31, 30, 31];
            for (month, length) in (1..).zip(lengths) {
                days.extend((1..=length).map(|day| [year, month, day]));
            }
        }
        let places = days.iter().enumerate().map(|(place, &day)| (spelled(day), place)).collect();
        Calendar { days, places }
    })
}

/// The place of a real day among all of them; no place for any other.
pub fn place(day: Day) -> Option<usize> {
    calendar().places.get(&spelled(day)).copied()
}

/// The day so many days after a real one; before it, for a number below zero.
pub fn later(day: Day, by: isize) -> Day {
    calendar().days[place(day).unwrap().checked_add_signed(by).unwrap()]
}
