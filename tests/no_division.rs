//! Shows from the sources that no division and no remainder stands in a function that an issue under the short code runs to find the balancing digit
//! (document 02, item 3), nor in one that an issue under the turning code runs for it, the turn included (item 4). It finds them itself, by their calls,
//! through all crates: those on a way from `ISSUE` to one of the `QUERIES`, and all that these reach, `DIGIT` and what is below it among them. A way
//! through `OTHER` is not one of these codes' issues: the round code asks for rows of the short code, by keys that it writes in base N, for which it divides.
//!
//!     rustc --edition 2021 -O tests/no_division.rs -o no_division
//!     ./no_division crates          reads the sources; then plants divisions, calls and gaps in what it has read, each of which it must find
//!     ./no_division crates MIR      holds what it reads against the compiler's account of it (a file with the `mir.json` of each crate's library)
mod sources;

use sources::{Calls, Read, Sources};
use std::collections::{BTreeMap, BTreeSet};

/// The call, the functions of the short and the turning code that it comes to, and the one that finds the digit.
const ISSUE: &str = "session::Session::issue";
const QUERIES: [&str; 2] = ["short_code::query", "turn_code::query"];
const OTHER: &str = "round_code::query";
const DIGIT: &str = "short_code::balancing_digit";

/// Operators that divide, and words that no name may have as one of its parts.
const OPERATORS: [&str; 4] = ["/", "%", "/=", "%="];
const WORDS: [&str; 12] =
    ["div", "rem", "divide", "divided", "division", "divmod", "divrem", "quotient", "remainder", "modulus", "euclid", "multiple"];

/// All that is reached from some functions by calls, and how many calls away it is.
fn reached(calls: &Calls, from: &[&str]) -> BTreeMap<String, usize> {
    let (mut found, mut next, mut depth) = (BTreeMap::new(), from.iter().map(|name| name.to_string()).collect::<BTreeSet<_>>(), 0);
    while !next.is_empty() {
        found.extend(next.iter().map(|name| (name.clone(), depth)));
        next = next.iter().filter_map(|name| calls.get(name)).flatten().filter(|name| !found.contains_key(*name)).cloned().collect();
        depth += 1;
    }
    found
}

/// The functions that have to do without a division, from the call down: those on a way from `ISSUE` to one of the `QUERIES`, and those that these reach.
fn finding(calls: &Calls) -> Vec<String> {
    let own: Calls = calls.iter().filter(|(name, _)| *name != OTHER).map(|(name, called)| (name.clone(), called.clone())).collect();
    let leads = |name: &str| reached(&own, &[name]).keys().any(|name| QUERIES.contains(&name.as_str()));
    let mut all = reached(&own, &[ISSUE]);
    all.retain(|name, _| leads(name));
    let start = all.values().max().copied().unwrap_or(0);
    for (name, depth) in reached(&own, &QUERIES).into_iter().filter(|(_, depth)| *depth > 0) {
        all.entry(name).or_insert(start + depth);
    }
    let mut sorted: Vec<(usize, String)> = all.into_iter().map(|(name, depth)| (depth, name)).collect();
    sorted.sort();
    sorted.into_iter().map(|(_, name)| name).collect()
}

/// Whether a word or sign of a body divides.
fn divides(text: &str) -> bool {
    OPERATORS.contains(&text) || text.split('_').any(|part| WORDS.contains(&part))
}

/// The functions that must not divide, in their order, and all that is wrong.
fn judged(read: &Read) -> (Vec<String>, Vec<String>) {
    let mut faults = read.faults.clone();
    let mut unread = BTreeMap::new();
    let mut calls = Calls::new();
    for name in read.functions.keys() {
        calls.insert(name.clone(), read.calls(name, unread.entry(name.clone()).or_insert(Vec::new())));
    }
    let found = finding(&calls);
    if !read.functions.contains_key(OTHER) {
        faults.push(format!("{OTHER} is not found"));
    }
    for name in QUERIES.into_iter().chain([ISSUE, DIGIT]).filter(|&name| !found.iter().any(|f| f == name) || !read.functions.contains_key(name)) {
        faults.push(format!("{name} is not found, or not called"));
    }
    for name in found.iter().filter(|name| read.functions.contains_key(*name)) {
        faults.append(unread.get_mut(name).unwrap());
        faults.extend(read.functions[name].body.iter().filter(|token| divides(&token.text)).map(|token| format!("{name}: `{}`", token.text)));
    }
    (found, faults)
}

/// What the sources say, with a text planted before or behind the bracket that opens a function's body, and another at the end of a crate's file.
fn planted(sources: &Sources, read: &Read, name: &str, behind: usize, text: &str, elsewhere: &str) -> Vec<String> {
    let function = &read.functions[name];
    let mut changed = sources.clone();
    changed[function.file].1.insert_str(function.body[0].at + behind, text);
    changed.iter_mut().find(|(path, _)| path.ends_with("/symbol/src/lib.rt")).unwrap().1.push_str(elsewhere);
    judged(&Read::all(&changed)).1
}

/// Divisions, calls of functions that divide or are not there, and functions that are gone: each is found wherever it is planted, and said to be where
/// it is. What only looks like a division is not one.
fn plants(sources: &Sources, read: &Read, found: &[String]) -> usize {
    let direct = ["let x = 1 / 1;", "let x = 1 % 1;", "let mut x = 1; x /= 1;", "let mut x = 1; x %= 1;", "let x = div(1, 1);", "let rem = 1;",
        "let x = u64::rem_euclid(1, 1);", "let x = n.checked_div(1);", "nowhere::planted(1);", "p.nothing();", "(p)(1);", "symbol::div(1);"];
    let elsewhere = "pub fn planted(x: usize) -> usize { deeper(x) } fn deeper(x: usize) -> usize { x / 2 } pub fn div(x: usize) -> usize { x }
        pub fn Large(x: usize) -> usize { x / 2 } impl Planted { pub fn halved(self) -> usize { 1 % 2 } }";
    let called = [("symbol::planted(1);", "symbol::deeper: `/`"), ("symbol::Large(1);", "symbol::Large: `/`"), ("p.halved();", "symbol::Planted::halved: `%`")];
    let harmless = [(1, "// 1 / 1 % 1\n"), (1, "/* 1 / 1 % 1 */"), (1, "let x = b\"/ % div\"; let y = b'/'; let z = b'\\'';"),
        (0, "requires even { n % 2 ≡ n / 2 } ensures halved { result ≡ n / 2 }"), (1, "refusal::number(1);")];
    let mut count = 0;
    let mut plant = |name: &str, behind: usize, text: &str, fault: Option<&str>| {
        let faults = planted(sources, read, name, behind, text, elsewhere);
        let right = fault.map_or(faults.is_empty(), |fault| faults.iter().any(|found| found.starts_with(fault)));
        assert!(right, "planted in {name}: {text}: {faults:?}");
        count += 1;
    };
    // what is called beside a code's query has nothing to do with the digit, what the query calls has
    let below = reached(&read.functions.keys().map(|name| (name.clone(), read.calls(name, &mut Vec::new()))).collect(), &QUERIES);
    for name in found {
        direct.iter().for_each(|text| plant(name, 1, text, Some(&format!("{name}: "))));
        called.iter().for_each(|(text, fault)| plant(name, 1, text, Some(*fault).filter(|_| below.contains_key(name))));
        harmless.iter().for_each(|(behind, text)| plant(name, *behind, text, None));
        let mut gone = Read::all(sources);
        gone.functions.remove(name);
        assert!(judged(&gone).1.iter().any(|fault| fault.contains("not found")), "{name} is gone, and not missed");
    }
    count + found.len()
}

/// The compiler's account: of each function what it calls, and whether it divides.
fn compiled(mir: &str) -> (Calls, BTreeSet<String>) {
    let (mut calls, mut dividing) = (Calls::new(), BTreeSet::new());
    let name = |text: &str| text.split('"').next().unwrap().to_string();
    // an entry is ["NAME",{"lifetimes":..}]: what stands between two marks is a body, and then the next entry's name
    let parts: Vec<&str> = mir.split("\",{\"lifetimes\":").collect();
    for (before, body) in parts.iter().zip(&parts[1..]) {
        let own = before.rsplit('"').next().unwrap().to_string();
        calls.insert(own.clone(), body.split("{\"Fn\":[\"").skip(1).map(name).collect());
        if body.contains("{\"Div\":") || body.contains("{\"Rem\":") {
            dividing.insert(own);
        }
    }
    (calls, dividing)
}

fn main() {
    let words: Vec<String> = std::env::args().collect();
    let mut sources = Sources::new();
    let mut folders: Vec<_> = std::fs::read_dir(&words[1]).unwrap().map(|entry| entry.unwrap().path().join("src")).collect();
    folders.sort();
    for file in folders.iter().flat_map(|folder| std::fs::read_dir(folder).unwrap()) {
        let path = file.unwrap().path();
        sources.push((path.display().to_string(), std::fs::read_to_string(&path).unwrap()));
    }
    let read = Read::all(&sources);
    let (found, faults) = judged(&read);
    if !faults.is_empty() {
        eprintln!("a division on the way to the balancing digit, or a call that leads nobody knows where:\n{}", faults.join("\n"));
        std::process::exit(1);
    }
    if let Some(file) = words.get(2) {
        let (calls, dividing) = compiled(&std::fs::read_to_string(file).unwrap());
        assert_eq!(finding(&calls), found, "the compiler knows other functions on the way to the balancing digit");
        assert!(found.iter().all(|name| calls[name].is_subset(&read.calls(name, &mut Vec::new()))), "the compiler knows more calls");
        assert!(found.iter().all(|name| !dividing.contains(name)) && !dividing.is_empty(), "the compiler knows a division");
        println!("no division: the compiler calls the same {} functions to find the balancing digit, and divides in none of them", found.len());
        return;
    }
    let elsewhere = read.functions.values().filter(|function| function.body.iter().any(|token| divides(&token.text))).count();
    assert!(elsewhere > 0, "no division anywhere");
    println!("no division: {} functions find the balancing digit, and none divides ({elsewhere} others do): {}", found.len(), found.join(" "));
    println!("no division: {} plants in them were seen for what they are", plants(&sources, &read, &found));
}
