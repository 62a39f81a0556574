//! The request printer.
use crate::Bytes;
use crate::codes::request;
use crate::session::begin;
use crate::text::{lines, number};
use std::fmt::Write;

pub fn printed(input: &[u8]) -> String {
    match print_requests(input) {
        Ok(out) => out,
        Err(number) => format!("refused={number}\n"),
    }
}

fn print_requests(input: &[u8]) -> Result<String, u8> {
    if input.len() > 65536 {
        return Err(1);
    }
    let (c, rest) = lines(input).ok_or(1)?;
    let rest = std::str::from_utf8(rest).map_err(|_| 1)?;
    let (wanted, key) = rest.split_once('\n').ok_or(1)?;
    let wanted = number(wanted.strip_prefix("wanted=").ok_or(1)?).ok_or(1)?;
    let key = key.strip_suffix('\n').ok_or(1)?.strip_prefix("key=").ok_or(1)?;
    let numbers: Option<Vec<usize>> = if key.is_empty() { Some(Vec::new()) } else { key.split(' ').map(number).collect() };
    let numbers = numbers.ok_or(1)?;
    let key: Bytes = numbers.iter().map(|&x| x as u8).collect();
    begin(c, wanted, &key)?;
    if numbers.iter().any(|&x| x > 255) {
        return Err(6);
    }
    let mut out = String::new();
    for mirror in 0..c.n {
        let bytes: Vec<String> = request(c, wanted, mirror, &key).iter().map(|b| b.to_string()).collect();
        writeln!(out, "mirror={mirror} request={}", bytes.join(" ")).unwrap();
    }
    Ok(out)
}
