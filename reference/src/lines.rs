//! The text format: five numbers on a line, single spaces between them.

use crate::heap::Limits;

/// A number is one or more decimal digits with a value below 4,294,967,296.
pub fn number(text: &[u8]) -> Option<u32> {
    if text.is_empty() {
        return None;
    }
    let mut value: u64 = 0;
    for &byte in text {
        if !byte.is_ascii_digit() {
            return None;
        }
        value = value * 10 + u64::from(byte - b'0');
        if value >= 4_294_967_296 {
            return None;
        }
    }
    Some(value as u32)
}

/// The five numbers of a line, given without its line feed.
pub fn five_numbers(line: &[u8]) -> Option<[u32; 5]> {
    let mut words = Vec::new();
    for word in line.split(|&byte| byte == b' ') {
        words.push(number(word)?);
        if words.len() > 5 {
            return None;
        }
    }
    words.try_into().ok()
}

/// The first line: T V D P N, each in its range.
pub fn sizes(line: &[u8]) -> Option<Limits> {
    let [threads, variables, depth, pages, entries] = five_numbers(line)?;
    let in_range = (1..=16).contains(&threads)
        && (1..=32).contains(&variables)
        && (1..=8).contains(&depth)
        && (1..=1024).contains(&pages)
        && entries <= 4096;
    in_range.then_some(Limits { threads, variables, depth, pages, entries })
}

/// The first line of the program's input: it takes P up to 32 and N up to 1,024.
pub fn program_sizes(line: &[u8]) -> Option<Limits> {
    sizes(line).filter(|limits| limits.pages <= 32 && limits.entries <= 1024)
}

/// The commands that a whole text leads to: none if its first line is no sizes line, else those before the first malformed line.
pub fn commands(text: &[u8], sizes: fn(&[u8]) -> Option<Limits>) -> Vec<[u32; 5]> {
    let mut lines = text.split(|&byte| byte == b'\n');
    match lines.next().and_then(sizes) {
        Some(_) => lines.map_while(five_numbers).collect(),
        None => Vec::new(),
    }
}
