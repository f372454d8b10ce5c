//! Bytes and words as case files write them.

use crate::machine::Visit;
use crate::memory::Memory;
use std::fmt::{Display, Write};

fn digit(byte: u8) -> Option<u8> {
    match byte {
        b'0'..=b'9' => Some(byte - b'0'),
        b'a'..=b'f' => Some(byte - b'a' + 10),
        _ => None,
    }
}

/// Two small digits for each byte; `-` is the empty list.
pub fn parse_bytes(text: &str) -> Option<Vec<u8>> {
    if text == "-" {
        return Some(Vec::new());
    }
    if text.is_empty() || !text.len().is_multiple_of(2) {
        return None;
    }
    let pairs = text.as_bytes().chunks_exact(2);
    pairs
        .map(|pair| Some(digit(pair[0])? << 4 | digit(pair[1])?))
        .collect()
}

pub fn show_bytes(bytes: &[u8]) -> String {
    const DIGITS: &[u8; 16] = b"0123456789abcdef";
    if bytes.is_empty() {
        return "-".to_string();
    }
    let digits = bytes.iter().flat_map(|byte| [byte >> 4, byte & 15]);
    digits
        .map(|digit| char::from(DIGITS[usize::from(digit)]))
        .collect()
}

pub fn parse_word(text: &str) -> Option<u32> {
    let good = !text.is_empty() && text.bytes().all(|byte| digit(byte).is_some());
    good.then(|| u32::from_str_radix(text, 16).ok())?
}

pub fn parse_words(text: &str) -> Option<Vec<u32>> {
    if text == "-" {
        return Some(Vec::new());
    }
    text.split(',').map(parse_word).collect()
}

/// The parts with commas between, or `-` where there are none.
pub fn listed<T: Display>(parts: impl IntoIterator<Item = T>) -> String {
    let mut out = String::new();
    for part in parts {
        if !out.is_empty() {
            out.push(',');
        }
        let _ = write!(out, "{part}");
    }
    if out.is_empty() {
        out.push('-');
    }
    out
}

pub fn hex(words: &[u32]) -> String {
    listed(words.iter().map(|word| format!("{word:x}")))
}

/// The same without trailing zeros.
pub fn trimmed(words: &[u32]) -> String {
    let length = words
        .iter()
        .rposition(|&word| word != 0)
        .map_or(0, |last| last + 1);
    hex(&words[..length])
}

pub fn visits(visits: &[Visit]) -> String {
    listed(
        visits
            .iter()
            .map(|visit| format!("{}.{}", visit.place, visit.choice as u8)),
    )
}

pub fn seen<M: Memory + ?Sized>(memory: &M) -> String {
    listed((0..memory.marks()).filter_map(|number| memory.mark(number)))
}
