//! The words of case lines.

use std::str::FromStr;

use crate::boundary;
use crate::session::Run;

/// An even number of upper-case digits; no bytes are an empty word.
pub fn bytes(word: &str) -> Option<Vec<u8>> {
    let digits = word.as_bytes();
    if !digits.len().is_multiple_of(2) {
        return None;
    }
    digits
        .chunks_exact(2)
        .map(|pair| Some(upper_digit(pair[0])? << 4 | upper_digit(pair[1])?))
        .collect()
}

fn upper_digit(digit: u8) -> Option<u8> {
    match digit {
        b'0'..=b'9' => Some(digit - b'0'),
        b'A'..=b'F' => Some(digit - b'A' + 10),
        _ => None,
    }
}

pub fn byte(word: &str) -> Option<u8> {
    exactly(word).map(u8::from_be_bytes)
}

pub fn address(word: &str) -> Option<u32> {
    exactly(word).map(u32::from_be_bytes)
}

/// The upper half of an address.
pub fn half(word: &str) -> Option<u16> {
    exactly(word).map(u16::from_be_bytes)
}

fn exactly<const LENGTH: usize>(word: &str) -> Option<[u8; LENGTH]> {
    bytes(word)?.try_into().ok()
}

/// A decimal number without leading zeros, as large as its type allows.
pub fn number<N: FromStr>(word: &str) -> Option<N> {
    let plain = word.bytes().all(|digit| digit.is_ascii_digit());
    if !plain || (word.len() > 1 && word.starts_with('0')) {
        return None;
    }
    word.parse().ok()
}

/// The fields of a record, as many as there are words.
pub fn numbers(words: &[&str]) -> Option<Vec<u64>> {
    words.iter().map(|word| number(word)).collect()
}

pub fn run(word: &str) -> Option<Run> {
    match word {
        "reset" => Some(Run::Reset),
        "jump" => Some(Run::Jump),
        "hold" => Some(Run::Hold),
        _ => number(word).map(boundary::run),
    }
}
