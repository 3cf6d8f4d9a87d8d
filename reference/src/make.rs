//! What the makers of random input share: arguments, words and lines.

use crate::hex;
use crate::random::Random;
use std::env;

/// Words that aren't taken as a number: not of digits only, or too large, by
/// one or such that 32 or 64 bits would have only a small number left of them.
pub const BAD_NUMBERS: [&str; 15] = [
    "1000001",
    "4294967297",
    "18446744073709551617",
    "1000000000000000000000000000000000000001",
    "9999999999999999999999999999999999999999",
    "+1",
    "-1",
    "-0",
    "1.0",
    "1e3",
    "0x10",
    "1_000",
    "1,",
    "1a",
    "\u{0661}",
];

/// The program's arguments, if they are `N` numbers.
pub fn arguments<const N: usize>() -> Option<[u64; N]> {
    let numbers: Option<Vec<u64>> = env::args().skip(1).map(|arg| arg.parse().ok()).collect();
    numbers?.try_into().ok()
}

/// The words parted by one space mostly, with spaces around them now and then.
pub fn spaced(random: &mut Random, name: &str, words: &[String]) -> Vec<u8> {
    let mut line = vec![b' '; edge(random)];
    line.extend(name.bytes());
    for word in words {
        let gap = match random.chance(5) {
            true => random.between(2, 5),
            false => 1,
        };
        line.extend(vec![b' '; gap]);
        line.extend(word.bytes());
    }
    line.extend(vec![b' '; edge(random)]);
    line
}

fn edge(random: &mut Random) -> usize {
    match random.chance(5) {
        true => random.between(1, 3),
        false => 0,
    }
}

/// Each line ends in a newline, before which there may be a carriage return;
/// the last one may have none.
pub fn joined(random: &mut Random, lines: &[Vec<u8>]) -> Vec<u8> {
    let mut text = Vec::new();
    for line in lines {
        text.extend(line);
        text.extend(match random.chance(5) {
            true => &b"\r\n"[..],
            false => b"\n",
        });
    }
    if random.chance(15) {
        text.pop();
    }
    text
}

/// Bytes of any value, but none that ends a line.
pub fn random_line(random: &mut Random) -> Vec<u8> {
    let len = random.between(1, 60);
    let mut line = random.bytes(len);
    line.retain(|&byte| byte != b'\n');
    line
}

/// A byte that is neither a digit nor a space nor ends a line, anywhere within.
pub fn with_stray_byte(random: &mut Random, mut line: Vec<u8>) -> Vec<u8> {
    let at = random.below(line.len());
    line.insert(at, random.pick(b"\0\t\r/:x\x7f\x80\xff"));
    line
}

/// The digits of `bytes`, each in either case.
pub fn mixed_digits(random: &mut Random, bytes: &[u8]) -> String {
    hex::encode(bytes)
        .chars()
        .map(|digit| match random.chance(50) {
            true => digit.to_ascii_uppercase(),
            false => digit,
        })
        .collect()
}

/// One of the digits made a byte that is none.
pub fn spoiled(random: &mut Random, digits: &str) -> Vec<u8> {
    let mut digits = digits.as_bytes().to_vec();
    let at = random.below(digits.len());
    digits[at] = random.pick(b"/:@G`g\0\t\r-\x7f\x80\xff");
    digits
}
