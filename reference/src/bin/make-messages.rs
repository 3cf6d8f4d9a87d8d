//! `make-messages SEED COUNT` prints COUNT random lines for `vectors`.

use reference::hex;
use reference::make::{BAD_NUMBERS, arguments};
use reference::random::Random;
use std::io::{self, BufWriter, Write};
use std::process::ExitCode;

/// Lengths right at, below and above the borders of one and two blocks, with
/// and without room for the padding.
const BORDERS: [usize; 9] = [55, 56, 63, 64, 65, 119, 120, 127, 128];
const SHORTEST_PAGE: usize = 39;
const LONGEST_PAGE: usize = 1063;

const MALFORMED_PERCENT: usize = 3;

fn main() -> io::Result<ExitCode> {
    let Some([seed, count]) = arguments() else {
        eprintln!("usage: make-messages SEED COUNT");
        return Ok(ExitCode::from(2));
    };
    print(seed, count)?;
    Ok(ExitCode::SUCCESS)
}

fn print(seed: u64, count: u64) -> io::Result<()> {
    let mut random = Random::new(seed);
    let mut out = BufWriter::new(io::stdout().lock());
    for _ in 0..count {
        let line = if random.chance(MALFORMED_PERCENT) {
            malformed(&mut random)
        } else {
            let line = well_formed(&mut random);
            loosened(&mut random, line)
        };
        out.write_all(&line)?;
        out.write_all(b"\n")?;
    }
    out.flush()
}

fn well_formed(random: &mut Random) -> Vec<u8> {
    let len = length(random);
    if len == 0 {
        return random.pick(&["0", "1", "7", "1000000"]).into();
    }
    format!("{} {}", times(random), digits(random, len)).into()
}

fn length(random: &mut Random) -> usize {
    match random.below(100) {
        0..30 => random.pick(&BORDERS),
        30..60 => random.between(0, 300),
        60..97 => random.between(SHORTEST_PAGE, LONGEST_PAGE),
        97..98 => 5000,
        _ => random.between(1, 16),
    }
}

/// Mostly once; seldom so often that the message has megabytes.
fn times(random: &mut Random) -> usize {
    match random.below(10_000) {
        0..9_000 => 1,
        9_000..9_050 => 0,
        9_050..9_900 => random.between(2, 9),
        9_900..9_995 => random.between(10, 300),
        _ => random.between(1_000, 3_000),
    }
}

/// The digits of `len` random bytes, each in either case.
fn digits(random: &mut Random, len: usize) -> String {
    hex::encode(&random.bytes(len))
        .chars()
        .map(|digit| match random.chance(50) {
            true => digit.to_ascii_uppercase(),
            false => digit,
        })
        .collect()
}

/// The line with zeros, spaces or a carriage return that change nothing.
fn loosened(random: &mut Random, line: Vec<u8>) -> Vec<u8> {
    match random.below(20) {
        0 => [b"000", &line[..]].concat(),
        1 => [b"  ", &line[..]].concat(),
        2 => [&line[..], b"   "].concat(),
        3 => [&line[..], b"\r"].concat(),
        4 => [b" ", &line[..], b" \r"].concat(),
        5 => line
            .split(|&byte| byte == b' ')
            .collect::<Vec<_>>()
            .join(&b"    "[..]),
        _ => line,
    }
}

fn malformed(random: &mut Random) -> Vec<u8> {
    let len = random.between(1, 80);
    let digits = digits(random, len);
    match random.below(10) {
        0 => random.pick(&["", " ", "     ", "\r", "  \r"]).into(),
        1 => format!("1 {digits} {digits}").into(),
        2 => format!("{} {digits}", random.pick(&BAD_NUMBERS)).into(),
        3 => random.pick(&BAD_NUMBERS).into(),
        4 => format!("1 {}", &digits[1..]).into(),
        5 => spoiled(random, format!("1 {digits}")),
        6 => format!("1000000 {digits}{}", "00".repeat(16)).into(),
        7 => format!("1\t{digits}").into(),
        8 => format!("1 {digits}\r\r").into(),
        _ => format!("{digits}z 1").into(),
    }
}

/// The line with one of its last digits made a byte that is none.
fn spoiled(random: &mut Random, line: String) -> Vec<u8> {
    let mut line = line.into_bytes();
    let at = random.between(2, line.len() - 1);
    line[at] = random.pick(b"/:@G`g\0\t\r-\x7f\x80\xff");
    line
}
