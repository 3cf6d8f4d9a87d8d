//! `make-scripts SEED` prints one random script for `rehearse`.

use reference::make::{BAD_NUMBERS, arguments};
use reference::random::Random;
use std::io::{self, Write};
use std::process::ExitCode;

const BAD_WEIGHTS_PERCENT: usize = 33;
const MOST_LINES: usize = 40;

fn main() -> io::Result<ExitCode> {
    let Some([seed]) = arguments() else {
        eprintln!("usage: make-scripts SEED");
        return Ok(ExitCode::from(2));
    };
    io::stdout().write_all(&script(&mut Random::new(seed)))?;
    Ok(ExitCode::SUCCESS)
}

fn script(random: &mut Random) -> Vec<u8> {
    let first = if random.chance(BAD_WEIGHTS_PERCENT) {
        bad_weights(random)
    } else {
        let numbers = good_numbers(random);
        Some(spaced(random, "weights", &numbers))
    };
    // No first line at all: an empty script.
    let Some(first) = first else {
        return Vec::new();
    };
    let mut lines = vec![first];
    for _ in 0..random.between(0, MOST_LINES) {
        lines.push(line(random));
    }
    joined(random, &lines)
}

/// Each line ends in a newline, before which there may be a carriage return;
/// the last one may have none.
fn joined(random: &mut Random, lines: &[Vec<u8>]) -> Vec<u8> {
    let mut script = Vec::new();
    for line in lines {
        script.extend(line);
        script.extend(match random.chance(5) {
            true => &b"\r\n"[..],
            false => b"\n",
        });
    }
    if random.chance(15) {
        script.pop();
    }
    script
}

/// The words parted by one space mostly, with spaces around them now and then.
fn spaced(random: &mut Random, name: &str, words: &[String]) -> Vec<u8> {
    let mut line = vec![b' '; edge(random)];
    line.extend(name.bytes());
    for word in words {
        let gap = match random.chance(5) {
            true => random.between(2, 5),
            false => 1,
        };
        line.extend(vec![b' '; gap]);
        line.extend(word.bytes());
    }
    line.extend(vec![b' '; edge(random)]);
    line
}

fn edge(random: &mut Random) -> usize {
    match random.chance(5) {
        true => random.between(1, 3),
        false => 0,
    }
}

/// 1 to 64 weights, one of which, whichever it is, isn't 0.
fn good_numbers(random: &mut Random) -> Vec<String> {
    let count = match random.below(10) {
        0..6 => random.between(1, 8),
        6..9 => random.between(1, 64),
        _ => 64,
    };
    let mut numbers: Vec<String> = (0..count).map(|_| weight(random)).collect();
    let at = random.below(count);
    numbers[at] = random.between(1, 1_000_000).to_string();
    numbers
}

fn weight(random: &mut Random) -> String {
    match random.below(10) {
        0..5 => "1".into(),
        5..7 => random.between(0, 9).to_string(),
        7 => "1000000".into(),
        8 => format!("{:050}", random.between(0, 1_000_000)),
        _ => random.between(0, 1_000_000).to_string(),
    }
}

/// A first line that gives no weights; `None` for no line at all.
fn bad_weights(random: &mut Random) -> Option<Vec<u8>> {
    let numbers = good_numbers(random);
    let line = match random.below(12) {
        0 => return None,
        1 => b"weights".to_vec(),
        2 => spaced(random, "weights", &vec!["1".into(); 65]),
        3 => {
            let count = random.between(1, 64);
            spaced(random, "weights", &vec!["0".into(); count])
        }
        4..7 => {
            let mut numbers = numbers;
            let at = random.below(numbers.len());
            numbers[at] = random.pick(&BAD_NUMBERS).into();
            spaced(random, "weights", &numbers)
        }
        7 | 8 => {
            let name = random.pick(&BAD_NAMES);
            spaced(random, name, &numbers)
        }
        9 => vec![b' '; random.between(0, 9)],
        10 => random_line(random),
        _ => {
            let line = spaced(random, "weights", &numbers);
            with_stray_byte(random, line)
        }
    };
    Some(line)
}

const BAD_NAMES: [&str; 8] = [
    "Weights",
    "WEIGHTS",
    "weight",
    "weightss",
    "weights:",
    "page",
    "1",
    "\u{feff}weights",
];

/// A byte that is neither a digit nor a space nor ends a line, anywhere within.
fn with_stray_byte(random: &mut Random, mut line: Vec<u8>) -> Vec<u8> {
    let at = random.below(line.len());
    line.insert(at, random.pick(b"\0\t\r/:x\x7f\x80\xff"));
    line
}

fn line(random: &mut Random) -> Vec<u8> {
    match random.below(100) {
        0..40 => command(random, "page", 2),
        40..70 => command(random, "vote", 3),
        70..80 => command(random, "sign", 3),
        80..84 => spaced(random, "stop", &[]),
        84..89 => Vec::new(),
        89..91 => vec![b' '; random.between(1, 9)],
        91..95 => {
            let name = random.pick(&["Page", "votes", "settled", "final", "weights", "x"]);
            let count = random.between(0, 4);
            command(random, name, count)
        }
        95..97 => {
            let line = command(random, "vote", 3);
            with_stray_byte(random, line)
        }
        _ => random_line(random),
    }
}

/// A line of numbers, most of them small and as many as there should be.
fn command(random: &mut Random, name: &str, count: usize) -> Vec<u8> {
    let count = match random.below(30) {
        0 => count.saturating_sub(1),
        1 => count + 1,
        _ => count,
    };
    let numbers: Vec<String> = (0..count).map(|_| small_number(random)).collect();
    spaced(random, name, &numbers)
}

fn small_number(random: &mut Random) -> String {
    match random.below(50) {
        0 => random.pick(&BAD_NUMBERS).into(),
        1 => format!("{:030}", random.below(10)),
        2 => random.below(5_000).to_string(),
        _ => random.below(10).to_string(),
    }
}

/// Bytes of any value, but none that ends a line.
fn random_line(random: &mut Random) -> Vec<u8> {
    let len = random.between(1, 60);
    let mut line = random.bytes(len);
    line.retain(|&byte| byte != b'\n');
    line
}
