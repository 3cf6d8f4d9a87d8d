//! `make-pages SEED` prints random lines for `intake`.

use reference::make::{
    arguments, joined, mixed_digits, random_line, spaced, spoiled, with_stray_byte,
};
use reference::pages::Page;
use reference::random::Random;
use reference::trees::{disorder, grown, wrong_height};
use reference::{hex, sha256};
use std::io::{self, Write};
use std::process::ExitCode;

/// Where a page has the length of its receipts, and the last byte of it.
const LENGTH_AT: usize = 37;

fn main() -> io::Result<ExitCode> {
    let Some([seed]) = arguments() else {
        eprintln!("usage: make-pages SEED");
        return Ok(ExitCode::from(2));
    };
    io::stdout().write_all(&input(&mut Random::new(seed)))?;
    Ok(ExitCode::SUCCESS)
}

fn input(random: &mut Random) -> Vec<u8> {
    let mut pages = tree_pages(random);
    disorder(random, &mut pages);
    for _ in 0..random.below(5) {
        let strays = stray_pages(random, &pages);
        scatter(random, &mut pages, strays);
    }
    if random.chance(15) {
        pages.extend_from_within(..);
    }
    let bad_percent = random.pick(&[0, 0, 2, 20]);
    let mut lines = Vec::new();
    for page in pages {
        if random.chance(bad_percent) {
            lines.push(bad_line(random, &page));
        }
        lines.push(line(random, &page));
    }
    joined(random, &lines)
}

/// The bytes of a tree's pages; seldom more than a book holds.
fn tree_pages(random: &mut Random) -> Vec<Vec<u8>> {
    let count = match random.below(100) {
        0..60 => random.between(1, 40),
        60..92 => random.between(41, 300),
        _ => random.between(4_090, 4_250),
    };
    let wrong_percent = match count {
        0..1000 => random.pick(&[0, 1, 10]),
        _ => random.pick(&[0, 1]),
    };
    let receipts = if count < 100 { receipts } else { few_receipts };
    grown(random, count, wrong_percent, receipts)
        .into_iter()
        .map(|page| page.bytes)
        .collect()
}

fn receipts(random: &mut Random) -> Vec<u8> {
    let len = match random.below(10) {
        0 => 0,
        1 => 1024,
        2 => random.between(0, 1024),
        _ => random.between(1, 20),
    };
    random.bytes(len)
}

/// So many that no two pages are the same.
fn few_receipts(random: &mut Random) -> Vec<u8> {
    random.bytes(8)
}

/// Pages of one kind that leave the tree as it is, or stand on it.
fn stray_pages(random: &mut Random, pages: &[Vec<u8>]) -> Vec<Vec<u8>> {
    let make = random.pick(&[again, malformed, malformed, above, wrong, lost]);
    let count = random.pick(&[1, 2, 5, 20, 64, 65, 80]);
    (0..count)
        .map(|_| {
            let page = &pages[random.below(pages.len())];
            make(random, page)
        })
        .collect()
}

fn again(random: &mut Random, page: &[u8]) -> Vec<u8> {
    match random.chance(10) {
        true => Page::zero().encode(),
        false => page.to_vec(),
    }
}

/// A page that lies on this one, of the height that the bytes ask for.
fn above(random: &mut Random, page: &[u8]) -> Vec<u8> {
    let below = Page::decode(page).map_or(0, |page| page.height);
    let above = Page {
        height: below.wrapping_add(1),
        parent: sha256::digest(page),
        receipts: receipts(random),
    };
    above.encode()
}

/// Of a wrong height, beside this page or above it.
fn wrong(random: &mut Random, page: &[u8]) -> Vec<u8> {
    let mut bytes = match random.chance(50) {
        true => page.to_vec(),
        false => above(random, page),
    };
    if let Some(mut page) = Page::decode(&bytes) {
        page.height = wrong_height(random, page.height.wrapping_sub(1));
        bytes = page.encode();
    }
    bytes
}

/// On a page that is nowhere.
fn lost(random: &mut Random, _page: &[u8]) -> Vec<u8> {
    let mut parent = [0; 32];
    if random.chance(90) {
        parent.copy_from_slice(&random.bytes(32));
    }
    let lost = Page {
        height: random.between(0, 9) as u32,
        parent,
        receipts: receipts(random),
    };
    lost.encode()
}

/// Bytes that aren't a page, all but those with one bit turned: these are one
/// mostly, but never this one.
fn malformed(random: &mut Random, page: &[u8]) -> Vec<u8> {
    let mut bytes = page.to_vec();
    match random.below(8) {
        0 => bytes[0] = random.pick(&[0, 2, 3, 4, 49, 129, 255]),
        1 => bytes.truncate(bytes.len() - 1),
        2 => bytes.truncate(random.below(page.len())),
        3 => bytes.extend(vec![0; random.between(1, 4)]),
        4 => set_length(&mut bytes, |length| length.wrapping_add(1)),
        5 => set_length(&mut bytes, |length| length.wrapping_sub(1)),
        6 => bytes[random.below(page.len())] ^= 1 << random.below(8),
        _ => {
            bytes.resize(39 + random.pick(&[1025, 1025, 1026, 2000]), 7);
            let length = bytes.len() as u16 - 39;
            set_length(&mut bytes, |_| length);
        }
    }
    bytes
}

fn set_length(bytes: &mut [u8], change: impl Fn(u16) -> u16) {
    if let Some(field) = bytes
        .get_mut(LENGTH_AT..)
        .and_then(|rest| rest.first_chunk_mut())
    {
        *field = change(u16::from_be_bytes(*field)).to_be_bytes();
    }
}

/// Puts the strays anywhere, or all at the beginning or the end.
fn scatter(random: &mut Random, pages: &mut Vec<Vec<u8>>, strays: Vec<Vec<u8>>) {
    let fixed = random.pick(&[None, None, Some(0), Some(pages.len())]);
    for stray in strays {
        let at = fixed.unwrap_or_else(|| random.below(pages.len() + 1));
        pages.insert(at, stray);
    }
}

fn line(random: &mut Random, page: &[u8]) -> Vec<u8> {
    let digits = match random.below(10) {
        0 => mixed_digits(random, page),
        1 => hex::encode(page).to_uppercase(),
        _ => hex::encode(page),
    };
    spaced(random, "page", &[digits])
}

/// A line that isn't one of `intake`; seldom it is, after all.
fn bad_line(random: &mut Random, page: &[u8]) -> Vec<u8> {
    let digits = hex::encode(page);
    match random.below(12) {
        0 => vec![b' '; random.between(0, 3)],
        1 => spaced(random, "page", &[]),
        2 => spaced(random, "page", &[digits.clone(), digits]),
        3 => spaced(random, "page", &[digits, "x".into()]),
        4 if digits.is_empty() => Vec::new(),
        4 => spaced(random, "page", &[digits[1..].into()]),
        5 if digits.is_empty() => Vec::new(),
        5 => [b"page ", &spoiled(random, &digits)[..]].concat(),
        6 => spaced(random, &digits, &[]),
        7 => format!("page\t{digits}").into(),
        8 => format!("page {digits}\r\r").into(),
        9 => {
            let name = random.pick(&["Page", "pages", "vote", "settled", "weights", "0"]);
            spaced(random, name, &[digits])
        }
        10 => {
            let line = line(random, page);
            with_stray_byte(random, line)
        }
        _ => random_line(random),
    }
}
