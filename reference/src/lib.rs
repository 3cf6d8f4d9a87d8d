//! The register once more, in plain Rust with nothing but `std`.
//!
//! It is written from the rules alone, and shares no code with the proved
//! crates: what both programs print for the same input can then be held
//! against each other (`compare/run`), and so can their speed (`bench/run`).
//!
//! Lowest first, each module using only those above it:
//!
//! | module | holds |
//! |---|---|
//! | [`sha256`] | the digest |
//! | [`hex`], [`lines`] | text in: digits, lines, words, numbers |
//! | [`weights`] | the voters' weights, as the first line gives them |
//! | [`pages`] | a page's parts, bytes and digest |
//! | [`book`] | the pages that are there and those that wait |
//! | [`numbers`] | the pages that a script's small numbers stand for; [`script`] doesn't ask for them yet |
//! | [`script`] | a script in small numbers: what `rehearse` prints for it |
//! | [`random`], [`make`], [`trees`] | for the makers of input: a generator that repeats itself, lines, trees of pages |
//!
//! Votes, settling, the search for proofs and the guard each get a module of
//! their own, between [`book`] and [`numbers`].
//!
//! The programs in `src/bin` only read, call and print. `vectors` and
//! `rehearse` are named as the proved ones; `intake` takes pages and has no
//! proved twin yet. Random input for the three is printed by `make-messages`,
//! `make-scripts` and `make-pages`; `make-trees` prints the same pages in
//! several orders.

#![forbid(unsafe_code)]

pub mod book;
pub mod hex;
pub mod lines;
pub mod make;
pub mod numbers;
pub mod pages;
pub mod random;
pub mod script;
pub mod sha256;
pub mod trees;
pub mod weights;
