//! The book of pages: those that are there, and those that wait for their
//! parent.

use crate::pages::{Digest, Page};
use crate::sha256;
use std::collections::HashMap;

const MOST_PAGES: usize = 4096;
const MOST_WAITING: usize = 64;

/// What becomes of a page that is offered.
#[derive(Clone, Copy, Debug, PartialEq, Eq)]
pub enum Answer {
    /// With this number.
    Taken(usize),
    Waiting,
    Refused(Refusal),
}

#[derive(Clone, Copy, Debug, PartialEq, Eq)]
pub enum Refusal {
    Malformed = 1,
    /// It is there or waiting already.
    Known = 2,
    /// It isn't the parent's plus one, or it is 0.
    Height = 3,
    /// There is no room for one more, in the book or in the queue.
    Full = 4,
}

impl Refusal {
    pub fn number(self) -> u8 {
        self as u8
    }
}

/// A waiting page that left the queue: taken, with its number, or refused.
#[derive(Clone, Copy, Debug, PartialEq, Eq)]
pub struct Departure {
    pub digest: Digest,
    pub outcome: Result<usize, Refusal>,
}

/// A page that is in the book.
#[derive(Clone, Debug)]
pub struct Entry {
    pub page: Page,
    pub digest: Digest,
    /// The number of its parent; page 0 has its own here.
    pub parent: usize,
}

/// A page that waits.
struct Waiter {
    page: Page,
    digest: Digest,
    /// The number of its parent, once that is there.
    parent: Option<usize>,
}

pub struct Book {
    /// By number.
    entries: Vec<Entry>,
    numbers: HashMap<Digest, usize>,
    /// The one that has waited longest is the first.
    waiting: Vec<Waiter>,
}

impl Book {
    /// With page 0 alone.
    pub fn new() -> Self {
        let page = Page::zero();
        let digest = page.digest();
        let first = Entry {
            page,
            digest,
            parent: 0,
        };
        Self {
            entries: vec![first],
            numbers: HashMap::from([(digest, 0)]),
            waiting: Vec::new(),
        }
    }

    /// The pages that are there, by number.
    pub fn entries(&self) -> &[Entry] {
        &self.entries
    }

    /// Takes the page that has these bytes, keeps it waiting or refuses it;
    /// also the waiting pages that then leave the queue, in this order.
    pub fn offer(&mut self, bytes: &[u8]) -> (Answer, Vec<Departure>) {
        match self.check(bytes) {
            Ok(Answer::Taken(number)) => (Answer::Taken(number), self.departures()),
            Ok(answer) => (answer, Vec::new()),
            Err(refusal) => (Answer::Refused(refusal), Vec::new()),
        }
    }

    fn check(&mut self, bytes: &[u8]) -> Result<Answer, Refusal> {
        let page = Page::decode(bytes).ok_or(Refusal::Malformed)?;
        let digest = sha256::digest(bytes);
        if self.knows(&digest) {
            return Err(Refusal::Known);
        }
        if page.height == 0 {
            return Err(Refusal::Height);
        }
        match self.numbers.get(&page.parent) {
            Some(&parent) => self.take(page, digest, parent).map(Answer::Taken),
            None => self.keep_waiting(page, digest),
        }
    }

    fn knows(&self, digest: &Digest) -> bool {
        self.numbers.contains_key(digest) || self.waiting.iter().any(|w| w.digest == *digest)
    }

    /// Takes a page whose parent is there, if its height is right and there is
    /// room for it.
    fn take(&mut self, page: Page, digest: Digest, parent: usize) -> Result<usize, Refusal> {
        if page.height != self.entries[parent].page.height + 1 {
            return Err(Refusal::Height);
        }
        if self.entries.len() == MOST_PAGES {
            return Err(Refusal::Full);
        }
        let number = self.entries.len();
        self.entries.push(Entry {
            page,
            digest,
            parent,
        });
        self.numbers.insert(digest, number);
        for waiter in &mut self.waiting {
            if waiter.page.parent == digest {
                waiter.parent = Some(number);
            }
        }
        Ok(number)
    }

    fn keep_waiting(&mut self, page: Page, digest: Digest) -> Result<Answer, Refusal> {
        if self.waiting.len() == MOST_WAITING {
            return Err(Refusal::Full);
        }
        self.waiting.push(Waiter {
            page,
            digest,
            parent: None,
        });
        Ok(Answer::Waiting)
    }

    /// Lets the waiting pages whose parent is there leave the queue, each time
    /// the one that has waited longest, until there is none.
    fn departures(&mut self) -> Vec<Departure> {
        let mut departures = Vec::new();
        while let Some((at, parent)) = self.next_to_leave() {
            let Waiter { page, digest, .. } = self.waiting.remove(at);
            let outcome = self.take(page, digest, parent);
            departures.push(Departure { digest, outcome });
        }
        departures
    }

    /// Its place in the queue, and its parent's number.
    fn next_to_leave(&self) -> Option<(usize, usize)> {
        let mut places = self.waiting.iter().enumerate();
        places.find_map(|(at, waiter)| Some((at, waiter.parent?)))
    }
}

impl Default for Book {
    fn default() -> Self {
        Self::new()
    }
}

#[cfg(test)]
mod tests {
    use super::{Answer, Book, Departure, MOST_PAGES, MOST_WAITING, Refusal};
    use crate::pages::Page;

    fn on(parent: &Page, name: u32) -> Page {
        Page {
            height: parent.height + 1,
            parent: parent.digest(),
            receipts: name.to_be_bytes().to_vec(),
        }
    }

    fn with_height(mut page: Page, height: u32) -> Page {
        page.height = height;
        page
    }

    /// On a page that is nowhere.
    fn lost(name: u32) -> Page {
        Page {
            height: 1,
            parent: [9; 32],
            receipts: name.to_be_bytes().to_vec(),
        }
    }

    fn offer(book: &mut Book, page: &Page) -> Answer {
        let (answer, departures) = book.offer(&page.encode());
        assert_eq!(departures, []);
        answer
    }

    fn refused(book: &mut Book, page: &Page) -> Option<u8> {
        match offer(book, page) {
            Answer::Refused(refusal) => Some(refusal.number()),
            _ => None,
        }
    }

    fn departed(page: &Page, outcome: Result<usize, Refusal>) -> Departure {
        let digest = page.digest();
        Departure { digest, outcome }
    }

    /// A book with so many pages that lie on page 0, and page 0.
    fn book_of(pages: usize) -> Book {
        let mut book = Book::new();
        for name in 1..pages {
            let page = on(&Page::zero(), name as u32);
            assert_eq!(offer(&mut book, &page), Answer::Taken(name));
        }
        book
    }

    #[test]
    fn page_0_is_there() {
        let book = Book::new();
        let [entry] = book.entries() else { panic!() };
        assert_eq!((entry.parent, &entry.page), (0, &Page::zero()));
    }

    #[test]
    fn taken() {
        let mut book = Book::new();
        let one = on(&Page::zero(), 1);
        let two = on(&one, 2);
        let three = on(&one, 3);
        for (page, number) in [(&one, 1), (&two, 2), (&three, 3)] {
            assert_eq!(offer(&mut book, page), Answer::Taken(number));
        }
        let parents: Vec<_> = book.entries().iter().map(|entry| entry.parent).collect();
        assert_eq!(parents, [0, 0, 1, 1]);
        assert_eq!(book.entries()[2].digest, two.digest());
    }

    #[test]
    fn malformed() {
        let answer = Answer::Refused(Refusal::Malformed);
        assert_eq!(Book::new().offer(b""), (answer, vec![]));
        assert_eq!(Book::new().offer(&[1; 39]), (answer, vec![]));
    }

    #[test]
    fn known() {
        let mut book = book_of(2);
        assert_eq!(refused(&mut book, &Page::zero()), Some(2));
        assert_eq!(refused(&mut book, &on(&Page::zero(), 1)), Some(2));
        assert_eq!(offer(&mut book, &lost(1)), Answer::Waiting);
        assert_eq!(refused(&mut book, &lost(1)), Some(2));
    }

    #[test]
    fn wrong_height() {
        let mut book = book_of(2);
        for height in [0, 2, u32::MAX] {
            let page = with_height(on(&Page::zero(), 5), height);
            assert_eq!(refused(&mut book, &page), Some(3));
        }
        assert_eq!(refused(&mut book, &with_height(lost(1), 0)), Some(3));
        assert_eq!(
            offer(&mut book, &with_height(lost(1), u32::MAX)),
            Answer::Waiting
        );
    }

    #[test]
    fn full_book() {
        let mut book = book_of(MOST_PAGES);
        let one = on(&Page::zero(), 1);
        let more = on(&one, 9_999);
        assert_eq!(refused(&mut book, &more), Some(4));
        assert_eq!(refused(&mut book, &with_height(more, 1)), Some(3));
        assert_eq!(refused(&mut book, &one), Some(2));
        assert_eq!(offer(&mut book, &lost(1)), Answer::Waiting);
        assert_eq!(book.entries().len(), MOST_PAGES);
    }

    #[test]
    fn full_queue() {
        let mut book = Book::new();
        for name in 0..MOST_WAITING as u32 {
            assert_eq!(offer(&mut book, &lost(name)), Answer::Waiting);
        }
        assert_eq!(refused(&mut book, &lost(64)), Some(4));
        assert_eq!(refused(&mut book, &lost(0)), Some(2));
        assert_eq!(refused(&mut book, &with_height(lost(65), 0)), Some(3));
        assert_eq!(
            offer(&mut book, &on(&Page::zero(), 1)),
            Answer::Taken(1),
            "a page whose parent is there needs no room in the queue"
        );
    }

    #[test]
    fn longest_waiting_first() {
        let mut book = Book::new();
        let one = on(&Page::zero(), 1);
        let two = on(&one, 2);
        let three = on(&one, 3);
        let four = on(&three, 4);
        // Four may leave only after three, and is then longer there than two.
        for page in [&four, &three, &lost(1), &two] {
            assert_eq!(offer(&mut book, page), Answer::Waiting);
        }
        let (answer, departures) = book.offer(&one.encode());
        assert_eq!(answer, Answer::Taken(1));
        assert_eq!(
            departures,
            [
                departed(&three, Ok(2)),
                departed(&four, Ok(3)),
                departed(&two, Ok(4))
            ]
        );
        assert_eq!(refused(&mut book, &lost(1)), Some(2));
    }

    #[test]
    fn wrong_height_of_a_waiting_page() {
        let mut book = Book::new();
        let one = on(&Page::zero(), 1);
        let wrong = with_height(on(&one, 2), 3);
        let above = on(&wrong, 3);
        assert_eq!(offer(&mut book, &above), Answer::Waiting);
        assert_eq!(offer(&mut book, &wrong), Answer::Waiting);
        let (_, departures) = book.offer(&one.encode());
        assert_eq!(departures, [departed(&wrong, Err(Refusal::Height))]);
        // It is gone and may be sent again; what lies on it still waits.
        assert_eq!(refused(&mut book, &wrong), Some(3));
        assert_eq!(refused(&mut book, &above), Some(2));
    }

    #[test]
    fn full_for_waiting_pages() {
        let mut book = book_of(MOST_PAGES - 2);
        let one = on(&Page::zero(), 9_999);
        let [two, three] = [2, 3].map(|name| on(&one, name));
        let wrong = with_height(on(&one, 4), 9);
        for page in [&two, &three, &wrong] {
            assert_eq!(offer(&mut book, page), Answer::Waiting);
        }
        let (answer, departures) = book.offer(&one.encode());
        assert_eq!(answer, Answer::Taken(MOST_PAGES - 2));
        assert_eq!(
            departures,
            [
                departed(&two, Ok(MOST_PAGES - 1)),
                departed(&three, Err(Refusal::Full)),
                departed(&wrong, Err(Refusal::Height))
            ]
        );
        assert_eq!(refused(&mut book, &three), Some(4));
    }
}
