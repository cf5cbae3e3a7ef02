//! The ring of a CPU in overwrite mode, for a writer's thread and a reader's.

use crate::page::{longest_slot, slot_len, Body, Page};
use std::collections::VecDeque;
use std::mem;
use std::sync::atomic::{AtomicU64, Ordering};
use std::sync::{Mutex, MutexGuard, PoisonError};

const MAX_MOMENT: u64 = 1 << 59;

/// What the two ends share.
pub struct Ring {
    closed: Mutex<Closed>,
    /// How many fills are closed.
    done: AtomicU64,
}

/// The pages that are closed and unread, the oldest first, and the bodies of no page.
struct Closed {
    pages: VecDeque<Page>,
    bodies: Vec<Body>,
}

impl Ring {
    /// A ring and its first page.
    pub fn new(pages: usize, size: usize) -> (Ring, Page) {
        let bodies = (1..pages).map(|_| vec![0; size]).collect();
        let closed = Closed { pages: VecDeque::with_capacity(pages), bodies };
        let ring = Ring { closed: Mutex::new(closed), done: AtomicU64::new(0) };
        (ring, Page::fresh(vec![0; size], 0, 0))
    }

    fn lock(&self) -> MutexGuard<'_, Closed> {
        self.closed.lock().unwrap_or_else(PoisonError::into_inner)
    }
}

/// A writer's end.
pub struct Writer<'r> {
    ring: &'r Ring,
    tail: Page,
    /// The number of the next record.
    next: u64,
    /// The moment of the last one.
    last: u64,
    longest: usize,
}

impl<'r> Writer<'r> {
    pub fn new(ring: &'r Ring, tail: Page, size: usize) -> Writer<'r> {
        Writer { ring, tail, next: 0, last: 0, longest: longest_slot(size) }
    }

    /// Writes a record, unless it is too long or too late. Answers the fill that was closed, if one was.
    #[inline(always)]
    pub fn write(&mut self, moment: u64, payload: &[u8]) -> Option<u64> {
        let slot = slot_len(payload.len());
        if slot > self.longest || moment >= MAX_MOMENT {
            return None;
        }
        let moment = moment.max(self.last);
        let mut closed = None;
        if !self.tail.put_payload(moment, moment - self.last, slot, payload) {
            closed = Some(self.turn());
            let fits = self.tail.put_payload(moment, 0, slot, payload);
            assert!(fits, "a slot that isn't too long has room in an empty page");
        }
        self.next += 1;
        self.last = moment;
        closed
    }

    /// Closes the tail and begins the next page; if no body is left, the oldest page is overwritten.
    #[cold]
    #[inline(never)]
    fn turn(&mut self) -> u64 {
        let fill = self.tail.fill;
        let mut closed = self.ring.lock();
        let body = match closed.bodies.pop() {
            Some(body) => body,
            None => closed.pages.pop_front().expect("a ring has a page besides its tail").into_body(),
        };
        let full = mem::replace(&mut self.tail, Page::fresh(body, self.next, fill + 1));
        closed.pages.push_back(full);
        drop(closed);
        self.ring.done.store(fill + 1, Ordering::Release);
        fill
    }

    /// The tail, if it holds a record.
    pub fn into_unread(self) -> Option<Page> {
        (!self.tail.is_empty()).then_some(self.tail)
    }
}

/// A reader's end.
pub struct Reader<'r> {
    ring: &'r Ring,
    /// The fills below this one are taken or lost.
    hint: u64,
    /// The number after the last record that was taken.
    expected: u64,
    /// The body for the next take.
    body: Option<Body>,
    size: usize,
}

impl<'r> Reader<'r> {
    pub fn new(ring: &'r Ring, size: usize) -> Reader<'r> {
        Reader { ring, hint: 0, expected: 0, body: None, size }
    }

    /// Takes the oldest page that is closed and unread, and how many records are missing before it.
    pub fn take(&mut self) -> Option<(Page, u64)> {
        if self.ring.done.load(Ordering::Acquire) == self.hint {
            return None;
        }
        let body = self.body.take().unwrap_or_else(|| vec![0; self.size]);
        let mut closed = self.ring.lock();
        let page = closed.pages.pop_front();
        match page {
            Some(_) => closed.bodies.push(body),
            None => self.body = Some(body),
        }
        drop(closed);
        let page = page?;
        self.hint = page.fill + 1;
        let missed = page.first - self.expected;
        self.expected = page.first + page.count;
        Some((page, missed))
    }
}
