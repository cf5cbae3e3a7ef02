//! A ring of this project's rules (docs/formats/ring.md, "The ring") in plain Rust: one value, one event at a time.

use crate::event::{Answer, Ended, Event, FillNo, RecordNo, WriteFault};
use crate::page::{longest_slot, slot_len, Body, Page, Place};
use std::mem;

const MAX_FRAMES: usize = 4;
const MOMENT_LIMIT: u64 = 1 << 59;
const LINK_FILLS: u64 = 1 << 48;

#[derive(Clone, Copy, PartialEq)]
enum Mark {
    Normal,
    Header,
    Update,
}

/// Which page is at a position, and of which fill this is said.
#[derive(Clone, Copy, PartialEq)]
struct Link {
    mark: Mark,
    page: u16,
    fill: u64,
}

/// What a frame still wants. One that has left wants to close fills, and then looks for a wish.
#[derive(Clone, Copy)]
enum Purpose {
    Record { moment: u64, slot: usize },
    Close,
    Left,
}

/// Who moves the head: the frame that set the UPDATE, or one that found it.
#[derive(Clone, Copy)]
enum Role {
    Owner,
    Helper,
}

/// How far a frame has come. `noted` is the fill to open, `page` the page at its position, `next` the one after that.
#[derive(Clone, Copy)]
enum Phase {
    Waiting,
    Reserved { number: u64, page: u16, place: Place },
    Looking { noted: u64 },
    Claiming { noted: u64, page: u16 },
    LookingNext { role: Role, noted: u64, page: u16 },
    Marking { role: Role, noted: u64, page: u16, next: u16 },
    Clearing { noted: u64, page: u16 },
    Opening { noted: u64, page: u16 },
    Releasing,
    Wishing,
}

#[derive(Clone, Copy)]
struct Frame {
    purpose: Purpose,
    phase: Phase,
}

/// How far a take has come. `fill` is the head that the reader has seen, on this page.
#[derive(Clone, Copy)]
enum Reading {
    LoadingLink,
    LoadingDone { page: u16, fill: u64 },
    StoringLink { page: u16, fill: u64 },
    Swapping { page: u16, fill: u64 },
}

pub struct Ring {
    size: usize,
    longest_slot: usize,
    // The words: the link into each position and that of the spare page, and three counts of fills.
    links: Vec<Link>,
    spare_link: Link,
    done: u64,
    opened: u64,
    wish: u64,
    /// The pages by their numbers. That of the tail and that of the spare lie elsewhere.
    pages: Vec<Page>,
    // The writer's: its frames, the page it is on, how many records were reserved, and the moment of the last of them.
    top: Option<Frame>,
    below: Vec<Frame>,
    tail: Page,
    tail_number: u16,
    reserved: u64,
    last_moment: u64,
    // The reader's: the page at each position and the one outside; the least fill that isn't known to be taken or lost,
    // how many fills were seen to be closed, and the number that the next record taken should have.
    order: Vec<u16>,
    spare: u16,
    reading: Reading,
    hint: u64,
    seen: u64,
    expected: u64,
}

impl Ring {
    /// A ring of `pages` pages of `size` bytes, whose first fill has the number `start`.
    pub fn new_at(pages: usize, size: usize, start: u64) -> Ring {
        let mut ring = Ring {
            size,
            longest_slot: longest_slot(size),
            links: vec![link(Mark::Normal, 0, 0); pages],
            spare_link: link(Mark::Normal, 0, 0),
            done: start,
            opened: start + 1,
            wish: 0,
            pages: (0..=pages).map(|_| Page::default()).collect(),
            top: None,
            below: Vec::with_capacity(MAX_FRAMES),
            tail: Page::fresh(vec![0; size], 0, start),
            tail_number: (start % pages as u64) as u16,
            reserved: 0,
            last_moment: 0,
            order: (0..pages as u16).collect(),
            spare: pages as u16,
            reading: Reading::LoadingLink,
            hint: start,
            seen: start,
            expected: 0,
        };
        for fill in start..start + pages as u64 {
            let at = ring.position(fill);
            let mark = if fill == start { Mark::Header } else { Mark::Normal };
            ring.links[at] = link(mark, at as u16, fill);
            if fill != start {
                ring.pages[at] = Page::fresh(vec![0; size], 0, fill);
            }
        }
        ring
    }

    pub fn new(pages: usize, size: usize) -> Ring {
        Ring::new_at(pages, size, 0)
    }

    pub fn depth(&self) -> usize {
        self.top.iter().len() + self.below.len()
    }

    pub fn size(&self) -> usize {
        self.size
    }

    /// One event. It is inlined into its caller, which knows the kind of event.
    #[inline(always)]
    pub fn step(&mut self, event: Event) -> Answer {
        match event {
            Event::Push { moment, len } => self.push_record(moment, len),
            Event::PushClose => self.push(Purpose::Close),
            Event::Step => self.step_frame(),
            Event::End => self.end(),
            Event::Read(body) => self.read(body),
            Event::Wish => {
                self.wish = self.seen + 1;
                Answer::Wished(FillNo(self.seen))
            }
        }
    }

    /// The payload of the record that the frame on top has reserved.
    #[inline(always)]
    pub fn top_mut(&mut self) -> Result<&mut [u8], WriteFault> {
        match &self.top {
            None => Err(WriteFault::NoFrame),
            Some(Frame { phase: Phase::Reserved { page, place, .. }, .. }) => Ok(if *page == self.tail_number {
                self.tail.payload_mut(*place)
            } else {
                self.pages[usize::from(*page)].payload_mut(*place)
            }),
            Some(_) => Err(WriteFault::NotReserved),
        }
    }

    fn count(&self) -> u64 {
        self.links.len() as u64
    }

    fn position(&self, fill: u64) -> usize {
        (fill % self.count()) as usize
    }

    /// A compare and exchange of the link into the position of a fill: whether it was done.
    fn exchange(&mut self, fill: u64, old: Link, new: Link) -> bool {
        let at = self.position(fill);
        let done = self.links[at] == old;
        if done {
            self.links[at] = new;
        }
        done
    }
}

fn link(mark: Mark, page: u16, fill: u64) -> Link {
    Link { mark, page, fill }
}

// ---- the writer

impl Ring {
    #[inline(always)]
    fn push_record(&mut self, moment: u64, len: usize) -> Answer {
        let fault = if self.below.len() + 1 == MAX_FRAMES {
            WriteFault::TooDeep
        } else if len > self.longest_slot {
            WriteFault::TooLong
        } else if moment >= MOMENT_LIMIT {
            WriteFault::LateMoment
        } else {
            return self.push(Purpose::Record { moment, slot: slot_len(len) });
        };
        Answer::Refused(fault)
    }

    #[inline(always)]
    fn push(&mut self, purpose: Purpose) -> Answer {
        if self.below.len() + 1 == MAX_FRAMES {
            return Answer::Refused(WriteFault::TooDeep);
        }
        if let Some(top) = &self.top {
            self.below.push(*top);
        }
        self.top = Some(Frame { purpose, phase: Phase::Waiting });
        Answer::Pushed
    }

    #[inline(always)]
    fn end(&mut self) -> Answer {
        match &self.top {
            None => Answer::Refused(WriteFault::NoFrame),
            Some(Frame { phase: Phase::Reserved { .. }, .. }) => Answer::Ended(self.leave()),
            Some(_) => Answer::Refused(WriteFault::NotReserved),
        }
    }

    #[inline(always)]
    fn step_frame(&mut self) -> Answer {
        let Some(Frame { purpose, phase }) = &self.top else {
            return Answer::Refused(WriteFault::NoFrame);
        };
        match phase {
            Phase::Waiting => self.reserve(*purpose),
            Phase::Reserved { number, .. } => Answer::Reserved(RecordNo(*number)),
            Phase::Wishing => self.look_for_wish(),
            _ => self.turn_page(*purpose, *phase),
        }
    }

    #[inline(always)]
    fn reserve(&mut self, purpose: Purpose) -> Answer {
        let Purpose::Record { moment, slot } = purpose else {
            return if self.tail.is_empty() { self.begin_again(purpose) } else { self.note() };
        };
        let moment = moment.max(self.last_moment);
        let Some(place) = self.tail.put(moment, moment - self.last_moment, slot) else {
            return self.note();
        };
        let number = self.reserved;
        self.last_moment = moment;
        self.reserved += 1;
        self.go_on(Phase::Reserved { number, page: self.tail_number, place });
        Answer::Reserved(RecordNo(number))
    }

    #[inline(always)]
    fn look_for_wish(&mut self) -> Answer {
        if self.wish == self.opened && !self.tail.is_empty() && self.opened + self.count() < LINK_FILLS {
            return self.go_on(Phase::Looking { noted: self.opened });
        }
        if self.done + 1 < self.opened {
            return self.go_on(Phase::Releasing);
        }
        self.top = None;
        Answer::Gone
    }

    /// The frame on top leaves: it is gone, or if none is below it stays and closes fills.
    #[inline(always)]
    fn leave(&mut self) -> Ended {
        if let Some(next) = self.below.pop() {
            self.top = Some(next);
            return Ended::Pending;
        }
        self.top = Some(Frame { purpose: Purpose::Left, phase: self.closing_phase() });
        Ended::Full
    }

    fn closing_phase(&self) -> Phase {
        if self.done + 1 == self.opened {
            Phase::Wishing
        } else {
            Phase::Releasing
        }
    }

    fn go_on(&mut self, phase: Phase) -> Answer {
        if let Some(frame) = &mut self.top {
            frame.phase = phase;
        }
        Answer::Going
    }

    /// The frame on top needs no page any more: it tries again, leaves, or closes fills.
    fn begin_again(&mut self, purpose: Purpose) -> Answer {
        match purpose {
            Purpose::Record { .. } => self.go_on(Phase::Waiting),
            Purpose::Left => self.go_on(self.closing_phase()),
            Purpose::Close => match self.leave() {
                Ended::Pending => Answer::Gone,
                Ended::Full => Answer::Going,
            },
        }
    }

    /// The frame on top needs a page: it notes the fill to open, or is refused.
    #[cold]
    fn note(&mut self) -> Answer {
        let fault = if self.opened == self.done + self.count() {
            WriteFault::Crowded
        } else if self.opened + self.count() >= LINK_FILLS {
            WriteFault::Worn
        } else {
            return self.go_on(Phase::Looking { noted: self.opened });
        };
        self.leave();
        Answer::Refused(fault)
    }

    /// A step of a frame that opens a fill or closes one.
    #[cold]
    fn turn_page(&mut self, purpose: Purpose, phase: Phase) -> Answer {
        if is_late(phase, self.opened) {
            return self.begin_again(purpose);
        }
        match phase {
            Phase::Looking { noted } => {
                let Link { mark, page, .. } = self.links[self.position(noted)];
                self.go_on(match mark {
                    Mark::Normal => Phase::Opening { noted, page },
                    Mark::Header => Phase::Claiming { noted, page },
                    Mark::Update => Phase::LookingNext { role: Role::Helper, noted, page },
                })
            }
            Phase::Claiming { noted, page } => {
                let lost = noted - self.count();
                let claimed = self.exchange(noted, link(Mark::Header, page, lost), link(Mark::Update, page, lost));
                self.go_on(match claimed {
                    true => Phase::LookingNext { role: Role::Owner, noted, page },
                    false => Phase::Looking { noted },
                })
            }
            Phase::LookingNext { role, noted, page } => {
                let fill = noted - self.count() + 1;
                let seen = self.links[self.position(fill)];
                self.go_on(match seen == link(Mark::Normal, seen.page, fill) {
                    true => Phase::Marking { role, noted, page, next: seen.page },
                    false => after_mark(role, noted, page),
                })
            }
            Phase::Marking { role, noted, page, next } => {
                let fill = noted - self.count() + 1;
                self.exchange(fill, link(Mark::Normal, next, fill), link(Mark::Header, next, fill));
                self.go_on(after_mark(role, noted, page))
            }
            Phase::Clearing { noted, page } => {
                let lost = noted - self.count();
                self.exchange(noted, link(Mark::Update, page, lost), link(Mark::Normal, page, noted));
                self.go_on(Phase::Opening { noted, page })
            }
            Phase::Opening { noted, page } => {
                let emptied = mem::take(&mut self.pages[usize::from(page)]);
                let tail = Page::fresh(emptied.into_body(), self.reserved, noted);
                self.pages[usize::from(self.tail_number)] = mem::replace(&mut self.tail, tail);
                self.tail_number = page;
                self.opened += 1;
                self.begin_again(purpose)
            }
            Phase::Releasing => {
                self.done += 1;
                self.go_on(self.closing_phase())
            }
            Phase::Waiting | Phase::Reserved { .. } | Phase::Wishing => unreachable!("it turns no page"),
        }
    }
}

/// Whether another frame has begun a fill since this one noted its own. The owner of a move clears its UPDATE first.
fn is_late(phase: Phase, opened: u64) -> bool {
    match phase {
        Phase::Looking { noted } | Phase::Claiming { noted, .. } | Phase::Opening { noted, .. } => noted != opened,
        Phase::LookingNext { role: Role::Helper, noted, .. } => noted != opened,
        Phase::Marking { role: Role::Helper, noted, .. } => noted != opened,
        _ => false,
    }
}

/// Where the next page needs no mark any more: only the owner of the move clears its UPDATE.
fn after_mark(role: Role, noted: u64, page: u16) -> Phase {
    match role {
        Role::Owner => Phase::Clearing { noted, page },
        Role::Helper => Phase::Opening { noted, page },
    }
}

// ---- the reader

impl Ring {
    fn read(&mut self, body: Body) -> Answer {
        match self.reading {
            Reading::LoadingLink => self.load_link(body),
            Reading::LoadingDone { page, fill } => self.load_done(page, fill, body),
            Reading::StoringLink { page, fill } => {
                self.spare_link = link(Mark::Header, self.order[self.position(fill + 1)], fill + 1);
                self.reading = Reading::Swapping { page, fill };
                Answer::Looking(body)
            }
            Reading::Swapping { page, fill } => self.swap(page, fill, body),
        }
    }

    fn load_link(&mut self, body: Body) -> Answer {
        let Link { mark, page, fill } = self.links[self.position(self.hint)];
        match mark {
            Mark::Header => {
                self.hint = fill;
                self.reading = Reading::LoadingDone { page, fill };
                Answer::Looking(body)
            }
            Mark::Normal if fill > self.hint => {
                self.hint = fill + 1 - self.count();
                Answer::Looking(body)
            }
            // The HEADER is still owed.
            Mark::Normal => Answer::Moving(FillNo(self.hint), body),
            Mark::Update => {
                self.hint = fill + 1;
                Answer::Moving(FillNo(self.hint), body)
            }
        }
    }

    fn load_done(&mut self, page: u16, fill: u64, body: Body) -> Answer {
        self.seen = self.done;
        if self.done <= fill {
            self.reading = Reading::LoadingLink;
            return Answer::Empty(self.done, body);
        }
        self.reading = Reading::StoringLink { page, fill };
        Answer::Looking(body)
    }

    fn swap(&mut self, page: u16, fill: u64, body: Body) -> Answer {
        self.hint = fill + 1;
        self.reading = Reading::LoadingLink;
        let home = link(Mark::Normal, self.spare, fill + self.count());
        if !self.exchange(fill, link(Mark::Header, page, fill), home) {
            return Answer::Looking(body);
        }
        let (at, next) = (self.position(fill), self.position(fill + 1));
        mem::swap(&mut self.links[next], &mut self.spare_link);
        self.order[at] = self.spare;
        self.pages[usize::from(self.spare)] = Page::fresh(body, 0, 0);
        self.spare = page;
        let taken = mem::take(&mut self.pages[usize::from(page)]);
        let missed = taken.first - self.expected;
        self.expected = taken.first + taken.count;
        Answer::Taken(taken, missed)
    }
}
