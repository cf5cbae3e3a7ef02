//! The ring of one CPU, step by step (docs/formats/ring.md, "The ring"). All its pages are one flat buffer.

const MAX_FRAMES: usize = 4;
const MOMENT_LIMIT: u64 = 1 << 59;
const LINK_FILLS: u64 = 1 << 48;

/// From this delta on, a time extend comes before a record.
const EXTEND_FROM: u64 = 1 << 27;

/// The longest slot of the short form.
const SHORT_SLOT: usize = 112;

pub const EXTEND: u32 = 30;
pub const LONG: u32 = 0;

#[derive(Clone, Copy, Debug)]
pub enum Refusal {
    TooDeep,
    TooLong,
    LateMoment,
    Crowded,
    Worn,
    NoFrame,
}

pub enum Answer {
    Empty,
    Moving(u64),
    Taken,
}

/// A page that was taken; `collectors` has a bit for each that it was delivered to.
pub struct Taken {
    pub fill: u64,
    pub first: u64,
    pub count: u64,
    pub missed: u64,
    pub time: u64,
    pub data: Box<[u8]>,
    pub collectors: u16,
}

#[derive(Clone, Copy, PartialEq)]
enum Mark {
    Normal,
    Header,
    Update,
}

/// Which page is at a position, and of which fill this is said.
#[derive(Clone, Copy, PartialEq)]
struct Link {
    mark: Mark,
    page: u16,
    fill: u64,
}

#[derive(Clone, Copy, Default)]
struct Page {
    time: u64,
    first: u64,
    count: u64,
    end: usize,
}

/// What a frame wants. One that has left wants to close fills, and then looks for a wish.
#[derive(Clone, Copy, PartialEq)]
enum Purpose {
    Record,
    Close,
    Left,
}

#[derive(Clone, Copy)]
enum Phase {
    Waiting,
    /// Where the slot is in the buffer.
    Reserved(usize),
    Looking,
    Claiming,
    LookingNext {
        owner: bool,
    },
    Marking {
        owner: bool,
        next: u16,
    },
    Clearing,
    Opening,
    Releasing,
    Wishing,
}

/// A frame; after `Looking`, `page` is the one that it has seen at the position of the fill that it noted.
#[derive(Clone, Copy)]
struct Frame<'t> {
    purpose: Purpose,
    phase: Phase,
    moment: u64,
    payload: &'t [u8],
    noted: u64,
    page: u16,
}

/// How far a take has come: after `LoadingLink`, the reader has seen the head.
#[derive(Clone, Copy)]
enum Reading {
    LoadingLink,
    LoadingDone(Link),
    StoringLink(Link),
    Swapping(Link),
}

pub struct Ring<'t> {
    count: u64,
    size: usize,
    longest_slot: usize,
    data: Vec<u8>,
    pages: Vec<Page>,
    // The words: the link into each position and that of the spare page, and three counts of fills.
    links: Vec<Link>,
    spare_link: Link,
    done: u64,
    opened: u64,
    wish: u64,
    // The writer's: its frames, the page it is on, its begin and its end, how many records were reserved, and the
    // moment of the last of them.
    frames: [Frame<'t>; MAX_FRAMES],
    depth: usize,
    tail: usize,
    tail_start: usize,
    tail_end: usize,
    reserved: u64,
    last: u64,
    // The reader's: the page at each position and the one outside; the least fill that isn't known to be taken or lost,
    // how many fills were seen to be closed, and the number that the next record taken should have.
    order: Vec<u16>,
    spare: u16,
    reading: Reading,
    hint: u64,
    seen: u64,
    expected: u64,
    /// Fills rise.
    pub taken: Vec<Taken>,
}

fn link(mark: Mark, page: u16, fill: u64) -> Link {
    Link { mark, page, fill }
}

fn slot_len(len: usize) -> usize {
    len.max(1).next_multiple_of(4)
}

impl<'t> Ring<'t> {
    pub fn new(pages: usize, size: usize, start: u64) -> Ring<'t> {
        let count = pages as u64;
        let no_frame =
            Frame { purpose: Purpose::Left, phase: Phase::Waiting, moment: 0, payload: &[], noted: 0, page: 0 };
        let mut ring = Ring {
            count,
            size,
            longest_slot: if size - 8 > SHORT_SLOT { size - 8 } else { SHORT_SLOT.min(size - 4) },
            data: vec![0; (pages + 1) * size],
            pages: vec![Page::default(); pages + 1],
            links: vec![link(Mark::Normal, 0, 0); pages],
            spare_link: link(Mark::Normal, 0, 0),
            done: start,
            opened: start + 1,
            wish: 0,
            frames: [no_frame; MAX_FRAMES],
            depth: 0,
            tail: (start % count) as usize,
            tail_start: (start % count) as usize * size,
            tail_end: 0,
            reserved: 0,
            last: 0,
            order: (0..pages as u16).collect(),
            spare: pages as u16,
            reading: Reading::LoadingLink,
            hint: start,
            seen: start,
            expected: 0,
            taken: Vec::new(),
        };
        for fill in start..start + count {
            let at = ring.position(fill);
            let mark = if fill == start { Mark::Header } else { Mark::Normal };
            ring.links[at] = link(mark, at as u16, fill);
        }
        ring
    }

    fn position(&self, fill: u64) -> usize {
        (fill % self.count) as usize
    }

    /// A compare and exchange of the link into the position of a fill: whether it was done.
    fn exchange(&mut self, fill: u64, old: Link, new: Link) -> bool {
        let at = self.position(fill);
        let is_old = self.links[at] == old;
        if is_old {
            self.links[at] = new;
        }
        is_old
    }

    // ---- the writer

    /// A push, and all steps of its frame. If none of them touches a word of a page or a wish, they are
    /// made at once.
    #[inline(always)]
    pub fn write(&mut self, moment: u64, payload: &'t [u8]) -> Result<(), Refusal> {
        let is_plain = payload.len() <= self.longest_slot
            && moment < MOMENT_LIMIT
            && self.depth < MAX_FRAMES
            && (self.depth > 0 || self.wish != self.opened);
        if is_plain {
            if let Some(place) = self.reserve(moment, slot_len(payload.len())) {
                self.put(place, payload);
                return Ok(());
            }
        }
        self.push(moment, payload)?;
        self.finish()
    }

    pub fn push(&mut self, moment: u64, payload: &'t [u8]) -> Result<(), Refusal> {
        if self.depth == MAX_FRAMES {
            Err(Refusal::TooDeep)
        } else if payload.len() > self.longest_slot {
            Err(Refusal::TooLong)
        } else if moment >= MOMENT_LIMIT {
            Err(Refusal::LateMoment)
        } else {
            self.stand(Purpose::Record, moment, payload);
            Ok(())
        }
    }

    pub fn close(&mut self) -> Result<(), Refusal> {
        if self.depth == MAX_FRAMES {
            return Err(Refusal::TooDeep);
        }
        self.stand(Purpose::Close, 0, &[]);
        self.finish()
    }

    #[inline(always)]
    fn stand(&mut self, purpose: Purpose, moment: u64, payload: &'t [u8]) {
        self.frames[self.depth] = Frame { purpose, phase: Phase::Waiting, moment, payload, noted: 0, page: 0 };
        self.depth += 1;
    }

    /// Steps of the frame on top until it is gone. A frame is refused once at most.
    pub fn finish(&mut self) -> Result<(), Refusal> {
        self.steps(u64::MAX)
    }

    /// At most this number of steps.
    pub fn steps(&mut self, most: u64) -> Result<(), Refusal> {
        if self.depth == 0 {
            return Err(Refusal::NoFrame);
        }
        let (depth, mut result, mut left) = (self.depth, Ok(()), most);
        while left > 0 && self.depth == depth {
            let step = self.step();
            if step.is_err() {
                result = step;
            }
            left -= 1;
        }
        result
    }

    /// Room for a record of this moment after those of the tail, with its word. Answers where its slot begins.
    #[inline(always)]
    fn reserve(&mut self, moment: u64, slot: usize) -> Option<usize> {
        let moment = moment.max(self.last);
        let is_first = self.tail_end == 0;
        let delta = if is_first { 0 } else { moment - self.last };
        let extend = if delta < EXTEND_FROM { 0 } else { 8 };
        let header = if slot <= SHORT_SLOT { 4 } else { 8 };
        let end = self.tail_end + extend + header + slot;
        if end > self.size {
            return None;
        }
        if is_first {
            self.pages[self.tail].time = moment;
        }
        let place = self.tail_start + end - slot;
        if extend == 0 && header == 4 {
            let word = (slot / 4) as u32 | (delta as u32) << 5;
            self.data[place - 4..place].copy_from_slice(&word.to_le_bytes());
        } else {
            self.put_long_words(place, delta, slot);
        }
        self.last = moment;
        self.tail_end = end;
        self.reserved += 1;
        Some(place)
    }

    fn put_long_words(&mut self, place: usize, mut delta: u64, slot: usize) {
        let mut words = [0u32; 4];
        let mut count = 0;
        if delta >= EXTEND_FROM {
            words[..2].copy_from_slice(&[EXTEND | (delta as u32) << 5, (delta / EXTEND_FROM) as u32]);
            (count, delta) = (2, 0);
        }
        if slot <= SHORT_SLOT {
            words[count] = (slot / 4) as u32 | (delta as u32) << 5;
            count += 1;
        } else {
            words[count..count + 2].copy_from_slice(&[LONG | (delta as u32) << 5, slot as u32 + 4]);
            count += 2;
        }
        let room = &mut self.data[place - 4 * count..place];
        for (bytes, word) in room.chunks_exact_mut(4).zip(words) {
            bytes.copy_from_slice(&word.to_le_bytes());
        }
    }

    /// The payload into its slot, with zeros up to the slot's end.
    #[inline(always)]
    fn put(&mut self, place: usize, payload: &[u8]) {
        let slot = &mut self.data[place..place + slot_len(payload.len())];
        let last = slot.len() - 4;
        slot[last..].fill(0);
        slot[..payload.len()].copy_from_slice(payload);
    }

    fn step(&mut self) -> Result<(), Refusal> {
        let top = self.frames[self.depth - 1];
        let is_late = top.noted != self.opened;
        let mut page = top.page;
        let lost = top.noted.wrapping_sub(self.count);
        let phase = match top.phase {
            Phase::Waiting => return self.try_tail(top),
            Phase::Reserved(place) => {
                self.put(place, top.payload);
                self.leave();
                return Ok(());
            }
            Phase::Looking
            | Phase::Claiming
            | Phase::LookingNext { owner: false }
            | Phase::Marking { owner: false, .. }
            | Phase::Opening
                if is_late =>
            {
                self.begin_again(top.purpose);
                return Ok(());
            }
            Phase::Looking => {
                let seen = self.links[self.position(top.noted)];
                page = seen.page;
                match seen.mark {
                    Mark::Normal => Phase::Opening,
                    Mark::Header => Phase::Claiming,
                    Mark::Update => Phase::LookingNext { owner: false },
                }
            }
            Phase::Claiming => {
                match self.exchange(top.noted, link(Mark::Header, page, lost), link(Mark::Update, page, lost)) {
                    true => Phase::LookingNext { owner: true },
                    false => Phase::Looking,
                }
            }
            Phase::LookingNext { owner } => {
                let seen = self.links[self.position(lost + 1)];
                match seen == link(Mark::Normal, seen.page, lost + 1) {
                    true => Phase::Marking { owner, next: seen.page },
                    false => after_the_mark(owner),
                }
            }
            Phase::Marking { owner, next } => {
                self.exchange(lost + 1, link(Mark::Normal, next, lost + 1), link(Mark::Header, next, lost + 1));
                after_the_mark(owner)
            }
            Phase::Clearing => {
                self.exchange(top.noted, link(Mark::Update, page, lost), link(Mark::Normal, page, top.noted));
                Phase::Opening
            }
            Phase::Opening => {
                self.open(page);
                self.begin_again(top.purpose);
                return Ok(());
            }
            Phase::Releasing => {
                self.done += 1;
                self.closing_phase()
            }
            Phase::Wishing => match self.look_for_wish() {
                None => return Ok(()),
                Some(phase) => phase,
            },
        };
        let top = &mut self.frames[self.depth - 1];
        (top.phase, top.page) = (phase, page);
        Ok(())
    }

    /// The frame on top finds room in the tail, or that it has to leave, or that it needs a page.
    fn try_tail(&mut self, top: Frame<'t>) -> Result<(), Refusal> {
        if top.purpose == Purpose::Record {
            if let Some(place) = self.reserve(top.moment, slot_len(top.payload.len())) {
                self.frames[self.depth - 1].phase = Phase::Reserved(place);
                return Ok(());
            }
        } else if self.tail_end == 0 {
            self.leave();
            return Ok(());
        }
        let refusal = if self.opened == self.done + self.count {
            Refusal::Crowded
        } else if self.opened + self.count >= LINK_FILLS {
            Refusal::Worn
        } else {
            self.note();
            return Ok(());
        };
        self.leave();
        Err(refusal)
    }

    fn note(&mut self) {
        let top = &mut self.frames[self.depth - 1];
        (top.noted, top.phase) = (self.opened, Phase::Looking);
    }

    /// The frame on top leaves: it is gone, or if none is below it stays and closes fills.
    fn leave(&mut self) {
        if self.depth > 1 {
            self.depth -= 1;
        } else {
            self.frames[0].purpose = Purpose::Left;
            self.frames[0].phase = self.closing_phase();
        }
    }

    fn closing_phase(&self) -> Phase {
        if self.done + 1 == self.opened {
            Phase::Wishing
        } else {
            Phase::Releasing
        }
    }

    /// The frame on top needs no page any more: it tries again, leaves, or closes fills.
    fn begin_again(&mut self, purpose: Purpose) {
        match purpose {
            Purpose::Record => self.frames[self.depth - 1].phase = Phase::Waiting,
            Purpose::Close => self.leave(),
            Purpose::Left => self.frames[0].phase = self.closing_phase(),
        }
    }

    /// The fill that is next begins on this page.
    fn open(&mut self, page: u16) {
        let closed = &mut self.pages[self.tail];
        closed.end = self.tail_end;
        closed.count = self.reserved - closed.first;
        self.tail = page.into();
        self.tail_start = self.tail * self.size;
        self.tail_end = 0;
        self.pages[self.tail].first = self.reserved;
        self.opened += 1;
    }

    /// What the bottom frame goes on with, if it isn't gone.
    fn look_for_wish(&mut self) -> Option<Phase> {
        if self.wish == self.opened && self.tail_end > 0 && self.opened + self.count < LINK_FILLS {
            self.frames[0].noted = self.opened;
            return Some(Phase::Looking);
        }
        if self.done + 1 < self.opened {
            return Some(Phase::Releasing);
        }
        self.depth = 0;
        None
    }

    // ---- the reader

    /// Stores the wish, and answers how many fills the reader has seen closed.
    pub fn ask(&mut self) -> u64 {
        self.wish = self.seen + 1;
        self.seen
    }

    /// At most this number of steps of the reader.
    pub fn reads(&mut self, most: u64) -> Option<Answer> {
        (0..most).find_map(|_| self.read())
    }

    pub fn take(&mut self) -> Answer {
        loop {
            if let Some(answer) = self.read() {
                return answer;
            }
        }
    }

    fn read(&mut self) -> Option<Answer> {
        match self.reading {
            Reading::LoadingLink => {
                let seen = self.links[self.position(self.hint)];
                match seen.mark {
                    Mark::Header => {
                        self.hint = seen.fill;
                        self.reading = Reading::LoadingDone(seen);
                    }
                    Mark::Normal if seen.fill > self.hint => self.hint = seen.fill + 1 - self.count,
                    // The HEADER is still owed.
                    Mark::Normal => return Some(Answer::Moving(self.hint)),
                    Mark::Update => {
                        self.hint = seen.fill + 1;
                        return Some(Answer::Moving(self.hint));
                    }
                }
                None
            }
            Reading::LoadingDone(head) => {
                self.seen = self.done;
                if self.done <= head.fill {
                    self.reading = Reading::LoadingLink;
                    return Some(Answer::Empty);
                }
                self.reading = Reading::StoringLink(head);
                None
            }
            Reading::StoringLink(head) => {
                let next = head.fill + 1;
                self.spare_link = link(Mark::Header, self.order[self.position(next)], next);
                self.reading = Reading::Swapping(head);
                None
            }
            Reading::Swapping(head) => {
                self.hint = head.fill + 1;
                self.reading = Reading::LoadingLink;
                let home = link(Mark::Normal, self.spare, head.fill + self.count);
                self.exchange(head.fill, head, home).then(|| self.hand_out(head))
            }
        }
    }

    /// The head has been swapped: its page is the spare now, and its data is copied.
    fn hand_out(&mut self, head: Link) -> Answer {
        let (at, next) = (self.position(head.fill), self.position(head.fill + 1));
        std::mem::swap(&mut self.links[next], &mut self.spare_link);
        self.order[at] = self.spare;
        self.spare = head.page;
        let page = self.pages[usize::from(head.page)];
        let start = usize::from(head.page) * self.size;
        self.taken.push(Taken {
            fill: head.fill,
            first: page.first,
            count: page.count,
            missed: page.first - self.expected,
            time: page.time,
            data: self.data[start..start + page.end].into(),
            collectors: 0,
        });
        self.expected = page.first + page.count;
        Answer::Taken
    }
}

/// Where the next page needs no mark any more: only the owner of the move clears its UPDATE.
fn after_the_mark(owner: bool) -> Phase {
    if owner {
        Phase::Clearing
    } else {
        Phase::Opening
    }
}
