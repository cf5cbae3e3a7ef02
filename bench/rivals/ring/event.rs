//! What is asked of a ring, and what it answers (docs/formats/ring.md, "What is asked, and what is answered").

use crate::page::{Body, Page};

pub struct RecordNo(pub u64);

pub struct FillNo(pub u64);

/// A record's payload is written before its end, into what `top_mut` lends.
pub enum Event {
    Push { moment: u64, len: usize },
    PushClose,
    Step,
    End,
    Read(Body),
    Wish,
}

/// A read returns its body, unless it has taken a page: that comes with how many records were missed before it.
pub enum Answer {
    Pushed,
    Going,
    Reserved(RecordNo),
    Ended(Ended),
    Gone,
    Refused(WriteFault),
    Looking(Body),
    Empty(u64, Body),
    Moving(FillNo, Body),
    Taken(Page, u64),
    Wished(FillNo),
}

/// Pending: there is a frame below. Full: it was the bottom frame, which stays to close fills.
pub enum Ended {
    Pending,
    Full,
}

/// Where several hold, the first is answered.
#[derive(Debug)]
pub enum WriteFault {
    TooDeep,
    TooLong,
    LateMoment,
    Crowded,
    Worn,
    NoFrame,
    NotReserved,
}
