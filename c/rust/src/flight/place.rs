//! The places that record, as the recorder has them.
use super::event::Event;
use super::{flight_record, flight_register, flight_turn, MOST_ARGUMENTS, TEXT};
use std::mem::size_of;
use std::sync::atomic::{AtomicU16, AtomicU32, AtomicU64, AtomicU8, Ordering};

const BRACES: u8 = 1;
/// Where in a site's style its level is.
const LEVEL_SHIFT: u8 = 4;

/// How severe an event is.
#[derive(Clone, Copy, Debug, PartialEq, Eq, PartialOrd, Ord)]
pub enum Level {
    /// `ERROR` in listings.
    Error = 1,
    /// `WARN` in listings.
    Warning,
    /// `INFO` in listings.
    Info,
    /// `DEBUG` in listings.
    Debug,
    /// `TRACE` in listings.
    Trace,
}

/// A place that records with arguments of certain kinds, as the recorder has it.
#[repr(C)]
pub(super) struct Site {
    format: *const u8,
    file: *const u8,
    format_len: u32,
    file_len: u32,
    line: u32,
    count: u8,
    style: u8,
    kinds: [AtomicU8; MOST_ARGUMENTS + 2],
    id: AtomicU32,
    state: AtomicU32,
    limits: [AtomicU16; MOST_ARGUMENTS],
}

/// The length of a text without the zero byte that is to be at its end.
const fn len_before_zero(text: &str) -> u32 {
    match text.as_bytes() {
        [before @ .., 0] => before.len() as u32,
        _ => panic!("a text of a place has no zero byte at its end"),
    }
}

// What changes of a site are atomics; the texts are never freed.
unsafe impl Send for Site {}
unsafe impl Sync for Site {}

impl Site {
    /// The site of this format, in this line of this file. Both texts end with a zero byte.
    const fn new(format: &'static str, file: &'static str, line: u32, count: usize) -> Site {
        Site {
            format: format.as_ptr(),
            file: file.as_ptr(),
            format_len: len_before_zero(format),
            file_len: len_before_zero(file),
            line,
            count: count as u8,
            style: BRACES,
            kinds: [const { AtomicU8::new(TEXT) }; MOST_ARGUMENTS + 2],
            id: AtomicU32::new(0),
            state: AtomicU32::new(0),
            limits: [const { AtomicU16::new(0) }; MOST_ARGUMENTS],
        }
    }

    /// Whether it records. At first, and whenever that may have changed, the recorder is asked.
    #[inline]
    fn is_on(&'static self) -> bool {
        let turn = unsafe { flight_turn.load(Ordering::Relaxed) };
        match self.state.load(Ordering::Acquire) ^ turn {
            1 => true,
            0 => false,
            _ => unsafe { flight_register(self) },
        }
    }

    /// Whether the recorder knows it, on or not. It is asked if it doesn't.
    fn is_known(&'static self) -> bool {
        self.id.load(Ordering::Acquire) != 0 || self.is_on() || self.id.load(Ordering::Acquire) != 0
    }

    /// States the kinds of the arguments, before the first event.
    fn state_kinds(&self, kinds: u64) {
        for (kept, kind) in self.kinds.iter().zip(kinds.to_le_bytes()) {
            kept.store(kind, Ordering::Relaxed);
        }
    }

    #[inline]
    fn record(&'static self, event: &mut Event) {
        unsafe { flight_record(self, event.bytes.as_mut_ptr().cast(), event.len) }
    }
}

/// How many lists of kinds a place can have.
pub const MOST_LISTS: usize = 8;

/// The formats of a place, each with a zero byte at its end.
#[derive(Clone, Copy, Debug)]
pub struct Formats {
    /// That by which the place is switched, and in which its values are shown.
    pub values: &'static str,
    /// That of an event which is one text, in one piece.
    pub piece: &'static str,
    /// That of such an event in eight pieces.
    pub pieces: &'static str,
}

impl Formats {
    /// Those of a `trace!`: a text is shown as it is.
    pub const fn of(values: &'static str) -> Formats {
        Formats { values, piece: "{}\0", pieces: "{}{}{}{}{}{}{}{}\0" }
    }
}

/// A `trace!`, or what a layer for other crates' events has in place of one.
///
/// It is one place in all instances of a generic function, whose arguments may have other kinds in each: so it has a
/// site for each list of kinds, in the order in which they first come. It takes 768 bytes of the program.
pub struct Place {
    sites: [Site; MOST_LISTS],
    /// The kinds of each site, with CLAIMED, and with STATED once the site has them. 0: it is free.
    lists: [AtomicU64; MOST_LISTS],
    /// The sites of events that are one text: of one piece, and of eight.
    texts: [Site; 2],
    /// The site for all further lists. Its events are recorded without their arguments. It is asked whether the place
    /// is on: it becomes known to the recorder first, and its kinds are known by then.
    bare: Site,
}

const _: () = assert!(size_of::<Place>() == 768);

// No kind has these bits.
const CLAIMED: u64 = 1 << 63;
const STATED: u64 = 1 << 55;

impl Place {
    /// The place of these formats, in this line of this file, whose name ends with a zero byte. `count` is how many
    /// arguments its values are. Its events have no level.
    ///
    /// # Panics
    /// A text has no zero byte at its end, or `count` is above `MOST_ARGUMENTS`.
    pub const fn new(formats: Formats, file: &'static str, line: u32, count: usize) -> Place {
        assert!(count <= MOST_ARGUMENTS, "a place has too many arguments");
        macro_rules! eight {
            ($site:expr) => {
                [$site, $site, $site, $site, $site, $site, $site, $site]
            };
        }
        Place {
            sites: eight!(Site::new(formats.values, file, line, count)),
            lists: [const { AtomicU64::new(0) }; MOST_LISTS],
            texts: [Site::new(formats.piece, file, line, 1), Site::new(formats.pieces, file, line, MOST_ARGUMENTS)],
            bare: Site::new(formats.values, file, line, 0),
        }
    }

    /// The same place, whose events have this level: it is shown before their texts, and patterns of
    /// [`switch`](super::switch) have it there.
    pub const fn of_level(mut self, level: Level) -> Place {
        let style = BRACES | (level as u8) << LEVEL_SHIFT;
        let mut at = 0;
        while at < MOST_LISTS {
            self.sites[at].style = style;
            at += 1;
        }
        self.texts[0].style = style;
        self.texts[1].style = style;
        self.bare.style = style;
        self
    }

    /// Whether the place records. All its sites are switched at once, since they have the same texts, and those of
    /// events that are one text aren't asked.
    #[inline]
    pub fn is_on(&'static self) -> bool {
        self.bare.is_on()
    }

    /// The site of this list of kinds, if there is one.
    #[inline]
    fn site(&'static self, kinds: u64) -> Option<&'static Site> {
        match self.lists[0].load(Ordering::Acquire) == kinds | CLAIMED | STATED {
            true => Some(&self.sites[0]),
            false => self.find(kinds | CLAIMED),
        }
    }

    /// Finds the site of this list, or claims one. Whoever finds one whose kinds aren't stated yet, states them too.
    #[cold]
    fn find(&'static self, wanted: u64) -> Option<&'static Site> {
        let claim = |list: &AtomicU64| match list.load(Ordering::Acquire) {
            0 => list.compare_exchange(0, wanted, Ordering::AcqRel, Ordering::Acquire).err().unwrap_or(wanted),
            found => found,
        };
        for (site, list) in self.sites.iter().zip(&self.lists) {
            let found = claim(list);
            if found == wanted {
                site.state_kinds(wanted & !CLAIMED);
                list.store(wanted | STATED, Ordering::Release);
            }
            if found & !STATED == wanted {
                return Some(site);
            }
        }
        None
    }

    /// Records the values of these kinds that the event has; none of them, if there is no site for their kinds.
    #[inline]
    pub(super) fn record(&'static self, kinds: u64, event: &mut Event) {
        let site = self.site(kinds).unwrap_or_else(|| {
            event.clear();
            &self.bare
        });
        if site.is_on() {
            site.record(event);
        }
    }

    /// Records an event that is one text, in this many pieces. (The place is on: so its site is only to be known.)
    pub(super) fn record_pieces(&'static self, count: usize, event: &mut Event) {
        let site = &self.texts[usize::from(count > 1)];
        if site.is_known() {
            site.record(event);
        }
    }
}
