//! What an event can have as arguments, and how a `trace!` records what it is given.
use super::event::{Event, Text};
use super::format::{DEBUG, HEX_DEBUG, POINTER};
use super::place::Place;
use super::{MOST_ARGUMENTS, TEXT};
use std::fmt::{self, Write};
use std::mem::size_of;

mod sealed {
    pub trait Sealed {}
}

/// What an event can have as an argument, as it is.
pub trait Argument: sealed::Sealed {
    #[doc(hidden)]
    const KIND: u8;
    /// What of that which a format can want of an argument is shown of the value.
    #[doc(hidden)]
    const CAN: u8;
    #[doc(hidden)]
    fn put(&self, event: &mut Event);
}

macro_rules! numbers {
    ($kind:literal, $can:expr; $($number:ty),*) => {$(
        impl sealed::Sealed for $number {}
        impl Argument for $number {
            const KIND: u8 = $kind | size_of::<$number>() as u8;
            const CAN: u8 = $can;
            #[inline]
            fn put(&self, event: &mut Event) {
                event.put(&self.to_le_bytes());
            }
        }
    )*};
}

numbers!(0x00, DEBUG | HEX_DEBUG; i8, i16, i32, i64, isize);
numbers!(0x10, DEBUG | HEX_DEBUG; u8, u16, u32, u64, usize);
numbers!(0x20, DEBUG; f32, f64);

macro_rules! texts {
    ($can:expr; $($given:ty: $text:expr),*) => {$(
        impl sealed::Sealed for $given {}
        impl Argument for $given {
            const KIND: u8 = TEXT;
            const CAN: u8 = $can;
            fn put(&self, event: &mut Event) {
                let as_text: for<'a> fn(&'a $given, &'a mut [u8; 4]) -> &'a str = $text;
                event.put_text(as_text(self, &mut [0; 4]));
            }
        }
    )*};
}

texts!(DEBUG; str: |text, _| text, String: |text, _| text);
// (A text is shown in double quotes by `{:?}`, which these aren't.)
texts!(0; char: |letter, room| letter.encode_utf8(room), bool: |is, _| if *is { "true" } else { "false" });

/// What is formatted when the event is recorded, as a text.
impl sealed::Sealed for fmt::Arguments<'_> {}
impl Argument for fmt::Arguments<'_> {
    const KIND: u8 = TEXT;
    const CAN: u8 = 0;
    fn put(&self, event: &mut Event) {
        match self.as_str() {
            Some(text) => event.put_text(text),
            None => event.put_text(Text::of(|text| text.write_fmt(*self)).as_str()),
        }
    }
}

macro_rules! addresses {
    ($($pointer:ty),*) => {$(
        impl<T> sealed::Sealed for $pointer {}
        impl<T> Argument for $pointer {
            const KIND: u8 = 0x38;
            const CAN: u8 = DEBUG | POINTER;
            #[inline]
            fn put(&self, event: &mut Event) {
                event.put(&(*self as usize).to_le_bytes());
            }
        }
    )*};
}

addresses!(*const T, *mut T);

impl<T: Argument + ?Sized> sealed::Sealed for &T {}
impl<T: Argument + ?Sized> Argument for &T {
    const KIND: u8 = T::KIND;
    // (The address of a reference is its own, which isn't recorded.)
    const CAN: u8 = T::CAN & !POINTER;
    #[inline]
    fn put(&self, event: &mut Event) {
        (**self).put(event);
    }
}

/// All arguments of an event.
pub trait Arguments: sealed::Sealed {
    #[doc(hidden)]
    const KINDS: u64;
    #[doc(hidden)]
    const CAN: u64;
    #[doc(hidden)]
    fn put(&self, event: &mut Event);
}

/// The bytes as one number, the first one lowest.
const fn packed(bytes: &[u8]) -> u64 {
    let (mut packed, mut at) = (0, 0);
    while at < bytes.len() {
        packed |= (bytes[at] as u64) << (8 * at);
        at += 1;
    }
    packed
}

macro_rules! tuples {
    ($($first:ident $($name:ident)*)?) => {
        impl<$($first: Argument, $($name: Argument),*)?> sealed::Sealed for ($(&$first, $(&$name,)*)?) {}
        impl<$($first: Argument, $($name: Argument),*)?> Arguments for ($(&$first, $(&$name,)*)?) {
            const KINDS: u64 = packed(&[$($first::KIND, $($name::KIND),*)?]);
            const CAN: u64 = packed(&[$($first::CAN, $($name::CAN),*)?]);
            #[inline]
            #[allow(non_snake_case, unused_variables)]
            fn put(&self, event: &mut Event) {
                let ($($first, $($name,)*)?) = self;
                $($first.put(event); $($name.put(event);)*)?
            }
        }
        $(tuples!($($name)*);)?
    };
}

tuples!(A B C D E F G H);

/// What a `trace!` is given.
#[doc(hidden)]
pub struct Given<All>(pub All);

/// The method that a `trace!` finds if an event can have all that it is given as it is.
#[doc(hidden)]
pub trait RecordValues {
    /// Records an event of this place, which is on, whose format wants so much of the arguments.
    fn record<const WANTED: u64>(&self, place: &'static Place, write: impl FnOnce(&mut Text) -> fmt::Result);
}

impl<All: Arguments> RecordValues for Given<All> {
    #[inline]
    fn record<const WANTED: u64>(&self, place: &'static Place, write: impl FnOnce(&mut Text) -> fmt::Result) {
        match const { WANTED & !All::CAN == 0 } {
            true => {
                let mut event = Event::new();
                self.0.put(&mut event);
                place.record(All::KINDS, &mut event);
            }
            false => place.record_text(write),
        }
    }
}

/// The method that it finds otherwise, since its receiver has a reference more.
#[doc(hidden)]
pub trait RecordText {
    /// Records an event of this place, which is on, as it is formatted.
    fn record<const WANTED: u64>(&self, place: &'static Place, write: impl FnOnce(&mut Text) -> fmt::Result);
}

impl<All> RecordText for &Given<All> {
    #[inline]
    fn record<const WANTED: u64>(&self, place: &'static Place, write: impl FnOnce(&mut Text) -> fmt::Result) {
        place.record_text(write);
    }
}

impl Place {
    /// Records an event of this place, which is on: the text that this writes, of `LONGEST_EVENT` bytes at most.
    pub fn record_text(&'static self, write: impl FnOnce(&mut Text) -> fmt::Result) {
        let text = Text::of(write);
        let mut event = Event::new();
        let count = text.put_pieces(&mut event);
        self.record_pieces(count, &mut event);
    }
}

/// The arguments of an event, as they are put one by one.
pub struct Values {
    event: Event,
    kinds: u64,
    count: usize,
}

impl Values {
    /// No arguments.
    pub fn new() -> Values {
        Values { event: Event::new(), kinds: 0, count: 0 }
    }

    /// Puts a further argument. Whether all of the arguments are whole: an event has room for them, and no text of them
    /// was cut.
    pub fn put<Given: Argument>(&mut self, argument: Given) -> bool {
        let has_room = self.count < MOST_ARGUMENTS;
        if has_room {
            argument.put(&mut self.event);
            self.kinds |= u64::from(Given::KIND) << (8 * self.count);
            self.count += 1;
        }
        has_room && !self.event.is_cut
    }

    /// How many arguments there are.
    pub fn count(&self) -> usize {
        self.count
    }

    /// Records an event of this place, which is on and has as many arguments.
    pub fn record(mut self, place: &'static Place) {
        place.record(self.kinds, &mut self.event);
    }
}

impl Default for Values {
    fn default() -> Values {
        Values::new()
    }
}
