use std::error::Error;
use std::mem::forget;
use tracering::{ring, settle, Fault, Nested, Taken, HEADER};

#[test]
fn a_record_goes_in_and_its_page_comes_out() {
    let (mut writer, mut reader) = ring(5, 2, 64).unwrap();
    let mut out = [0u8; HEADER + 64];
    writer.write(7, b"one").unwrap();
    assert_eq!(reader.take(&mut out), Err(Fault::Empty));
    assert_eq!(reader.take(&mut out[..HEADER + 63]), Err(Fault::NoRoom));
    assert_eq!(reader.room(), HEADER + 64);
    reader.wish().unwrap();
    writer.write(9, &[]).unwrap();
    let taken = reader.take(&mut out).unwrap();
    assert_eq!(taken, Taken { fill: 0, first: 0, missed: 0, count: 2, len: HEADER + 16 });
    let mut wanted = [0u8; HEADER + 64];
    for (at, byte) in [(0, 5), (32, 7), (40, 16), (48, 1), (56, 0x41)] {
        wanted[at] = byte;
    }
    wanted[52..55].copy_from_slice(b"one");
    assert_eq!(out, wanted);
}

#[test]
fn records_nest() {
    let (mut writer, mut reader) = ring(0, 2, 64).unwrap();
    {
        let mut outer = writer.begin(1, 4).unwrap();
        outer.put(b"out").unwrap();
        {
            let mut inner = outer.nested().begin(2, 4).unwrap();
            inner.put(b"in").unwrap();
            inner.nested().write(3, b"last").unwrap();
        }
        outer.put(b"OUT!").unwrap();
        assert_eq!(outer.put(b"OUTER"), Err(Fault::TooLong));
    }
    writer.close().unwrap();
    let mut out = [0u8; HEADER + 64];
    let taken = reader.take(&mut out).unwrap();
    assert_eq!(taken.count, 3);
    let slots = [&out[52..56], &out[60..64], &out[68..72]];
    assert_eq!(slots, [&b"OUT!"[..], &b"in\0\0"[..], &b"last"[..]]);
    writer.write(4, b"next").unwrap();
}

#[test]
fn a_refused_record_leaves_nothing() {
    let (mut writer, _reader) = ring(0, 2, 64).unwrap();
    assert_eq!(writer.begin(1, 61).err(), Some(Fault::TooLong));
    let mut one = writer.begin(1, 60).unwrap();
    let mut two = one.nested().begin(1, 60).unwrap();
    assert_eq!(two.nested().begin(1, 60).err(), Some(Fault::Crowded));
    drop(two);
    drop(one);
    writer.write(1, b"next").unwrap();
}

#[test]
fn a_forgotten_record_ends_at_the_next_call() {
    let (mut writer, mut reader) = ring(0, 2, 64).unwrap();
    let mut open = writer.begin(1, 4).unwrap();
    open.put(b"lost").unwrap();
    forget(open);
    writer.write(2, b"next").unwrap();
    let mut outer = writer.begin(3, 4).unwrap();
    let mut inner = outer.nested().begin(4, 4).unwrap();
    inner.put(b"in").unwrap();
    inner.nested().write(5, b"most").unwrap();
    forget(inner);
    outer.put(b"out").unwrap();
    forget(outer);
    writer.close().unwrap();
    let mut out = [0u8; HEADER + 64];
    assert_eq!(reader.take(&mut out).unwrap().count, 5);
    let slots: Vec<_> = (0..5).map(|k| &out[HEADER + 8 * k + 4..][..4]).collect();
    assert_eq!(slots, [b"lost", b"next", b"out\0", b"in\0\0", b"most"]);
}

#[test]
fn forgotten_records_wedge_no_ring() {
    let (mut writer, mut reader) = ring(0, 8, 64).unwrap();
    let mut out = [0u8; HEADER + 64];
    for moment in 0..100 {
        forget(writer.begin(moment, 60).unwrap());
        let mut open = writer.begin(moment, 60).unwrap();
        forget(open.nested().begin(moment, 60).unwrap());
        open.nested().begin(moment, 60).unwrap();
        forget(open);
    }
    // Each record has a page of its own, and all pages but the last one are closed, since their records have ended.
    writer.write(100, &[0; 60]).unwrap();
    let mut next = 0;
    while let Ok(taken) = reader.take(&mut out) {
        assert_eq!((taken.first, taken.count), (next + taken.missed, 1));
        next = taken.first + 1;
    }
    assert_eq!(next, 400);
}

#[test]
fn a_writer_with_a_forgotten_record_is_settled() {
    let (mut writer, mut reader) = ring(0, 2, 64).unwrap();
    let mut out = [0u8; HEADER + 64];
    forget(writer.begin(1, 4).unwrap());
    assert_eq!(reader.take(&mut out), Err(Fault::Empty));
    assert_eq!(settle(writer, reader, &mut out).unwrap().count, 1);
}

#[test]
fn a_writer_that_is_dropped_leaves_no_forgotten_record_open() {
    let (mut writer, mut reader) = ring(0, 4, 64).unwrap();
    let mut out = [0u8; HEADER + 64];
    let mut open = writer.begin(1, 60).unwrap();
    open.nested().write(2, &[0; 60]).unwrap();
    forget(open);
    assert_eq!(reader.take(&mut out), Err(Fault::Empty));
    drop(writer);
    assert_eq!(reader.take(&mut out).unwrap().first, 0);
    assert_eq!(reader.take(&mut out).unwrap().first, 1);
    assert_eq!(reader.take(&mut out), Err(Fault::Empty));
}

#[test]
fn a_writer_that_is_freed_leaves_all_records_to_the_reader() {
    let (mut writer, mut reader) = ring(0, 4, 64).unwrap();
    let mut out = [0u8; HEADER + 64];
    for moment in 0..11 {
        writer.write(moment, &[1]).unwrap();
    }
    forget(writer.begin(11, 1).unwrap());
    assert_eq!(writer.free(), 0);
    assert_eq!(reader.take(&mut out).unwrap().count, 8);
    let taken = Taken { fill: 1, first: 8, missed: 0, count: 4, len: HEADER + 8 * 4 };
    assert_eq!(reader.take(&mut out), Ok(taken));
    assert_eq!(reader.take(&mut out), Err(Fault::Empty));
    let (writer, mut reader) = ring(0, 2, 64).unwrap();
    assert_eq!((writer.free(), reader.take(&mut out)), (0, Err(Fault::Empty)));
}

#[test]
fn a_close_says_whether_it_closed_the_page() {
    let (mut writer, mut reader) = ring(0, 4, 64).unwrap();
    let mut out = [0u8; HEADER + 64];
    assert_eq!(writer.close(), Ok(false));
    assert_eq!(reader.take(&mut out), Err(Fault::Empty));
    writer.write(1, b"one").unwrap();
    assert_eq!((writer.close(), writer.close()), (Ok(true), Ok(false)));
    assert_eq!(reader.take(&mut out).unwrap().count, 1);
    let mut open = writer.begin(2, 1).unwrap();
    assert_eq!((open.nested().close(), open.nested().close()), (Ok(true), Ok(false)));
    drop(open);
    // The close ends a record that was forgotten.
    forget(writer.begin(3, 1).unwrap());
    assert_eq!((writer.close(), writer.close()), (Ok(true), Ok(false)));
    assert_eq!(reader.take(&mut out).unwrap().first, 1);
    assert_eq!(reader.take(&mut out).unwrap().first, 2);
}

#[test]
fn one_function_writes_at_any_depth() {
    fn twice<'a>(writer: impl Into<Nested<'a>>) -> Result<(), Fault> {
        let mut writer = writer.into();
        writer.nested().begin(1, 1)?;
        writer.write(1, &[1])
    }
    let (mut writer, mut reader) = ring(0, 2, 64).unwrap();
    twice(&mut writer).unwrap();
    let mut open = writer.begin(1, 1).unwrap();
    twice(open.nested()).unwrap();
    drop(open);
    writer.close().unwrap();
    assert_eq!(reader.take(&mut [0; HEADER + 64]).unwrap().count, 5);
}

#[test]
fn faults_are_errors_and_ends_can_be_printed() {
    let fault: Box<dyn Error> = ring(0, 1, 64).unwrap_err().into();
    assert_eq!(fault.to_string(), "a ring can't have this number of pages or this size");
    assert_eq!(Fault::TooDeep.to_string(), "four frames are begun and not completed");
    assert_eq!(Fault::End.to_string(), "there is nothing more");
    assert_eq!(Fault::OtherRing.to_string(), "these are ends of two rings");
    let (mut writer, reader) = ring(0, 2, 64).unwrap();
    let number = format!("{reader:?}").replace("Reader { ring: ", "").replace(" }", "");
    assert_eq!(format!("{writer:?}"), format!("Writer {{ ring: {number}, open: 0 }}"));
    let open = writer.begin(1, 1).unwrap();
    assert_eq!(format!("{open:?}"), format!("Open(Writer {{ ring: {number}, open: 1 }}, 1)"));
}

#[test]
fn sizes_are_refused() {
    for (pages, size) in [(1, 64), (1025, 64), (2, 31), (2, 30), (2, 66), (2, 65524)] {
        assert_eq!(ring(0, pages, size).err(), Some(Fault::BadSize));
    }
    assert_eq!(ring(256, 2, 64).err(), Some(Fault::BadCpu));
}

#[test]
fn what_is_left_is_settled() {
    let (mut writer, reader) = ring(0, 2, 64).unwrap();
    let mut out = [0u8; HEADER + 64];
    writer.write(1, b"left").unwrap();
    let (writer, mut reader) = match settle(writer, reader, &mut out) {
        Err((writer, reader, Fault::Unread)) => (writer, reader),
        _ => panic!("a take has to find nothing first"),
    };
    assert_eq!(reader.take(&mut out), Err(Fault::Empty));
    let (other, _) = ring(0, 2, 64).unwrap();
    let Err((_, reader, Fault::OtherRing)) = settle(other, reader, &mut out) else {
        panic!("these are ends of two rings");
    };
    let taken = settle(writer, reader, &mut out).ok().unwrap();
    assert_eq!((taken.count, &out[52..56]), (1, &b"left"[..]));
}

#[test]
fn a_peek_gives_what_a_take_gives_later() {
    let (mut writer, mut reader) = ring(9, 2, 64).unwrap();
    let (mut peeked, mut out) = ([7u8; HEADER + 64], [0u8; HEADER + 64]);
    assert_eq!(writer.peek(&mut peeked[..HEADER + 63]), Err(Fault::NoRoom));
    assert_eq!(writer.peek(&mut peeked), Ok(None));
    writer.write(1, b"one").unwrap();
    assert_eq!(peeked, [7; HEADER + 64]);
    let mut open = writer.begin(2, 4).unwrap();
    open.put(b"two").unwrap();
    // The peek ends a record that was forgotten.
    std::mem::forget(open);
    let taken = Taken { fill: 0, first: 0, missed: 0, count: 2, len: HEADER + 16 };
    assert_eq!(writer.peek(&mut peeked), Ok(Some(taken)));
    assert_eq!(writer.peek(&mut peeked), Ok(Some(taken)));
    assert_eq!(reader.take(&mut out), Err(Fault::Empty));
    writer.close().unwrap();
    assert_eq!((reader.take(&mut out), out), (Ok(taken), peeked));
    assert_eq!(writer.peek(&mut peeked), Ok(None));
}

#[test]
fn two_threads_lose_no_number() {
    let (mut writer, mut reader) = ring(0, 8, 256).unwrap();
    let count = 100_000u64;
    let writing = std::thread::spawn(move || {
        for number in 0..count {
            writer.write(number, &number.to_le_bytes()).unwrap();
        }
        writer.close().unwrap();
    });
    let (mut next, mut out) = (0, [0u8; HEADER + 256]);
    while next < count {
        match reader.take(&mut out) {
            Ok(taken) => {
                assert_eq!(taken.first, next + taken.missed);
                for k in 0..taken.count {
                    let at = HEADER + 12 * k as usize + 4;
                    assert_eq!(out[at..at + 8], (taken.first + k).to_le_bytes());
                }
                next = taken.first + taken.count;
            }
            Err(fault) => assert!(matches!(fault, Fault::Empty | Fault::Moving)),
        }
    }
    writing.join().unwrap();
}
