use tracering::{ring, settle, Collector, Fault, FaultAt, Line, Reader, Run, Taken, Writer, HEADER};

/// The parcel of a page of 64 bytes with these records.
fn parcel(cpu: u32, records: &[(u64, &[u8])]) -> [u8; HEADER + 64] {
    let (mut writer, mut reader) = ring(cpu, 2, 64).unwrap();
    let mut out = [0u8; HEADER + 64];
    for (moment, payload) in records {
        writer.write(*moment, payload).unwrap();
    }
    writer.close().unwrap();
    reader.take(&mut out).unwrap();
    out
}

/// The bytes of a parcel with another first number, and with `missed` numbers missing before it.
fn numbered(mut bytes: [u8; HEADER + 64], first: u64, missed: u64) -> [u8; HEADER + 64] {
    bytes[16..24].copy_from_slice(&first.to_le_bytes());
    bytes[24..32].copy_from_slice(&missed.to_le_bytes());
    bytes[43] |= if missed > 0 { 128 } else { 0 };
    bytes
}

fn lines(collector: &mut Collector) -> Vec<(Line, Vec<u8>)> {
    let (mut lines, mut out) = (Vec::new(), [0u8; 64]);
    loop {
        match collector.next(&mut out) {
            Ok(line) => lines.push((line, out[..line.len].to_vec())),
            Err(fault) => {
                assert_eq!(fault, (Fault::End, Line::default()));
                return lines;
            }
        }
    }
}

#[test]
fn two_cpus_are_listed_by_time() {
    let mut collector = Collector::new().unwrap();
    assert_eq!(lines(&mut collector), []);
    let (left, right) = (parcel(0, &[(1, b"one"), (5, b"five")]), parcel(7, &[(3, b"three")]));
    assert_eq!(collector.add(&right), Ok(true));
    assert_eq!(collector.add(&left), Ok(true));
    assert_eq!(collector.add(&left), Ok(false));
    assert_eq!(collector.list(), Ok(3));
    let wanted = [
        (Line { moment: 1, number: 0, cpu: 0, len: 4 }, b"one\0".to_vec()),
        (Line { moment: 3, number: 0, cpu: 7, len: 8 }, b"three\0\0\0".to_vec()),
        (Line { moment: 5, number: 1, cpu: 0, len: 4 }, b"five".to_vec()),
    ];
    assert_eq!(lines(&mut collector), wanted);
    assert_eq!(lines(&mut collector), []);
}

#[test]
fn a_line_that_has_no_room_stays() {
    let mut collector = Collector::new().unwrap();
    assert_eq!(collector.add(&parcel(0, &[(1, b"twelve bytes")])), Ok(true));
    assert_eq!(collector.list(), Ok(1));
    let line = Line { moment: 1, number: 0, cpu: 0, len: 12 };
    assert_eq!(collector.next(&mut []), Err((Fault::NoRoom, line)));
    assert_eq!(collector.next(&mut [0; 11]), Err((Fault::NoRoom, line)));
    assert_eq!(collector.add(&parcel(1, &[(0, b"not listed")])), Ok(true));
    assert_eq!(lines(&mut collector), [(line, b"twelve bytes".to_vec())]);
}

#[test]
fn missing_numbers_are_runs() {
    let mut collector = Collector::new().unwrap();
    let page = parcel(3, &[(1, b"one"), (2, b"two")]);
    assert_eq!(collector.missing(3), []);
    assert_eq!(collector.add(&numbered(page, 10, 4)), Ok(true));
    assert_eq!(collector.add(&numbered(page, 3, 1)), Ok(true));
    assert_eq!(collector.missing(3), [Run { first: 2, last: 2 }, Run { first: 6, last: 9 }]);
    assert_eq!(collector.missing(0), []);
}

#[test]
fn what_is_at_odds_is_refused_under_its_number() {
    let mut collector = Collector::new().unwrap();
    let page = parcel(3, &[(1, b"one"), (2, b"two")]);
    let (other, clash) = (parcel(3, &[(1, b"one"), (2, b"TWO")]), FaultAt { number: 1, cpu: 3 });
    assert_eq!(collector.add(&page), Ok(true));
    assert_eq!(collector.add(&other), Err((Fault::Clash, clash)));
    assert_eq!(collector.add(&numbered(page, 2, 1)), Err((Fault::TakenAndMissing, clash)));
    assert_eq!(collector.add(&numbered(page, 2, 3)).unwrap_err().0, Fault::MissedTooMany);
    assert_eq!(collector.add(&page[..47]), Err((Fault::TooShort, FaultAt::default())));
    let mut bytes = page;
    bytes[1] = 1;
    assert_eq!(collector.add(&bytes).unwrap_err().0, Fault::BadCpu);
    bytes = page;
    bytes[40] = 13;
    assert_eq!(collector.add(&bytes), Err((Fault::Cut, FaultAt { number: 8, cpu: 0 })));
    assert_eq!(collector.list(), Ok(2));
}

/// The reader of a ring of CPU 3 with a closed page of two records, and its writer.
fn two_records(second: &[u8]) -> (Writer, Reader) {
    let (mut writer, reader) = ring(3, 2, 64).unwrap();
    writer.write(1, b"one").unwrap();
    writer.write(2, second).unwrap();
    writer.close().unwrap();
    (writer, reader)
}

#[test]
fn a_page_is_taken_into_a_collector_or_stays() {
    let (mut collector, mut out) = (Collector::new().unwrap(), [0; HEADER + 64]);
    let ((_writer, mut reader), (_twin, mut twin)) = (two_records(b"two"), two_records(b"two"));
    let (writer, mut other) = two_records(b"TWO");
    let taken = Taken { fill: 0, first: 0, missed: 0, count: 2, len: HEADER + 16 };
    assert_eq!(collector.take(&mut reader), Ok((taken, true)));
    assert_eq!(collector.take(&mut reader), Err((Fault::Empty, FaultAt::default())));
    assert_eq!(collector.take(&mut twin), Ok((taken, false)));
    assert_eq!(collector.take(&mut other), Err((Fault::Clash, FaultAt { number: 1, cpu: 3 })));
    let (_writer, mut other, fault) = settle(writer, other, &mut out).unwrap_err();
    assert_eq!(fault, Fault::Unread);
    assert_eq!(other.take(&mut out), Ok(taken));
    assert_eq!(out, parcel(3, &[(1, b"one"), (2, b"TWO")]));
    assert_eq!(other.take(&mut out), Err(Fault::Empty));
    assert_eq!(collector.list(), Ok(2));
}

#[test]
fn collectors_are_the_same_whatever_the_order() {
    let (mut left, mut right) = (Collector::new().unwrap(), Collector::new().unwrap());
    let (one, other) = (parcel(0, &[(1, b"one")]), parcel(1, &[(1, b"one")]));
    assert!(left.same(&mut right));
    left.add(&one).unwrap();
    left.add(&other).unwrap();
    right.add(&other).unwrap();
    assert!(!left.same(&mut right));
    right.add(&one).unwrap();
    assert!(left.same(&mut right));
    assert_eq!(format!("{left:?}"), "Collector { .. }");
    std::thread::spawn(move || assert_eq!(left.list(), Ok(2))).join().unwrap();
}
