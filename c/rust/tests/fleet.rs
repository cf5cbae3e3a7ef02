use tracering::{pack, pack_end, ring, Added, CpuState, Fault, Fleet, FleetLine, Refusal, Run, StreamFault};
use tracering::{HEADER, MARK};

/// The parcels of a ring of this CPU: one for each of these pages of records.
fn parcels(cpu: u32, pages: &[&[(u64, &[u8])]]) -> Vec<Vec<u8>> {
    let (mut writer, mut reader) = ring(cpu, 2, 64).unwrap();
    let mut out = [0u8; HEADER + 64];
    let mut give = |page: &&[(u64, &[u8])]| {
        for (moment, payload) in *page {
            writer.write(*moment, payload).unwrap();
        }
        writer.close().unwrap();
        let taken = reader.take(&mut out).unwrap();
        out[..taken.len].to_vec()
    };
    pages.iter().map(&mut give).collect()
}

/// Two pages of CPU 3, with two records and one.
fn pieces(stream: u64) -> Vec<Vec<u8>> {
    let pages = parcels(3, &[&[(1, b"one"), (4, b"two")], &[(6, b"three")]]);
    pages.iter().map(|parcel| pack(stream, parcel).unwrap()).collect()
}

fn fleet_of(pieces: &[Vec<u8>]) -> Fleet {
    let mut fleet = Fleet::new().unwrap();
    for piece in pieces {
        assert_eq!(fleet.add(piece), Ok((Added::New, piece.len())));
    }
    fleet
}

#[test]
fn streams_are_listed_by_time() {
    let (mut left, right) = (pieces(5), pieces(u64::MAX));
    left.extend(right);
    let mut fleet = fleet_of(&left);
    let bytes = left.concat();
    let mut at = 0;
    while at < bytes.len() {
        let (added, used) = fleet.add(&bytes[at..]).unwrap();
        assert_eq!(added, Added::Known);
        at += used;
    }
    assert_eq!(fleet.streams().collect::<Vec<_>>(), [5, u64::MAX]);
    assert_eq!(fleet.cpus(5).collect::<Vec<_>>(), [3]);
    assert_eq!(fleet.cpus(6).count(), 0);
    let lines: Vec<_> = fleet.lines().unwrap().collect();
    assert_eq!(lines.len(), 6);
    assert_eq!(lines[0], (FleetLine { moment: 1, stream: 5, number: 0, cpu: 3, len: 4 }, b"one\0".to_vec()));
    assert_eq!(lines[5].0, FleetLine { moment: 6, stream: u64::MAX, number: 2, cpu: 3, len: 8 });
    assert_eq!(fleet.lines().unwrap().len(), 6);
    assert_eq!(format!("{fleet:?}"), "Fleet { .. }");
    std::thread::spawn(move || assert_eq!(fleet.lines().unwrap().count(), 6)).join().unwrap();
}

#[test]
fn a_tail_that_is_lost_is_unknown() {
    let mut fleet = fleet_of(&pieces(5)[..1]);
    assert_eq!(fleet.state(5, 3), CpuState { bound: 0, watermark: 2, end: None });
    assert_eq!(fleet.unknown(5, 3), []);
    let end = pack_end(5, 3, 4).unwrap();
    assert!(end.len() <= MARK);
    assert_eq!(fleet.add(&end), Ok((Added::New, end.len())));
    assert_eq!(fleet.unknown(5, 3), [Run { first: 2, last: 3 }]);
    assert_eq!(fleet.missing(5, 3), []);
    let at = StreamFault { stream: 5, number: 2, cpu: 3 };
    assert_eq!(fleet.forget(5, 3, 4), Err(Refusal { fault: Fault::NotFinal, at, used: 0 }));
    assert_eq!(fleet.forget(5, 3, 2), Ok(Added::New));
    assert_eq!(fleet.give_up(5, 3, 4), Ok(Added::New));
    assert_eq!(fleet.give_up(5, 3, 4), Ok(Added::Known));
    assert_eq!(fleet.undelivered(5, 3), [Run { first: 2, last: 3 }]);
    assert_eq!(fleet.add(&pieces(5)[1]).unwrap().0, Added::Forgotten);
    assert_eq!(fleet.state(5, 3), CpuState { bound: 4, watermark: 4, end: Some(4) });
    assert_eq!(fleet.state(7, 3), CpuState::default());
}

#[test]
fn what_is_at_odds_or_no_piece_is_refused() {
    let mut fleet = fleet_of(&pieces(5));
    let clash = pack(5, &parcels(3, &[&[(1, b"one"), (4, b"TWO")]])[0]).unwrap();
    let at = StreamFault { stream: 5, number: 1, cpu: 3 };
    let refusal = fleet.add(&clash).unwrap_err();
    assert_eq!(refusal, Refusal { fault: Fault::Clash, at, used: clash.len() });
    let text = "there are two different records of one number: number 1 of CPU 3 of stream 0000000000000005";
    assert_eq!(refusal.to_string(), text);
    let none = |fault| Err(Refusal { fault, at: StreamFault::default(), used: 0 });
    assert_eq!(fleet.add(b"other"), none(Fault::NotPacked));
    assert_eq!(fleet.add(&clash[..40]), none(Fault::PieceCut));
    let mut changed = clash.clone();
    changed[50] ^= 1;
    assert_eq!(fleet.add(&changed), none(Fault::BadSum));
    let end = pack_end(5, 3, 1).unwrap();
    assert_eq!(fleet.add(&end).unwrap_err().fault, Fault::BeyondEnd);
    assert_eq!(pack(5, b"no parcel"), Err(Fault::TooShort));
    assert_eq!(pack_end(5, 256, 1), Err(Fault::BadCpu));
}

#[test]
fn shares_are_merged() {
    let all = pieces(5);
    let (mut left, right, whole) = (fleet_of(&all[..1]), fleet_of(&all[1..]), fleet_of(&all));
    assert!(!left.same(&right) && left.same(&left));
    assert_eq!(left.merge(&right), Ok(()));
    assert!(left.same(&whole) && whole.same(&left));
    let copy = fleet_of(&[]);
    assert!(!copy.same(&whole));
    let other = fleet_of(&[pack(5, &parcels(3, &[&[(1, b"one"), (4, b"TWO")]])[0]).unwrap()]);
    let at = StreamFault { stream: 5, number: 1, cpu: 3 };
    assert_eq!(left.merge(&other), Err(Refusal { fault: Fault::Clash, at, used: 0 }));
    assert!(left.same(&whole));
}

#[test]
fn a_snapshot_makes_the_same() {
    let mut whole = fleet_of(&pieces(5));
    whole.forget(5, 3, 1).unwrap();
    let (bytes, mut copy) = (whole.pack(5).unwrap(), Fleet::new().unwrap());
    let mut at = 0;
    while at < bytes.len() {
        at += copy.add(&bytes[at..]).unwrap().1;
    }
    assert!(copy.same(&whole));
    assert_eq!(whole.pack(6), Ok(Vec::new()));
}

#[test]
fn a_listing_goes_out_while_it_grows() {
    let (left, right) = (pieces(5), pieces(9));
    let mut fleet = fleet_of(&[left[0].clone(), right[0].clone()]);
    assert_eq!(fleet.frontier(), Some(4));
    let moments = |fleet: &mut Fleet, at| -> Vec<u64> {
        fleet.lines_before(at).unwrap().map(|(line, _)| line.moment).collect()
    };
    assert_eq!(moments(&mut fleet, 4), [1, 1]);
    assert_eq!(fleet.forget_before(4), Ok(()));
    fleet.add(&left[1]).unwrap();
    fleet.add(&right[1]).unwrap();
    assert_eq!(moments(&mut fleet, 6), [4, 4]);
    assert_eq!(fleet.forget_before(6), Ok(()));
    fleet.add(&pack_end(5, 3, 3).unwrap()).unwrap();
    assert_eq!(fleet.frontier(), Some(6));
    fleet.add(&pack_end(9, 3, 3).unwrap()).unwrap();
    assert_eq!(fleet.frontier(), None);
    assert_eq!(fleet.lines().unwrap().map(|(line, _)| line.moment).collect::<Vec<_>>(), [6, 6]);
}
