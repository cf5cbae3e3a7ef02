use std::error::Error;
use std::fs;
use std::io::ErrorKind;
use std::path::PathBuf;
use std::process::id;
use std::sync::Arc;
use tracering::region::{about, len_of, ring_in, slots, About, Region};
use tracering::{settle, Collector, Fault, HEADER};

fn path(name: &str) -> PathBuf {
    std::env::temp_dir().join(format!("tracering_region_{}_{name}", id()))
}

/// The numbers and payloads of records.
type Numbered = Vec<(u64, Vec<u8>)>;

fn numbers(bytes: &[u8]) -> Result<Numbered, Box<dyn Error>> {
    let mut collector = Collector::new()?;
    for slot in slots(bytes) {
        collector.add(slot?).map_err(|(fault, _)| fault)?;
    }
    let mut found = Vec::new();
    let mut out = [0; 64];
    for _ in 0..collector.list()? {
        let line = collector.next(&mut out).map_err(|(fault, _)| fault)?;
        found.push((line.number, out[..line.len].to_vec()));
    }
    Ok(found)
}

#[test]
fn what_is_written_is_in_the_file() -> Result<(), Box<dyn Error>> {
    let file = path("file");
    let region = Arc::new(Region::file(&file, 2, 64)?);
    let (mut writer, mut reader) = ring_in(&region, 3, 2, 64, 9)?;
    writer.write(7, b"one.")?;
    {
        let mut open = writer.begin(8, 4)?;
        open.put(b"two.")?;
        // What is begun isn't there yet.
        assert_eq!(numbers(&fs::read(&file)?)?, [(0, b"one.".to_vec())]);
    }
    let whole = [(0, b"one.".to_vec()), (1, b"two.".to_vec())];
    assert_eq!(numbers(&fs::read(&file)?)?, whole);
    assert_eq!(numbers(&region.copy()?)?, whole);
    assert_eq!(numbers(&Region::open(&file)?.copy()?)?, whole);
    assert!(matches!(ring_in(&region, 0, 2, 64, 1), Err(Fault::BadRegion)));
    let mut said = About { pages: 2, size: 64, cpu: 3, has_ended: false, stream: 9, taken: 0, len: len_of(2, 64) };
    assert_eq!(about(&region.copy()?)?, said);
    writer.close()?;
    reader.take(&mut [0; HEADER + 64])?;
    said.taken = 2;
    assert_eq!(about(&region.copy()?)?, said);
    writer.write(9, b"last")?;
    drop(writer);
    drop(reader);
    said.has_ended = true;
    assert_eq!(about(&fs::read(&file)?)?, said);
    assert_eq!(numbers(&fs::read(&file)?)?.len(), 3);
    // A new ring begins at its first number; the file of the one before is renamed.
    let again = Arc::new(Region::file(&file, 2, 64)?);
    assert!(about(&fs::read(&file)?).is_err());
    let _ends = ring_in(&again, 3, 2, 64, 10)?;
    let mut aside = file.clone().into_os_string();
    aside.push("~");
    assert_eq!(about(&fs::read(&aside)?)?, said);
    fs::remove_file(&file)?;
    fs::remove_file(&aside)?;
    Ok(())
}

#[test]
fn what_is_settled_has_ended() -> Result<(), Box<dyn Error>> {
    let (region, _is_huge) = Region::huge(2, 64)?;
    let region = Arc::new(region);
    for _ in 0..2 {
        let (mut writer, mut reader) = ring_in(&region, 0, 2, 64, 1)?;
        let mut collector = Collector::new()?;
        writer.write(1, b"one")?;
        writer.close()?;
        collector.take(&mut reader).map_err(|(fault, _)| fault)?;
        assert_eq!(about(&region.copy()?)?.taken, 1);
        writer.write(2, b"two")?;
        let mut out = [0; HEADER + 64];
        assert_eq!(reader.take(&mut out), Err(Fault::Empty));
        settle(writer, reader, &mut out).map_err(|(_, _, fault)| fault)?;
        let said = about(&region.copy()?)?;
        assert_eq!((said.taken, said.has_ended), (2, true));
    }
    Ok(())
}

#[test]
fn what_is_no_region_is_refused() -> Result<(), Box<dyn Error>> {
    assert_eq!(about(&[0; 127]), Err(Fault::BadRegion));
    assert_eq!(slots(&[0; 4096]).count(), 0);
    assert_eq!(Region::file(&path("none"), 1, 64).unwrap_err().kind(), ErrorKind::InvalidInput);
    assert!(Region::open(&path("none")).is_err());
    let (region, _) = Region::huge(2, 64)?;
    let region = Arc::new(region);
    assert_eq!(region.copy(), Err(Fault::BadRegion));
    assert!(matches!(ring_in(&region, 0, 3, 64, 1), Err(Fault::BadRegion)));
    assert!(matches!(ring_in(&region, 256, 2, 64, 1), Err(Fault::BadCpu)));
    assert!(matches!(ring_in(&region, 0, 1, 64, 1), Err(Fault::BadSize)));
    Ok(())
}

#[test]
fn shared_memory_has_a_name() -> Result<(), Box<dyn Error>> {
    let name = format!("/tracering_region_{}", id());
    let region = Arc::new(Region::shared(&name, 2, 64)?);
    assert_eq!(Region::shared(&name, 2, 64).unwrap_err().kind(), ErrorKind::AlreadyExists);
    let (mut writer, _reader) = ring_in(&region, 0, 2, 64, 1)?;
    writer.write(1, b"one.")?;
    let file = PathBuf::from(format!("/dev/shm{name}"));
    let other = Arc::new(Region::open(&file)?);
    assert_eq!(numbers(&other.copy()?)?, [(0, b"one.".to_vec())]);
    assert!(matches!(ring_in(&other, 0, 2, 64, 1), Err(Fault::BadRegion)));
    fs::remove_file(&file)?;
    Ok(())
}
