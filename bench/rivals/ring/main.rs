//! A plain ring to measure the project's against and to compare it with: plain Rust of the same rules, with the same
//! events and answers. Nothing is proved, and where memory is refused it stops.
//!
//!     ring bulk RECORDS LENGTH    writes RECORDS records of LENGTH bytes, with a take after each page
//!     ring answer                 answers the events on standard input: the form is that of crates/rows/stdout

mod event;
mod page;
mod ring;
mod rows;

use event::{Answer, Event, WriteFault};
use page::Body;
use ring::Ring;
use std::env;
use std::io::{self, Read, Write};
use std::process::ExitCode;

/// The bulk run's ring.
const PAGES: usize = 16;
const SIZE: usize = 4_080;

/// What a bulk run has taken.
#[derive(Default)]
struct Met {
    pages: u64,
    records: u64,
    missed: u64,
}

/// Writes a record, and answers whether a page was closed after it.
fn write(ring: &mut Ring, moment: u64, payload: &[u8]) -> Result<bool, WriteFault> {
    if let Answer::Refused(fault) = ring.step(Event::Push { moment, len: payload.len() }) {
        return Err(fault);
    }
    loop {
        match ring.step(Event::Step) {
            Answer::Reserved(_) => break,
            Answer::Refused(fault) => return Err(fault),
            _ => {}
        }
    }
    ring.top_mut()?[..payload.len()].copy_from_slice(payload);
    ring.step(Event::End);
    let mut closed = false;
    while !matches!(ring.step(Event::Step), Answer::Gone) {
        closed = true;
    }
    Ok(closed)
}

/// Takes a page if there is one, and returns a body for the next take.
fn take(ring: &mut Ring, mut body: Body, met: &mut Met) -> Body {
    loop {
        match ring.step(Event::Read(body)) {
            Answer::Looking(back) => body = back,
            Answer::Taken(page, missed) => {
                met.pages += 1;
                met.records += page.count;
                met.missed += missed;
                return page.into_body();
            }
            Answer::Empty(_, back) | Answer::Moving(_, back) => return back,
            _ => unreachable!("a read isn't answered so"),
        }
    }
}

/// Writes this number of records with this payload, and takes each page that is closed.
#[inline(never)]
fn bulk(ring: &mut Ring, records: u64, payload: &[u8]) -> Result<Met, WriteFault> {
    let (mut met, mut body) = (Met::default(), vec![0; ring.size()]);
    for number in 0..records {
        if write(ring, 100 * number, payload)? {
            body = take(ring, body, &mut met);
        }
    }
    Ok(met)
}

fn run_bulk(records: &str, length: &str) -> Option<ExitCode> {
    let (records, length) = (records.parse().ok()?, length.parse().ok()?);
    let payload = vec![0x5a; length];
    let mut ring = Ring::new(PAGES, SIZE);
    match bulk(&mut ring, records, &payload) {
        Ok(met) => println!("pages {} records {} missed {}", met.pages, met.records, met.missed),
        Err(fault) => println!("refused {fault:?}"),
    }
    Some(ExitCode::SUCCESS)
}

fn run_answer() -> Option<ExitCode> {
    let mut text = String::new();
    io::stdin().read_to_string(&mut text).ok()?;
    let (out, status) = match rows::answered(&text) {
        Ok(out) => (out, ExitCode::SUCCESS),
        Err(fault) => (fault, ExitCode::FAILURE),
    };
    io::stdout().write_all(out.as_bytes()).ok()?;
    Some(status)
}

fn main() -> ExitCode {
    let words: Vec<String> = env::args().skip(1).collect();
    let words: Vec<&str> = words.iter().map(String::as_str).collect();
    let status = match words[..] {
        ["bulk", records, length] => run_bulk(records, length),
        ["answer"] => run_answer(),
        _ => None,
    };
    status.unwrap_or_else(|| {
        eprintln!("usage: ring bulk RECORDS LENGTH | ring answer");
        ExitCode::from(2)
    })
}
