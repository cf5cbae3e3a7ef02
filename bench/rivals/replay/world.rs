//! What a script's commands do, and the printing of it: the log, and each collector's listing by time.

use crate::ring::{Answer, Refusal, Ring, Taken, EXTEND, LONG};
use crate::script::{Command, Header, What};
use crate::text::{put_hex, put_number};
use std::cmp::Reverse;
use std::collections::binary_heap::PeekMut;
use std::collections::BinaryHeap;
use std::io::{self, Write};
use std::slice;

/// What is printed, gathered into large pieces.
pub struct Out<W: Write> {
    sink: W,
    buffer: Box<[u8]>,
    len: usize,
}

/// More than any line takes: a payload has 65,512 bytes at most.
const LONGEST_LINE: usize = 1 << 18;

/// More than the numbers and words of a line take.
const LINE_FRONT: usize = 256;

impl<W: Write> Out<W> {
    pub fn new(sink: W) -> Out<W> {
        Out { sink, buffer: vec![0; 2 * LONGEST_LINE].into(), len: 0 }
    }

    /// Room for a line of this number of bytes more than its numbers take.
    #[inline(always)]
    fn make_room(&mut self, len: usize) -> io::Result<()> {
        if self.buffer.len() - self.len < len + LINE_FRONT {
            self.flush()?;
        }
        Ok(())
    }

    /// A line of a listing: the words at its front, two numbers, and a payload.
    #[inline(always)]
    fn put_record(&mut self, front: Front, number: u64, moment: u64, payload: &[u8]) -> io::Result<()> {
        let digits = 2 * payload.len();
        self.make_room(digits)?;
        let room = &mut self.buffer[self.len..][..LINE_FRONT + digits];
        room[..4].copy_from_slice(&front.bytes);
        let mut at = front.len;
        at += put_number(&mut room[at..], number);
        room[at] = b' ';
        at += 1;
        at += put_number(&mut room[at..], moment);
        room[at] = b' ';
        at += 1;
        put_hex(&mut room[at..at + digits], payload);
        room[at + digits] = b'\n';
        self.len += at + digits + 1;
        Ok(())
    }

    #[inline(always)]
    fn put(&mut self, bytes: &[u8]) {
        self.buffer[self.len..][..bytes.len()].copy_from_slice(bytes);
        self.len += bytes.len();
    }

    #[inline(always)]
    fn put_byte(&mut self, byte: u8) {
        self.buffer[self.len] = byte;
        self.len += 1;
    }

    #[inline(always)]
    fn put_number(&mut self, number: u64) {
        self.len += put_number(&mut self.buffer[self.len..], number);
    }

    pub fn line(&mut self, text: std::fmt::Arguments) -> io::Result<()> {
        self.make_room(0)?;
        let mut room = &mut self.buffer[self.len..];
        let before = room.len();
        room.write_fmt(text)?;
        self.len += before - room.len();
        self.put_byte(b'\n');
        Ok(())
    }

    pub fn flush(&mut self) -> io::Result<()> {
        self.sink.write_all(&self.buffer[..self.len])?;
        self.len = 0;
        self.sink.flush()
    }
}

/// The words of a line of the log.
enum Word<'a> {
    Text(&'a str),
    Number(u64),
}

use Word::{Number, Text};

pub struct World<'t> {
    header: Header,
    rings: Vec<Option<Ring<'t>>>,
}

impl<'t> World<'t> {
    /// Obeys the commands; with the log printed where that is asked for.
    pub fn replay<W: Write>(
        header: Header,
        commands: &[Command],
        text: &'t [u8],
        mut log: Option<&mut Out<W>>,
    ) -> io::Result<World<'t>> {
        let rings = (0..header.cpus).map(|_| None).collect();
        let mut world = World { header, rings };
        let mut line = 0;
        for command in commands {
            line += 1;
            if let What::Nothing = command.what {
                line += command.number - 1;
                continue;
            }
            if let What::Deliver = command.what {
                let told = world.deliver(command);
                if let Some(out) = &mut log {
                    let (collector, cpu) = (command.collector() as u64, command.cpu() as u64);
                    let words = [Text(" d "), Number(collector), Text(" c"), Number(cpu), Text(" ")];
                    out.log(line, &words)?;
                    out.log_end(&[Number(command.number), Text(told)]);
                }
                continue;
            }
            let Header { pages, size, start, .. } = world.header;
            let ring = world.rings[command.cpu()].get_or_insert_with(|| Ring::new(pages, size, start));
            if let What::Write = command.what {
                if let Err(refusal) = ring.write(command.number, command.payload(text)) {
                    log_refusal(&mut log, line, command, refusal)?;
                }
                continue;
            }
            let answer = match command.what {
                What::Begin => refused(ring.push(command.number, command.payload(text))),
                What::Steps => refused(ring.steps(command.number)),
                What::Finish => refused(ring.finish()),
                What::Close => refused(ring.close()),
                What::Reads => ring.reads(command.number).map(Told::Read),
                What::Take => Some(Told::Read(ring.take())),
                What::Ask => Some(Told::Asked(ring.ask())),
                What::Write | What::Deliver | What::Nothing => unreachable!("handled above"),
            };
            match answer {
                Some(Told::Refused(refusal)) => log_refusal(&mut log, line, command, refusal)?,
                Some(answer) => log_reader(&mut log, line, command, answer, ring)?,
                None => {}
            }
        }
        Ok(world)
    }

    fn deliver(&mut self, command: &Command) -> &'static str {
        let Some(ring) = &mut self.rings[command.cpu()] else {
            return " not-taken";
        };
        let bit = 1 << command.collector();
        match ring.taken.binary_search_by_key(&command.number, |taken| taken.fill) {
            Err(_) => " not-taken",
            Ok(at) if ring.taken[at].collectors & bit != 0 => " known",
            Ok(at) => {
                ring.taken[at].collectors |= bit;
                " new"
            }
        }
    }

    /// Prints each collector: a merge of its pages by their CPUs, whose records rise, and then its missing numbers.
    pub fn print<W: Write>(&self, out: &mut Out<W>) -> io::Result<()> {
        for collector in 0..self.header.collectors {
            out.line(format_args!("collector {collector}"))?;
            let bit = 1 << collector;
            let mut walks: Vec<Walk> = self
                .rings
                .iter()
                .enumerate()
                .filter_map(|(cpu, ring)| Some(Walk::new(cpu, bit, &ring.as_ref()?.taken)))
                .collect();
            let firsts = walks.iter_mut().enumerate().filter_map(|(at, walk)| Some(Reverse((walk.next()?, at))));
            let mut heap: BinaryHeap<Reverse<(u64, usize)>> = firsts.collect();
            while let Some(mut top) = heap.peek_mut() {
                let Reverse((moment, at)) = *top;
                let walk = &mut walks[at];
                out.put_record(walk.cpu, walk.number, moment, walk.payload)?;
                match walk.next() {
                    Some(moment) => *top = Reverse((moment, at)),
                    None => {
                        PeekMut::pop(top);
                    }
                }
            }
            for (cpu, ring) in self.rings.iter().enumerate() {
                let taken = ring.iter().flat_map(|ring| &ring.taken);
                for Taken { first, missed, .. } in taken.filter(|page| page.collectors & bit != 0 && page.missed > 0) {
                    out.line(format_args!("missing {cpu} {}-{}", first - missed, first - 1))?;
                }
            }
        }
        Ok(())
    }
}

/// What a command is answered.
enum Told {
    Refused(Refusal),
    Read(Answer),
    Asked(u64),
}

fn refused(result: Result<(), Refusal>) -> Option<Told> {
    result.err().map(Told::Refused)
}

fn log_refusal<W: Write>(log: &mut Option<&mut Out<W>>, line: u64, command: &Command, why: Refusal) -> io::Result<()> {
    if let Some(out) = log {
        out.line(format_args!("{line} c{} refused {why:?}", command.cpu()))?;
    }
    Ok(())
}

fn log_reader<W: Write>(
    log: &mut Option<&mut Out<W>>,
    line: u64,
    command: &Command,
    told: Told,
    ring: &Ring,
) -> io::Result<()> {
    let Some(out) = log else {
        return Ok(());
    };
    out.log(line, &[Text(" c"), Number(command.cpu() as u64)])?;
    match told {
        Told::Asked(fill) => out.log_end(&[Text(" asks "), Number(fill)]),
        Told::Read(Answer::Empty) => out.log_end(&[Text(" empty")]),
        Told::Read(Answer::Moving(fill)) => out.log_end(&[Text(" moving "), Number(fill)]),
        Told::Read(Answer::Taken) => {
            let Some(Taken { fill, first, count, missed, .. }) = ring.taken.last() else {
                unreachable!("a page was taken");
            };
            out.put_words(&[Text(" taken fill "), Number(*fill), Text(" first "), Number(*first)]);
            out.log_end(&[Text(" count "), Number(*count), Text(" missed "), Number(*missed)]);
        }
        Told::Refused(_) => unreachable!("no reader is refused"),
    }
    Ok(())
}

impl<W: Write> Out<W> {
    #[inline(always)]
    fn put_words(&mut self, words: &[Word]) {
        for word in words {
            match word {
                Text(text) => self.put(text.as_bytes()),
                Number(number) => self.put_number(*number),
            }
        }
    }

    #[inline(always)]
    fn log(&mut self, line: u64, words: &[Word]) -> io::Result<()> {
        self.make_room(0)?;
        self.put_number(line);
        self.put_words(words);
        Ok(())
    }

    #[inline(always)]
    fn log_end(&mut self, words: &[Word]) {
        self.put_words(words);
        self.put_byte(b'\n');
    }
}

/// What each line of a CPU begins with: its number and a space.
#[derive(Clone, Copy)]
struct Front {
    bytes: [u8; 4],
    len: usize,
}

impl Front {
    fn of(cpu: usize) -> Front {
        let mut bytes = [b' '; 20];
        let digits = put_number(&mut bytes, cpu as u64);
        Front { bytes: [bytes[0], bytes[1], bytes[2], bytes[3]], len: digits + 1 }
    }
}

/// A walk over the records of one CPU in a collector.
struct Walk<'a> {
    cpu: Front,
    bit: u16,
    pages: slice::Iter<'a, Taken>,
    /// What is left of the page that the walk is on.
    data: &'a [u8],
    time: u64,
    number: u64,
    payload: &'a [u8],
}

impl<'a> Walk<'a> {
    fn new(cpu: usize, bit: u16, pages: &'a [Taken]) -> Walk<'a> {
        Walk { cpu: Front::of(cpu), bit, pages: pages.iter(), data: &[], time: 0, number: 0, payload: &[] }
    }

    /// Goes to the next record, and answers its moment.
    #[inline(always)]
    fn next(&mut self) -> Option<u64> {
        self.number = self.number.wrapping_add(1);
        while self.data.is_empty() {
            let page = self.pages.next()?;
            if page.collectors & self.bit != 0 {
                (self.data, self.time, self.number) = (&page.data, page.time, page.first);
            }
        }
        let mut word = number_at(self.data, 0);
        if word & 31 == EXTEND {
            self.time += u64::from(number_at(self.data, 4)) << 27 | u64::from(word >> 5);
            self.data = &self.data[8..];
            word = number_at(self.data, 0);
        }
        self.time += u64::from(word >> 5);
        let (start, end) = match word & 31 {
            LONG => (8, 4 + number_at(self.data, 4) as usize),
            words => (4, 4 + 4 * words as usize),
        };
        (self.payload, self.data) = (&self.data[start..end], &self.data[end..]);
        Some(self.time)
    }
}

#[inline(always)]
fn number_at(data: &[u8], at: usize) -> u32 {
    u32::from_le_bytes(data[at..at + 4].try_into().unwrap())
}
