//! Events as text, and what the ring answers to them: the form of crates/rows/stdout.

use crate::event::{Answer, Ended, Event};
use crate::page::{Body, Page};
use crate::ring::Ring;

/// The text again, with the ring's answers after its events, whatever is there; or what can't be read.
pub fn answered(text: &str) -> Result<String, String> {
    let mut out = String::new();
    let mut row = Row::of(Ring::new(2, 32));
    for (at, line) in text.lines().enumerate() {
        if line.starts_with("  ") {
            continue;
        }
        let event = line.split(" -> ").next().unwrap_or(line);
        let answer = match line.as_bytes().first() {
            None | Some(b'#') => Some(String::new()),
            Some(b'[') => new_ring(line).map(|made| {
                row = Row::of(made);
                String::new()
            }),
            Some(_) => row.answer_to(event),
        };
        let Some(answer) = answer else {
            return Err(format!("line {}: {line}\n", at + 1));
        };
        out += if answer.is_empty() { line } else { event };
        out += &answer;
        out += "\n";
    }
    Ok(out)
}

/// `[name] pages N size S`, and maybe ` start F`.
fn new_ring(line: &str) -> Option<Ring> {
    let words: Vec<&str> = line.split_once("] ")?.1.split(' ').collect();
    match words[..] {
        ["pages", pages, "size", size] => Some(Ring::new(pages.parse().ok()?, size.parse().ok()?)),
        ["pages", pages, "size", size, "start", start] => {
            Some(Ring::new_at(pages.parse().ok()?, size.parse().ok()?, start.parse().ok()?))
        }
        _ => None,
    }
}

/// A ring, with whether each frame on it is a close frame, and the page that was taken last, as an image.
struct Row {
    ring: Ring,
    closes: Vec<bool>,
    image: String,
}

impl Row {
    fn of(ring: Ring) -> Row {
        Row { ring, closes: Vec::new(), image: "no page".into() }
    }

    fn answer_to(&mut self, text: &str) -> Option<String> {
        let words: Vec<&str> = text.split(' ').collect();
        let answer = match words[..] {
            ["push", moment, len] => self.push(moment.parse().ok()?, len.parse().ok()?),
            ["push_close"] => self.push_close(),
            ["step"] => self.ring.step(Event::Step),
            ["finish"] => self.finish(),
            ["end", ref payload @ ..] => self.end(&payload_of(payload)?)?,
            ["write", moment, ref payload @ ..] => {
                return self.write(moment.parse().ok()?, &payload_of(payload)?);
            }
            ["read"] => self.read(),
            ["take"] => self.take(),
            ["wish"] => self.ring.step(Event::Wish),
            ["settle"] => return Some(self.settle()),
            ["image"] => return Some(format!(" -> {}", self.image)),
            ["top"] => return Some(lent(&mut self.ring)),
            ["depth"] => return Some(format!(" -> {}", self.ring.depth())),
            ["pack", mark, page, fill] => return packed(mark, page.parse().ok()?, fill.parse().ok()?),
            ["unpack", word] => return Some(unpacked(word.parse().ok()?)),
            _ => return None,
        };
        Some(told(answer))
    }

    fn push(&mut self, moment: u64, len: usize) -> Answer {
        self.closes.truncate(self.ring.depth());
        self.closes.push(false);
        self.ring.step(Event::Push { moment, len })
    }

    fn push_close(&mut self) -> Answer {
        self.closes.truncate(self.ring.depth());
        self.closes.push(true);
        self.ring.step(Event::PushClose)
    }

    /// Steps of the frame on top: a record frame that is refused comes no further, a close frame goes on.
    fn finish(&mut self) -> Answer {
        let depth = self.ring.depth();
        let closes = depth > 0 && self.closes[depth - 1];
        let mut met = None;
        loop {
            match self.ring.step(Event::Step) {
                Answer::Going => {}
                Answer::Refused(fault) if closes && self.ring.depth() == depth => {
                    met.get_or_insert(fault);
                }
                answer => return met.map_or(answer, Answer::Refused),
            }
        }
    }

    fn end(&mut self, payload: &[u8]) -> Option<Answer> {
        if let Ok(slot) = self.ring.top_mut() {
            slot.get_mut(..payload.len())?.copy_from_slice(payload);
        }
        Some(self.ring.step(Event::End))
    }

    fn write(&mut self, moment: u64, payload: &[u8]) -> Option<String> {
        let depth = self.ring.depth();
        if let refused @ Answer::Refused(_) = self.push(moment, payload.len()) {
            return Some(told(refused));
        }
        if let refused @ Answer::Refused(_) = self.finish() {
            if self.ring.depth() > depth {
                self.finish();
            }
            return Some(told(refused));
        }
        if let Answer::Ended(Ended::Full) = self.end(payload)? {
            self.finish();
        }
        Some(" -> written".into())
    }

    fn read(&mut self) -> Answer {
        let size = self.ring.size();
        let answer = self.ring.step(Event::Read(vec![0xee; size]));
        if let Answer::Taken(page, missed) = &answer {
            self.image = image(page, *missed, size);
        }
        answer
    }

    fn take(&mut self) -> Answer {
        loop {
            match self.read() {
                Answer::Looking(_) => {}
                answer => return answer,
            }
        }
    }

    /// What is unread where nothing else is: the tail, which is closed and taken for it.
    fn settle(&mut self) -> String {
        if self.ring.depth() > 0 || !matches!(self.take(), Answer::Empty(..)) {
            return " -> refused".into();
        }
        self.push_close();
        self.finish();
        match self.take() {
            Answer::Taken(page, _) => page_told("unread", &page) + &records_told(&page),
            _ => " -> nothing unread".into(),
        }
    }
}

fn lent(ring: &mut Ring) -> String {
    match ring.top_mut() {
        Ok(slot) => format!(" -> {} bytes", slot.len()),
        Err(fault) => format!(" -> refused {fault:?}"),
    }
}

const MARKS: [&str; 3] = ["normal", "header", "update"];

fn packed(mark: &str, page: u64, fill: u64) -> Option<String> {
    let mark = MARKS.iter().position(|name| *name == mark)? as u64;
    Some(format!(" -> {}", mark + 4 * page + 65_536 * fill))
}

fn unpacked(word: u64) -> String {
    match MARKS.get(word as usize % 4) {
        Some(mark) => format!(" -> {mark} {} {}", word / 4 % 16_384, word / 65_536),
        None => " -> none".into(),
    }
}

/// `A7` is 28 bytes of the value 7, `7*113` is 113 of them; other payloads are hexadecimal digits.
fn payload_of(words: &[&str]) -> Option<Body> {
    let text = match words {
        [] => return Some(Body::new()),
        [text] => *text,
        _ => return None,
    };
    if let Some(value) = text.strip_prefix('A') {
        return Some(vec![value.parse().ok()?; 28]);
    }
    if let Some((value, count)) = text.split_once('*') {
        return Some(vec![value.parse().ok()?; count.parse().ok()?]);
    }
    (0..text.len()).step_by(2).map(|at| u8::from_str_radix(text.get(at..at + 2)?, 16).ok()).collect()
}

fn told(answer: Answer) -> String {
    match answer {
        Answer::Pushed => " -> pushed".into(),
        Answer::Going => " -> going".into(),
        Answer::Reserved(number) => format!(" -> reserved {}", number.0),
        Answer::Ended(Ended::Pending) => " -> pending".into(),
        Answer::Ended(Ended::Full) => " -> full".into(),
        Answer::Gone => " -> gone".into(),
        Answer::Refused(fault) => format!(" -> refused {fault:?}"),
        Answer::Looking(_) => " -> looking".into(),
        Answer::Empty(done, _) => format!(" -> empty {done}"),
        Answer::Moving(fill, _) => format!(" -> moving {}", fill.0),
        Answer::Taken(page, missed) => taken(&page, missed),
        Answer::Wished(done) => format!(" -> wished {}", done.0),
    }
}

/// A page that was taken, with a line for each of its records.
fn taken(page: &Page, missed: u64) -> String {
    page_told("taken", page) + &format!(" missed {missed}") + &records_told(page)
}

fn page_told(name: &str, page: &Page) -> String {
    let Page { fill, first, count, .. } = page;
    format!(" -> {name} fill {fill} first {first} count {count}")
}

fn records_told(page: &Page) -> String {
    page.records().map(|(moment, bytes)| format!("\n  {moment} {}", payload_told(bytes))).collect()
}

fn payload_told(bytes: &[u8]) -> String {
    let runs: Vec<&[u8]> = bytes.chunk_by(|one, next| one == next).collect();
    match runs[..] {
        [run] if run.len() == 28 => format!("A{}", run[0]),
        _ if bytes.len() > 28 => {
            let runs: Vec<String> = runs.iter().map(|run| format!("{}*{}", run[0], run.len())).collect();
            runs.join("+")
        }
        _ => hex(bytes),
    }
}

fn hex(bytes: &[u8]) -> String {
    bytes.iter().map(|byte| format!("{byte:02x}")).collect()
}

/// The image of a page before which `missed` records are missing: docs/formats/pages.md, "Page image".
fn image(page: &Page, missed: u64, size: usize) -> String {
    let data = page.data();
    let counted = missed > 0 && data.len() + 8 <= size;
    let flags = u64::from(missed > 0) << 31 | u64::from(counted) << 30;
    let mut bytes = data.to_vec();
    if counted {
        bytes.extend(missed.to_le_bytes());
    }
    bytes.resize(size, 0);
    let head = [page.time, data.len() as u64 | flags].map(|word| hex(&word.to_le_bytes()));
    let words: Vec<String> = bytes.chunks(4).map(hex).collect();
    let rows: String = words.chunks(8).map(|row| format!("\n  {}", row.join(" "))).collect();
    head.join(" ") + &rows
}
