//! A script's text, read whole into a list of commands, or its first fault (docs/formats/program.md, "Script").

use crate::text::{decode, decoded_pair, number_of};

const MAX_STEPS: u64 = 1_000_000;
const LINK_FILLS: u64 = 1 << 48;

#[derive(Clone, Copy, Debug)]
pub enum Fault {
    BadLine,
    BadNumber,
    BadHex,
    OutOfRange,
}

use Fault::{BadHex, BadLine, BadNumber, OutOfRange};

pub struct Header {
    pub pages: usize,
    pub size: usize,
    pub cpus: usize,
    pub collectors: usize,
    pub start: u64,
}

/// Lines that say nothing are commands too, so that a command's number is its line's.
#[derive(Clone, Copy)]
pub enum What {
    Begin,
    Steps,
    Finish,
    Write,
    Close,
    Reads,
    Take,
    Ask,
    Deliver,
    Nothing,
}

/// `number` is a moment, how many steps, a fill, or how many lines say nothing. The payload is, decoded, in the text
/// itself, from its first digit; of one too long for any page the length is cut. That of `Deliver` is its collector.
#[derive(Clone, Copy)]
pub struct Command {
    pub number: u64,
    at: u32,
    len: u16,
    cpu: u8,
    pub what: What,
}

impl Command {
    pub fn cpu(&self) -> usize {
        self.cpu.into()
    }

    pub fn collector(&self) -> usize {
        self.len.into()
    }

    #[inline(always)]
    pub fn payload<'t>(&self, text: &'t [u8]) -> &'t [u8] {
        &text[self.at as usize..][..self.len.into()]
    }
}

/// The header and the commands, or the first faulty line and its fault. Payloads are decoded in place.
pub fn read(text: &mut [u8]) -> Result<(Header, Vec<Command>), (u64, Fault)> {
    let mut lines = Lines { at: 0, line: 0 };
    let pages = lines.setting(text, b"pages", 2, 1024, 1)? as usize;
    let size = lines.setting(text, b"size", 32, 65_520, 4)? as usize;
    let cpus = lines.setting(text, b"cpus", 1, 256, 1)? as usize;
    let collectors = lines.setting(text, b"collectors", 1, 16, 1)? as usize;
    let mut header = Header { pages, size, cpus, collectors, start: 0 };
    let mut commands = vec![Command::nothing(lines.line)];
    let passed = lines.skip(text);
    if text[lines.at..].starts_with(b"start ") {
        header.start = lines.setting(text, b"start", 0, LINK_FILLS - 1 - pages as u64, 1)?;
        commands.push(Command::nothing(passed + 1));
    } else if passed > 0 {
        commands.push(Command::nothing(passed));
    }
    lines.commands(text, &header, &mut commands)?;
    Ok((header, commands))
}

struct Lines {
    /// Where the next line begins, and how many lines are before it.
    at: usize,
    line: u64,
}

impl Lines {
    /// Goes over lines that say nothing, and answers how many they were.
    #[inline(always)]
    fn skip(&mut self, text: &[u8]) -> u64 {
        let before = self.line;
        while let Some(b'\n' | b'#') = text.get(self.at) {
            self.at = next_line(text, self.at);
            self.line += 1;
        }
        self.line - before
    }

    /// The number of the header's next line, which has to be this one.
    fn setting(&mut self, text: &[u8], word: &[u8], least: u64, most: u64, step: u64) -> Result<u64, (u64, Fault)> {
        self.skip(text);
        self.line += 1;
        if self.at >= text.len() {
            return Err((self.line, BadLine));
        }
        let line = &text[self.at..end_of_line(text, self.at)];
        let fields: Vec<&[u8]> = line.split(|byte| *byte == b' ').collect();
        self.at = next_line(text, self.at);
        let value = match fields[..] {
            [found, number] if found == word && !number.is_empty() => number_of(number).ok_or(BadNumber),
            _ => Err(BadLine),
        };
        match value {
            Ok(value) if value < least || value > most || value % step != 0 => Err((self.line, OutOfRange)),
            Ok(value) => Ok(value),
            Err(fault) => Err((self.line, fault)),
        }
    }

    fn commands(&mut self, text: &mut [u8], header: &Header, out: &mut Vec<Command>) -> Result<(), (u64, Fault)> {
        loop {
            let passed = self.skip(text);
            if passed > 0 {
                out.push(Command::nothing(passed));
            }
            if self.at >= text.len() {
                return Ok(());
            }
            self.line += 1;
            let mut front = Front { at: self.at };
            let command = match front.command(text, header) {
                Some(command) => {
                    self.at = front.at;
                    command.map_err(|fault| (self.line, fault))?
                }
                None => {
                    let (start, end) = (self.at, end_of_line(text, self.at));
                    self.at = next_line(text, start);
                    by_fields(&mut text[..end], start, header).map_err(|fault| (self.line, fault))?
                }
            };
            out.push(command);
        }
    }
}

/// Where the line that begins here ends: at its LF, or with the text.
fn end_of_line(text: &[u8], at: usize) -> usize {
    text[at..].iter().position(|byte| *byte == b'\n').map_or(text.len(), |len| at + len)
}

/// Where the next line begins, or the text ends.
fn next_line(text: &[u8], at: usize) -> usize {
    text.len().min(end_of_line(text, at) + 1)
}

/// A line that is read from its front.
struct Front {
    at: usize,
}

impl Front {
    /// The line's command and its end, if the line is as nearly all are. If the payload is none, that is the
    /// line's fault: all before it is right then.
    #[inline(always)]
    fn command(&mut self, text: &mut [u8], header: &Header) -> Option<Result<Command, Fault>> {
        let first = self.next(text)?;
        if first == b'd' {
            return self.delivery(text, header).map(Ok);
        }
        if first != b'c' {
            return None;
        }
        let cpu = self.number(text, b' ')?;
        if cpu >= header.cpus as u64 {
            return None;
        }
        let mut command = Command { number: 0, at: 0, len: 0, cpu: cpu as u8, what: What::Nothing };
        let word = self.next(text)?;
        if word == b'w' || word == b'b' {
            command.what = if word == b'w' { What::Write } else { What::Begin };
            self.expect(text, b' ')?;
            command.number = self.number(text, b' ')?;
            return self.payload(text, command);
        }
        command.what = match word {
            b's' => What::Steps,
            b'r' => What::Reads,
            b'f' => What::Finish,
            b'c' => What::Close,
            b't' => What::Take,
            b'a' => What::Ask,
            _ => return None,
        };
        if word == b's' || word == b'r' {
            self.expect(text, b' ')?;
            command.number = self.number(text, b'\n')?;
            return (1..=MAX_STEPS).contains(&command.number).then_some(Ok(command));
        }
        self.expect(text, b'\n')?;
        Some(Ok(command))
    }

    fn delivery(&mut self, text: &[u8], header: &Header) -> Option<Command> {
        self.expect(text, b' ')?;
        let collector = self.number(text, b' ')?;
        self.expect(text, b'c')?;
        let cpu = self.number(text, b' ')?;
        let number = self.number(text, b'\n')?;
        if collector >= header.collectors as u64 || cpu >= header.cpus as u64 {
            return None;
        }
        Some(Command { number, at: 0, len: collector as u16, cpu: cpu as u8, what: What::Deliver })
    }

    #[inline(always)]
    fn next(&mut self, text: &[u8]) -> Option<u8> {
        let byte = *text.get(self.at)?;
        self.at += 1;
        Some(byte)
    }

    #[inline(always)]
    fn expect(&mut self, text: &[u8], byte: u8) -> Option<()> {
        (self.next(text)? == byte).then_some(())
    }

    /// A number of at most 19 digits and the byte after it.
    #[inline(always)]
    fn number(&mut self, text: &[u8], after: u8) -> Option<u64> {
        let rest = &text[self.at..];
        let (mut number, mut len) = (0u64, 0);
        for byte in rest {
            let value = byte.wrapping_sub(b'0');
            if value > 9 {
                self.at += len + 1;
                return (*byte == after && (1..=19).contains(&len)).then_some(number);
            }
            number = number.wrapping_mul(10).wrapping_add(value.into());
            len += 1;
        }
        None
    }

    /// Decodes the line's last field in place.
    #[inline(always)]
    fn payload(&mut self, text: &mut [u8], mut command: Command) -> Option<Result<Command, Fault>> {
        let start = self.at;
        let (mut from, mut to) = (start, start);
        let mut bytes = [0; 8];
        while let Some(digits) = text[from..].first_chunk() {
            // A payload whose digits are used up needs no look at what comes after them.
            if digits[0] == b'\n' || !decode(digits, &mut bytes) {
                break;
            }
            text[to..to + 8].copy_from_slice(&bytes);
            (from, to) = (from + 16, to + 8);
        }
        while let Some([high, low]) = text.get(from..from + 2) {
            let Some(byte) = decoded_pair([*high, *low]) else {
                break;
            };
            text[to] = byte;
            (from, to) = (from + 2, to + 1);
        }
        if to == start {
            return None;
        }
        if let None | Some(b'\n') = text.get(from) {
            self.at = text.len().min(from + 1);
            command.set_payload(start, to - start);
            return Some(Ok(command));
        }
        let rest = &text[from..end_of_line(text, from)];
        Some(Err(if rest.contains(&b' ') { BadLine } else { BadHex }))
    }
}

/// Any line's command, by its fields: the line is the text from `at` on.
#[cold]
fn by_fields(text: &mut [u8], at: usize, header: &Header) -> Result<Command, Fault> {
    let line = &text[at..];
    let fields: Vec<&[u8]> = line.split(|byte| *byte == b' ').collect();
    if fields.iter().any(|field| field.is_empty()) {
        return Err(BadLine);
    }
    let mut command = Command::nothing(0);
    if fields[0] == b"d" {
        let [_, collector, cpu, fill] = fields[..] else {
            return Err(BadLine);
        };
        command.len = number_below(collector, header.collectors)? as u16;
        command.cpu = cpu_of(cpu, header)?;
        command.number = number_of(fill).ok_or(BadNumber)?;
        command.what = What::Deliver;
        return Ok(command);
    }
    if !is_cpu(fields[0]) || fields.len() < 2 {
        return Err(BadLine);
    }
    let (what, count) = match fields[1] {
        b"b" => (What::Begin, 4),
        b"w" => (What::Write, 4),
        b"s" => (What::Steps, 3),
        b"r" => (What::Reads, 3),
        b"f" => (What::Finish, 2),
        b"c" => (What::Close, 2),
        b"t" => (What::Take, 2),
        b"a" => (What::Ask, 2),
        _ => return Err(BadLine),
    };
    if fields.len() != count {
        return Err(BadLine);
    }
    command.what = what;
    command.cpu = cpu_of(fields[0], header)?;
    if count > 2 {
        command.number = number_of(fields[2]).ok_or(BadNumber)?;
    }
    if count == 3 && !(1..=MAX_STEPS).contains(&command.number) {
        return Err(OutOfRange);
    }
    if count == 4 && fields[3] != b"-" {
        let digits = fields[3].len();
        if digits % 2 != 0 || !fields[3].iter().all(u8::is_ascii_hexdigit) {
            return Err(BadHex);
        }
        let start = text.len() - digits;
        for at in 0..digits / 2 {
            let pair = [text[start + 2 * at], text[start + 2 * at + 1]];
            text[start + at] = decoded_pair(pair).ok_or(BadHex)?;
        }
        command.set_payload(start, digits / 2);
    }
    Ok(command)
}

fn is_cpu(field: &[u8]) -> bool {
    matches!(field, [b'c', digits @ ..] if !digits.is_empty() && digits.iter().all(u8::is_ascii_digit))
}

fn cpu_of(field: &[u8], header: &Header) -> Result<u8, Fault> {
    if !is_cpu(field) {
        return Err(BadLine);
    }
    Ok(number_below(&field[1..], header.cpus)? as u8)
}

fn number_below(field: &[u8], limit: usize) -> Result<u64, Fault> {
    match number_of(field) {
        None => Err(BadNumber),
        Some(number) if number >= limit as u64 => Err(OutOfRange),
        Some(number) => Ok(number),
    }
}

impl Command {
    fn nothing(lines: u64) -> Command {
        Command { number: lines, at: 0, len: 0, cpu: 0, what: What::Nothing }
    }

    #[inline(always)]
    fn set_payload(&mut self, at: usize, len: usize) {
        self.at = at as u32;
        self.len = len.min(usize::from(u16::MAX)) as u16;
    }
}
