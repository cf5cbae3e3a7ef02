//! A rival of `tracering replay` to measure against: plain Rust without `unsafe`, written for speed, with the same
//! checks and the same output. The text is read whole into a list of commands of sixteen bytes, its payloads decoded
//! in place; then they are obeyed; then each collector is printed. Nothing is proved, and where memory is refused it
//! stops.

mod ring;
mod script;
mod text;
mod world;

use std::io::{self, Read, Write};
use std::process::ExitCode;
use world::{Out, World};

const MAX_INPUT: usize = 1 << 28;

/// Prints the script's world, or its fault, and answers the exit status.
fn replay<W: Write>(text: &mut [u8], log: bool, out: &mut Out<W>) -> io::Result<u8> {
    let status = match script::read(text) {
        Ok((header, commands)) => {
            let world = World::replay(header, &commands, text, log.then_some(&mut *out))?;
            drop(commands);
            world.print(out)?;
            0
        }
        Err((line, fault)) => {
            out.line(format_args!("line {line}: {fault:?}"))?;
            1
        }
    };
    out.flush()?;
    Ok(status)
}

fn main() -> ExitCode {
    let words: Vec<String> = std::env::args().skip(1).collect();
    let words: Vec<&str> = words.iter().map(String::as_str).collect();
    let log = match words[..] {
        ["replay"] => false,
        ["replay", "--log"] => true,
        _ => {
            eprintln!("usage: rival replay [--log]");
            return ExitCode::from(2);
        }
    };
    let mut text = Vec::new();
    let told = match io::stdin().lock().take(MAX_INPUT as u64 + 1).read_to_end(&mut text) {
        Ok(count) if count > MAX_INPUT => "the input is longer than 268435456 bytes",
        Err(_) => "reading failed",
        Ok(_) => match replay(&mut text, log, &mut Out::new(io::stdout().lock())) {
            Ok(status) => return ExitCode::from(status),
            Err(_) => "writing failed",
        },
    };
    eprintln!("rival: {told}");
    ExitCode::from(4)
}
