//! What an event takes by `trace!`: the least nanoseconds of many rounds, by the processor's counter.
//!
//!     cargo run --release --example flight_speed
use std::time::Instant;
use tracering::flight::{self, Clock, Config};
use tracering::trace;

const ROUND: u32 = 100_000;
const ROUNDS: u32 = 200;

fn trace_events() {
    for each in 0..ROUND {
        trace!("request {} took {} ns", each, u64::from(each) + 250);
    }
}

fn trace_texts() {
    for each in 0..ROUND {
        trace!("request {} took {} ns", "a text of 24 characters.", each);
    }
}

fn nanoseconds(events: fn()) -> f64 {
    let round = |_| {
        let begun = Instant::now();
        events();
        begun.elapsed().as_nanos() as f64 / f64::from(ROUND)
    };
    (0..ROUNDS).map(round).fold(f64::INFINITY, f64::min)
}

fn main() -> std::io::Result<()> {
    flight::start(&Config { clock: Clock::Tsc, ..Config::default() })?;
    for (name, events) in [("events", trace_events as fn()), ("texts", trace_texts)] {
        println!("{name} {:.1}", nanoseconds(events));
    }
    Ok(())
}
