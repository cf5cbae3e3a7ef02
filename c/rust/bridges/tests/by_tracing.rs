//! What is said by `tracing`, as the recorder has it.
#![forbid(unsafe_code)]
mod shown;

use tracering::flight;
use tracering_bridges::FlightLayer;
use tracing::field::Empty;
use tracing::{debug, error_span, info, info_span, trace, warn, Span};
use tracing_subscriber::prelude::*;

/// Says one thing with some values of each kind, and with values of other kinds.
fn say(count: impl tracing::Value) {
    info!(count, ratio = 0.5, is_on = true, name = "a name", point = ?Some(1), shown = %5, "said {}", 1);
}

fn say_fields() {
    say(-3);
    say(u64::MAX);
    debug!(target: "another {target}", "no fields, {{}}");
    info!(a = 1, b = 2, c = 3, d = 4, e = 5, f = 6, g = 7, h = 8.0, i = "nine");
    warn!(long = "long ".repeat(200), wide = u128::MAX);
    info!(first = 1, absent = Empty, "one is absent");
    trace!(detail = 1);
}

/// Says things of spans, and answers their numbers: that of the outer one, and that of the inner one.
fn say_spans() -> [u64; 2] {
    let number = |span: &Span| span.id().unwrap().into_u64();
    let outer = info_span!("outer", id = 7, user = Empty).entered();
    let inner = error_span!("inner");
    outer.record("user", "ann");
    inner.in_scope(|| info!("within"));
    warn!(parent: &inner, bytes = 512);
    let numbers = [number(&outer), number(&inner)];
    drop(inner);
    drop(outer);
    numbers
}

#[test]
fn what_is_said_is_recorded() {
    let layers = tracing_subscriber::registry().with(FlightLayer);
    tracing::subscriber::set_global_default(layers).unwrap();
    info!("no recorder runs");
    flight::start(&Default::default()).unwrap();
    say_fields();
    let [outer, inner] = say_spans();
    flight::switch("* is entered: *", false).unwrap();
    flight::switch("*by_tracing.rs:* DEBUG *", false).unwrap();
    debug!("switched off");
    let [second, third] = say_spans();

    let of_spans = |outer, inner, enters: bool| {
        let lines = [
            format!("INFO by_tracing: span {outer} begins: outer id=7"),
            format!("INFO by_tracing: span {outer} is entered: outer"),
            format!("ERROR by_tracing: span {inner} begins in span {outer}: inner"),
            format!("INFO by_tracing: span {outer} has: outer user=ann"),
            format!("ERROR by_tracing: span {inner} is entered: inner"),
            format!("INFO by_tracing: span {inner}: within"),
            format!("ERROR by_tracing: span {inner} is left: inner"),
            format!("WARN by_tracing: span {inner}: bytes=512"),
            format!("ERROR by_tracing: span {inner} ends: inner"),
            format!("INFO by_tracing: span {outer} is left: outer"),
            format!("INFO by_tracing: span {outer} ends: outer"),
        ];
        lines.into_iter().filter(move |line| enters || !line.contains("is entered"))
    };
    let rest = "ratio=0.5 is_on=true name=a name point=Some(1) shown=5";
    let wanted = [
        format!("INFO by_tracing: said 1 count=-3 {rest}"),
        format!("INFO by_tracing: said 1 count={} {rest}", u64::MAX),
        "DEBUG another {target}: no fields, {}".to_string(),
        "INFO by_tracing: a=1 b=2 c=3 d=4 e=5 f=6 g=7 h=8 i=nine".to_string(),
        format!("WARN by_tracing: long={} wide={}", "long ".repeat(200), u128::MAX),
        "INFO by_tracing: one is absent first=1".to_string(),
        "TRACE by_tracing: detail=1".to_string(),
    ];
    let wanted = wanted.into_iter().chain(of_spans(outer, inner, true)).chain(of_spans(second, third, false));
    let wanted: Vec<_> = wanted.collect();
    assert_eq!(shown::shown(), wanted);
    let is_severe = |line: &&String| line.starts_with("ERROR ") || line.starts_with("WARN ");
    assert_eq!(shown::shown_from("warn"), wanted.iter().filter(is_severe).cloned().collect::<Vec<_>>());
}
