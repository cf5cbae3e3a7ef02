//! A layer for the crate `tracing`.
use crate::kept::{escaped, place, Kept, Origin};
use std::fmt::{self, Debug, Display, Write};
use std::iter::Take;
use std::ptr;
use std::sync::OnceLock;
use tracering::flight::{self, Argument, Place, Text, Values, MOST_ARGUMENTS};
use tracing_core::field::{Field, Iter, Visit};
use tracing_core::span::{Attributes, Id, Record};
use tracing_core::{Event, Level, Metadata, Subscriber};
use tracing_subscriber::layer::{Context, Layer};
use tracing_subscriber::registry::LookupSpan;

/// A layer that records events and spans in the flight recorder. It filters nothing: that is for other layers, and for
/// [`tracering::flight::switch`].
#[derive(Clone, Copy, Debug, Default)]
pub struct FlightLayer;

/// What there is to say of a callsite.
#[derive(Clone, Copy, PartialEq, Eq)]
enum Occasion {
    Event,
    EventIn,
    Begin,
    BeginIn,
    Addition,
    Enter,
    Leave,
    End,
}

const OCCASIONS: usize = Occasion::End as usize + 1;

impl Occasion {
    /// How many spans it is said of.
    fn spans(self) -> usize {
        match self {
            Occasion::Event => 0,
            Occasion::BeginIn => 2,
            _ => 1,
        }
    }

    fn is_event(self) -> bool {
        matches!(self, Occasion::Event | Occasion::EventIn)
    }

    /// How many fields it has, each with a value, if none is absent.
    fn fields(self, metadata: &Metadata) -> usize {
        match self.is_event() || matches!(self, Occasion::Begin | Occasion::BeginIn) {
            true => metadata.fields().len(),
            false => 0,
        }
    }

    /// Writes what is before the fields.
    fn write_lead(self, to: &mut impl Write, spans: [&dyn Display; 2], name: &str) -> fmt::Result {
        let [span, parent] = spans;
        match self {
            Occasion::Event => Ok(()),
            Occasion::EventIn => write!(to, "span {span}: "),
            Occasion::Begin => write!(to, "span {span} begins: {name}"),
            Occasion::BeginIn => write!(to, "span {span} begins in span {parent}: {name}"),
            Occasion::Addition => write!(to, "span {span} has: {name}"),
            Occasion::Enter => write!(to, "span {span} is entered: {name}"),
            Occasion::Leave => write!(to, "span {span} is left: {name}"),
            Occasion::End => write!(to, "span {span} ends: {name}"),
        }
    }

    /// Writes a field. `is_first`: no field is before it.
    fn write_field(self, to: &mut impl Write, is_first: bool, name: &str, value: fmt::Arguments) -> fmt::Result {
        let space = if self.is_event() && is_first { "" } else { " " };
        match name {
            "message" => write!(to, "{space}{value}"),
            _ => write!(to, "{space}{name}={value}"),
        }
    }

    /// The format of its values, and how many these are: if they are too many, none is ever recorded as a value.
    fn format(self, metadata: &Metadata) -> (String, usize) {
        let (mut format, fields) = (String::new(), self.fields(metadata));
        let _ = self.write_lead(&mut format, [&"{}", &"{}"], &escaped(metadata.name()));
        for (at, field) in metadata.fields().iter().take(fields).enumerate() {
            let _ = self.write_field(&mut format, at == 0, &escaped(field.name()), format_args!("{{}}"));
        }
        (format, MOST_ARGUMENTS.min(self.spans() + fields))
    }
}

/// The recorder's level of what has this one.
fn level_of(level: &Level) -> flight::Level {
    match *level {
        Level::ERROR => flight::Level::Error,
        Level::WARN => flight::Level::Warning,
        Level::INFO => flight::Level::Info,
        Level::DEBUG => flight::Level::Debug,
        Level::TRACE => flight::Level::Trace,
    }
}

/// A callsite, and its place for each occasion that came.
struct Callsite {
    metadata: &'static Metadata<'static>,
    places: [OnceLock<Place>; OCCASIONS],
}

/// The callsites of which something was said.
static CALLSITES: Kept<Callsite> = Kept::new();

impl Callsite {
    fn of(metadata: &'static Metadata<'static>) -> &'static Callsite {
        let hash = ptr::from_ref(metadata) as usize / align_of::<Metadata>();
        let make = || Callsite { metadata, places: [const { OnceLock::new() }; OCCASIONS] };
        CALLSITES.get(hash, |callsite| ptr::eq(callsite.metadata, metadata), make)
    }

    fn place(&'static self, occasion: Occasion) -> &'static Place {
        self.places[occasion as usize].get_or_init(|| {
            let (format, count) = occasion.format(self.metadata);
            let (target, file, line) = (self.metadata.target(), self.metadata.file(), self.metadata.line());
            place(&Origin { level: level_of(self.metadata.level()), target, file, line }, &format, count)
        })
    }
}

/// Records what there is to say of a callsite, with the ids of its spans, and its fields.
fn record(
    metadata: &'static Metadata<'static>, occasion: Occasion, spans: [u64; 2], fields: &dyn Fn(&mut dyn Visit),
) {
    let place = Callsite::of(metadata).place(occasion);
    if !place.is_on() {
        return;
    }
    let count = occasion.fields(metadata);
    let fit = occasion.spans() + count <= MOST_ARGUMENTS;
    let mut taken = FieldValues { values: Values::new(), wanted: metadata.fields().iter().take(count), fit };
    for span in &spans[..occasion.spans()] {
        taken.fit &= taken.values.put(*span);
    }
    if taken.fit {
        fields(&mut taken);
    }
    match taken.fit && taken.wanted.next().is_none() {
        true => taken.values.record(place),
        false => place.record_text(|text| {
            occasion.write_lead(text, [&spans[0], &spans[1]], metadata.name())?;
            let mut written = FieldText { text, occasion, is_first: true, result: Ok(()) };
            fields(&mut written);
            written.result
        }),
    }
}

/// The fields as values of an event, as long as they `fit`: each is the next one that is wanted, and is whole.
struct FieldValues {
    values: Values,
    wanted: Take<Iter>,
    fit: bool,
}

impl FieldValues {
    fn put(&mut self, field: &Field, value: impl Argument) {
        self.fit = self.fit && self.wanted.next().as_ref() == Some(field) && self.values.put(value);
    }
}

impl Visit for FieldValues {
    fn record_f64(&mut self, field: &Field, value: f64) {
        self.put(field, value);
    }

    fn record_i64(&mut self, field: &Field, value: i64) {
        self.put(field, value);
    }

    fn record_u64(&mut self, field: &Field, value: u64) {
        self.put(field, value);
    }

    fn record_bool(&mut self, field: &Field, value: bool) {
        self.put(field, value);
    }

    fn record_str(&mut self, field: &Field, value: &str) {
        self.put(field, value);
    }

    fn record_debug(&mut self, field: &Field, value: &dyn Debug) {
        self.put(field, format_args!("{value:?}"));
    }
}

/// The fields as they are written.
struct FieldText<'a> {
    text: &'a mut Text,
    occasion: Occasion,
    is_first: bool,
    result: fmt::Result,
}

impl FieldText<'_> {
    fn write(&mut self, field: &Field, value: fmt::Arguments) {
        let written = self.occasion.write_field(self.text, self.is_first, field.name(), value);
        self.result = self.result.and(written);
        self.is_first = false;
    }
}

impl Visit for FieldText<'_> {
    fn record_f64(&mut self, field: &Field, value: f64) {
        self.write(field, format_args!("{value}"));
    }

    fn record_str(&mut self, field: &Field, value: &str) {
        self.write(field, format_args!("{value}"));
    }

    fn record_debug(&mut self, field: &Field, value: &dyn Debug) {
        self.write(field, format_args!("{value:?}"));
    }
}

/// Records something of a span, without its fields.
fn record_span<S: Subscriber + for<'a> LookupSpan<'a>>(id: &Id, context: &Context<'_, S>, occasion: Occasion) {
    if let Some(metadata) = context.metadata(id) {
        record(metadata, occasion, [id.into_u64(), 0], &|_| {});
    }
}

impl<S: Subscriber + for<'a> LookupSpan<'a>> Layer<S> for FlightLayer {
    fn on_event(&self, event: &Event<'_>, context: Context<'_, S>) {
        let fields = |visit: &mut dyn Visit| event.record(visit);
        match context.event_span(event) {
            Some(span) => record(event.metadata(), Occasion::EventIn, [span.id().into_u64(), 0], &fields),
            None => record(event.metadata(), Occasion::Event, [0; 2], &fields),
        }
    }

    fn on_new_span(&self, attributes: &Attributes<'_>, id: &Id, context: Context<'_, S>) {
        let (metadata, fields) = (attributes.metadata(), |visit: &mut dyn Visit| attributes.record(visit));
        match context.span(id).and_then(|span| span.parent()) {
            Some(parent) => {
                record(metadata, Occasion::BeginIn, [id.into_u64(), parent.id().into_u64()], &fields);
            }
            None => record(metadata, Occasion::Begin, [id.into_u64(), 0], &fields),
        }
    }

    fn on_record(&self, id: &Id, values: &Record<'_>, context: Context<'_, S>) {
        if let Some(metadata) = context.metadata(id) {
            record(metadata, Occasion::Addition, [id.into_u64(), 0], &|visit| values.record(visit));
        }
    }

    fn on_enter(&self, id: &Id, context: Context<'_, S>) {
        record_span(id, &context, Occasion::Enter);
    }

    fn on_exit(&self, id: &Id, context: Context<'_, S>) {
        record_span(id, &context, Occasion::Leave);
    }

    fn on_close(&self, id: Id, context: Context<'_, S>) {
        record_span(&id, &context, Occasion::End);
    }
}
