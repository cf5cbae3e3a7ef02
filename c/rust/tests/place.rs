//! What the place of an event asks of its texts. It panics, so it is tried in a process of its own: the recorder's test
//! looks for the panic of one thread in what the recorder kept.
#![forbid(unsafe_code)]

use std::panic::catch_unwind;
use tracering::flight::{Formats, Place, MOST_ARGUMENTS};

#[test]
fn a_place_is_of_texts_with_zero_bytes() {
    let refused = |format: &'static str, file: &'static str, count| {
        catch_unwind(|| Place::new(Formats::of(format), file, 1, count)).is_err()
    };
    assert!(!refused("\0", "\0", MOST_ARGUMENTS));
    assert!(refused("", "\0", 0) && refused("x", "\0", 0) && refused("\0", "x", 0));
    assert!(refused("\0", "\0", MOST_ARGUMENTS + 1));
}
