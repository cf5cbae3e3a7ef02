//! What is made once for each place that says something, and found again without a lock.
use std::sync::OnceLock;
use tracering::flight::{Formats, Level, Place};

const BUCKETS: usize = 1024;

/// A place that something is made for, and those after it whose hashes are of the same bucket.
struct Node<T: 'static> {
    made: T,
    next: Link<T>,
}

type Link<T> = OnceLock<&'static Node<T>>;

/// All that was made. It is never freed.
pub(crate) struct Kept<T: 'static>([Link<T>; BUCKETS]);

impl<T> Kept<T> {
    pub(crate) const fn new() -> Kept<T> {
        Kept([const { OnceLock::new() }; BUCKETS])
    }

    /// What was made for the place that `is_it` knows, and has this hash; if there is nothing, it is made.
    pub(crate) fn get(&self, hash: usize, is_it: impl Fn(&T) -> bool, make: impl Fn() -> T) -> &T {
        let mut link = &self.0[hash % BUCKETS];
        loop {
            let node = link.get_or_init(|| Box::leak(Box::new(Node { made: make(), next: OnceLock::new() })));
            if is_it(&node.made) {
                return &node.made;
            }
            link = &node.next;
        }
    }
}

/// A text for a place, which is never freed.
pub(crate) fn leaked(text: &str) -> &'static str {
    Box::leak(format!("{text}\0").into_boxed_str())
}

/// A text in which no brace stands for an argument.
pub(crate) fn escaped(text: &str) -> String {
    text.replace('{', "{{").replace('}', "}}")
}

/// Where something is said, and how severe it is.
pub(crate) struct Origin<'a> {
    pub(crate) level: Level,
    pub(crate) target: &'a str,
    pub(crate) file: Option<&'a str>,
    pub(crate) line: Option<u32>,
}

/// The place of this origin, whose events are shown after their target: `count` values in the format `values`, or one
/// text.
pub(crate) fn place(origin: &Origin, values: &str, count: usize) -> Place {
    let head = format!("{}: ", escaped(origin.target));
    let formats = Formats {
        values: leaked(&format!("{head}{values}")),
        piece: leaked(&format!("{head}{{}}")),
        pieces: leaked(&format!("{head}{}", "{}".repeat(8))),
    };
    let file = leaked(origin.file.unwrap_or("?"));
    Place::new(formats, file, origin.line.unwrap_or(0), count).of_level(origin.level)
}
