//! What is shown of all events.
use std::fs::remove_file;
use std::process::{id, Command};
use tracering::flight;

/// The texts of all events, dumped now.
pub fn shown() -> Vec<String> {
    listed(&[])
}

/// Those of this level, or of a more severe one.
pub fn shown_from(level: &str) -> Vec<String> {
    listed(&["--level", level])
}

fn listed(words: &[&str]) -> Vec<String> {
    let file = std::env::temp_dir().join(format!("tracering-bridges-{}", id()));
    flight::dump(&file).unwrap();
    let program = std::env::var("TRACERING_LIB").unwrap() + "/tracering-flight";
    let said = Command::new(program).arg("show").arg(&file).args(words).output().unwrap().stdout;
    remove_file(file).unwrap();
    let text_of = |line: &str| Some(line.split_once("] ")?.1.to_string());
    String::from_utf8(said).unwrap().lines().skip(1).filter_map(text_of).collect()
}
