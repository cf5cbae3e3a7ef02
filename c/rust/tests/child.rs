//! The recorder of a child that is forked, with rings per CPU as that of its parent has them.
use std::env::{temp_dir, var};
use std::ffi::c_int;
use std::fs::remove_file;
use std::path::Path;
use std::process::{id, Command};
use tracering::flight::{self, Config};
use tracering::trace;

extern "C" {
    fn fork() -> c_int;
    fn waitpid(process: c_int, status: *mut c_int, options: c_int) -> c_int;
    fn _exit(status: c_int) -> !;
}

/// The texts of a file's events.
fn shown(file: &Path) -> Vec<String> {
    let folder = var("TRACERING_LIB").unwrap_or(concat!(env!("CARGO_MANIFEST_DIR"), "/../../out").to_string());
    let output = Command::new(folder + "/tracering-flight").arg("show").arg(file).output().unwrap();
    assert!(output.status.success(), "{output:?}");
    let text_of = |line: &str| Some(line.split_once("] ")?.1.to_string());
    String::from_utf8(output.stdout).unwrap().lines().skip(1).filter_map(text_of).collect()
}

/// What the child does; whether it all went well.
fn records_in_child() -> bool {
    trace!("without a recorder, in {}", id());
    let is_started = flight::start_in_child().is_ok() && flight::start_in_child().is_err();
    trace!("recorded in {}", id());
    is_started
}

#[test]
fn a_child_has_a_recorder_of_its_own() {
    assert!(flight::start_in_child().is_err());
    let path = |name: &str| temp_dir().join(format!("tracering-child-{}-{name}.flight", id()));
    let given = path("%p");
    flight::start(&Config { threads: 2, file: Some(&given), per_cpu: true, ..Default::default() }).unwrap();
    assert!(flight::start_in_child().is_err());
    trace!("recorded in {}", id());

    let child = unsafe { fork() };
    if child == 0 {
        let status = if records_in_child() { 0 } else { 1 };
        unsafe { _exit(status) }
    }
    let mut status = 0;
    assert_eq!(unsafe { waitpid(child, &mut status, 0) }, child);
    assert_eq!(status, 0);
    for process in [id(), child as u32] {
        let file = path(&process.to_string());
        assert_eq!(shown(&file), [format!("recorded in {process}")]);
        remove_file(file).unwrap();
    }
}
