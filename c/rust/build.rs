//! Finds the library to link, and has the answers' texts from its header: so they are in one place. `README.md` says
//! where the library is looked for.
use std::path::{Path, PathBuf};
use std::process::{exit, Command};
use std::{env, fs};

/// The header: that of a package, or of the checkout which this is in.
const HEADERS: [&str; 2] = ["include/tracering.h", "../include/tracering.h"];

/// What is linked: the archive in a folder, or the shared library.
enum Library {
    Archive(PathBuf),
    Shared(PathBuf),
}

fn main() {
    let out = Path::new(&variable("OUT_DIR").unwrap_or_default()).join("texts.rs");
    let header = header();
    let texts = texts(&fs::read_to_string(header).unwrap_or_else(|why| refuse(&format!("{header}: {why}"))));
    fs::write(out, format!("const TEXTS: [&str; {}] = {texts:?};\n", texts.len())).unwrap();
    println!("cargo:rerun-if-changed={header}");
    for name in ["TRACERING_LIB", "PKG_CONFIG", "PKG_CONFIG_PATH", "PKG_CONFIG_LIBDIR", "PKG_CONFIG_SYSROOT_DIR"] {
        println!("cargo:rerun-if-env-changed={name}");
    }
    // (What makes pages of the comments alone has no library.)
    if variable("DOCS_RS").is_none() {
        link(&library());
    }
}

fn header() -> &'static str {
    let is_there = |header: &&str| Path::new(header).exists();
    HEADERS.into_iter().find(is_there).unwrap_or_else(|| refuse(&format!("there is no {}", HEADERS[0])))
}

fn link(library: &Library) {
    let (folder, kind) = match library {
        Library::Archive(folder) => (folder, "static"),
        Library::Shared(folder) => (folder, "dylib"),
    };
    println!("cargo:rustc-link-search=native={}", folder.display());
    println!("cargo:rustc-link-lib={kind}=tracering");
}

fn variable(name: &str) -> Option<String> {
    env::var(name).ok().filter(|value| !value.is_empty())
}

fn refuse(why: &str) -> ! {
    eprintln!("tracering: {why}");
    exit(1)
}

/// The archive that TRACERING_LIB names the folder of, or that of the checkout which this is in; or what is installed.
fn library() -> Library {
    if let Some(folder) = variable("TRACERING_LIB") {
        return archive(Path::new(&folder), "TRACERING_LIB names the folder that has it");
    }
    let checkout = fs::canonicalize("../..").unwrap_or_default();
    if checkout.join("tracering-lib").exists() {
        let hint = "./tracering-lib builds it, or TRACERING_LIB names the folder that has it";
        return archive(&checkout.join("out"), hint);
    }
    installed()
}

fn archive(folder: &Path, hint: &str) -> Library {
    let folder = fs::canonicalize(folder).unwrap_or(folder.to_path_buf());
    let file = folder.join("libtracering.a");
    if !file.exists() {
        refuse(&format!("there is no {}: {hint}", file.display()));
    }
    println!("cargo:rerun-if-changed={}", file.display());
    Library::Archive(folder)
}

/// The shared library that pkg-config knows, of this crate's version.
fn installed() -> Library {
    let (version, wanted) = (installed_word("--modversion"), env!("CARGO_PKG_VERSION"));
    if version.split('.').take(2).ne(wanted.split('.').take(2)) {
        refuse(&format!("version {version} of the library is installed, and this crate wants {wanted}"));
    }
    Library::Shared(PathBuf::from(installed_word("--variable=libdir")))
}

/// What pkg-config answers of the library.
fn installed_word(word: &str) -> String {
    let program = variable("PKG_CONFIG").unwrap_or("pkg-config".to_string());
    let hint = "TRACERING_LIB can name the folder that has libtracering.a";
    match Command::new(&program).args([word, "tracering"]).output() {
        Ok(ran) if ran.status.success() => unescaped(String::from_utf8_lossy(&ran.stdout).trim()),
        Ok(ran) => refuse(&format!("{}{hint}", String::from_utf8_lossy(&ran.stderr))),
        Err(why) => refuse(&format!("{program}, which finds the installed library, doesn't run: {why}; {hint}")),
    }
}

/// A path without the backslashes that pkg-config may put before its characters.
fn unescaped(path: &str) -> String {
    let mut letters = path.chars();
    let mut whole = String::new();
    while let Some(letter) = letters.next() {
        whole.push(if letter == '\\' { letters.next().unwrap_or(letter) } else { letter });
    }
    whole
}

/// The texts of the answers above 0: of `TRACERING_NAME = 1,` that which `case TRACERING_NAME: return "..";` has.
fn texts(header: &str) -> Vec<String> {
    let stated = |line: &str| {
        let (name, rest) = line.strip_prefix("    TRACERING_")?.split_once(" = ")?;
        let code: String = rest.chars().take_while(|next| next.is_ascii_digit()).collect();
        Some((code.parse::<usize>().ok().filter(|&code| code > 0)?, name.to_string()))
    };
    let mut names: Vec<_> = header.lines().filter_map(stated).collect();
    names.sort();
    let text_of = |name: &str| {
        let (_, after) = header.split_once(&format!("case TRACERING_{name}: return \""))?;
        after.split_once("\";").map(|(text, _)| text.to_string())
    };
    let no_text = |name: &str| -> String { refuse(&format!("the header has no text of {name}")) };
    names.iter().map(|(_, name)| text_of(name).unwrap_or_else(|| no_text(name))).collect()
}
