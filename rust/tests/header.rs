//! Compares what `src/ffi.rs` and the enums of the crate declare with `textmodel.h`. Without the header beside the
//! crate it is skipped.

use std::collections::BTreeSet;
use std::path::Path;
use textmodel::{Encoding, Ending, Hiding, Stick};

const FFI: &str = include_str!("../src/ffi.rs");
/// What the header has for its inline functions alone.
const INLINE_STRUCTS: [&str; 3] = ["tm_hiding", "tm_opening", "tm_search"];
/// The statuses that no call of this crate can be answered with.
const NOT_HERE: [&str; 2] = ["ENCODING", "EMPTY"];

/// The text without what stands between the two, with one blank for each run of blanks.
fn without(text: &str, opening: &str, closing: &str) -> String {
    let mut left = String::new();
    let mut parts = text.split(opening);
    left.push_str(parts.next().unwrap_or_default());
    for part in parts {
        left.push_str(part.split_once(closing).map_or("", |(_, behind)| behind));
        left.push(' ');
    }
    left.split_whitespace().collect::<Vec<_>>().join(" ")
}

fn header() -> Option<String> {
    let path = Path::new(env!("CARGO_MANIFEST_DIR")).join("../crates/textmodel_c/textmodel.h");
    let Ok(text) = std::fs::read_to_string(&path) else {
        eprintln!("skipped: there is no {}", path.display());
        return None;
    };
    Some(without(&text, "/*", "*/"))
}

/// `tm_new_decoration` is NewDecoration here.
fn camel(name: &str) -> String {
    let words = name.trim_start_matches("tm_").split('_');
    words.map(|word| word[..1].to_uppercase() + &word[1..]).collect()
}

fn rust_type(c: &str) -> String {
    let (is_const, c) = match c.strip_prefix("const ") {
        Some(rest) => (true, rest),
        None => (false, c),
    };
    let (is_pointer, base) = match c.strip_suffix('*') {
        Some(rest) => (true, rest.trim()),
        None => (false, c.trim()),
    };
    let base = match base {
        "uint8_t" => "u8".to_owned(),
        "uint16_t" => "u16".to_owned(),
        "uint32_t" => "u32".to_owned(),
        "uint64_t" => "u64".to_owned(),
        "size_t" => "usize".to_owned(),
        "bool" => "bool".to_owned(),
        "void" => "c_void".to_owned(),
        name => camel(name),
    };
    match (is_pointer, is_const) {
        (false, _) => base,
        (true, true) => format!("*const {base}"),
        (true, false) => format!("*mut {base}"),
    }
}

/// `const uint8_t *text` is `text: *const u8` here.
fn declared(c: &str) -> String {
    let name = c.rsplit([' ', '*']).next().unwrap();
    format!("{name}: {}", rust_type(c[..c.len() - name.len()].trim()))
}

fn functions_of_header(header: &str) -> BTreeSet<String> {
    let mut found = BTreeSet::new();
    for (at, start) in header.match_indices("uint32_t tm_") {
        let (name, rest) = header[at + "uint32_t ".len()..].split_once('(').unwrap();
        let (parameters, behind) = rest.split_once(')').unwrap();
        if !behind.starts_with(';') || !name.chars().all(|c| c.is_alphanumeric() || c == '_') {
            continue;
        }
        assert!(!header[..at].ends_with("inline "), "{start}");
        let parameters = parameters.split(", ").filter(|it| *it != "void").map(declared);
        let parameters: Vec<_> = parameters.collect();
        found.insert(format!("pub fn {name}({}) -> u32;", parameters.join(", ")));
    }
    found
}

fn structs_of_header(header: &str) -> BTreeSet<String> {
    let mut found = BTreeSet::new();
    for part in header.split("typedef struct ").skip(1) {
        let (name, rest) = part.split_once(" { ").unwrap();
        if INLINE_STRUCTS.contains(&name) {
            continue;
        }
        let (fields, _) = rest.split_once('}').unwrap();
        let fields = fields.split(';').map(str::trim).filter(|it| !it.is_empty());
        let fields: Vec<_> = fields.map(|it| format!("pub {},", declared(it))).collect();
        found.insert(format!("pub struct {} {{ {} }}", camel(name), fields.join(" ")));
    }
    found
}

fn numbers_of_header<'h>(header: &'h str, name: &str) -> Vec<(&'h str, u32)> {
    let (_, body) = header.split_once(&format!("enum {name} {{")).unwrap();
    let items = body.split_once('}').unwrap().0.split(',').map(str::trim);
    let pairs = items.filter_map(|item| item.split_once(" = "));
    pairs.map(|(name, number)| (&name[3..], number.parse().unwrap())).collect()
}

/// What is within braces behind the name of a constant.
fn words_of<'h>(header: &'h str, name: &str) -> Vec<&'h str> {
    let (_, rest) = header.split_once(&format!("{name} = {{")).unwrap();
    rest.split_once('}').unwrap().0.split(", ").collect()
}

#[test]
fn functions_are_those_of_the_header() {
    let Some(header) = header() else { return };
    let ours = FFI.lines().map(str::trim).filter(|it| it.starts_with("pub fn "));
    let theirs = functions_of_header(&header);
    assert!(theirs.len() > 50);
    assert_eq!(ours.map(str::to_owned).collect::<BTreeSet<_>>(), theirs);
}

#[test]
fn structs_are_those_of_the_header() {
    let Some(header) = header() else { return };
    let code: Vec<_> = FFI.lines().filter(|it| !it.trim().starts_with("//")).collect();
    let code = code.join(" ").split_whitespace().collect::<Vec<_>>().join(" ");
    let parts = code.split("#[repr(C)] ").skip(1);
    let ours: BTreeSet<_> =
        parts.map(|it| it[it.find("pub struct").unwrap()..=it.find('}').unwrap()].to_owned()).collect();
    assert_eq!(ours.len(), code.matches("pub struct ").count());
    assert_eq!(ours, structs_of_header(&header));
}

#[test]
fn statuses_are_those_of_the_header() {
    let Some(header) = header() else { return };
    let theirs = numbers_of_header(&header, "tm_status");
    let theirs = theirs.into_iter().filter(|(name, _)| !NOT_HERE.contains(name));
    let theirs: BTreeSet<_> = theirs.map(|(name, n)| format!("pub const {name}: u32 = {n};")).collect();
    let ours = FFI.lines().filter(|it| it.starts_with("pub const "));
    assert_eq!(ours.map(str::to_owned).collect::<BTreeSet<_>>(), theirs);
}

#[test]
fn enums_are_those_of_the_header() {
    let Some(header) = header() else { return };
    let encodings = [Encoding::Utf8 as u32, Encoding::Utf16 as u32, Encoding::Utf32 as u32];
    let theirs = numbers_of_header(&header, "tm_encoding");
    assert_eq!(theirs, ["UTF8", "UTF16", "UTF32"].into_iter().zip(encodings).collect::<Vec<_>>());
    let endings = [Ending::Mixed as u32, Ending::Lf as u32, Ending::CrLf as u32];
    let theirs = numbers_of_header(&header, "tm_ending");
    assert_eq!(theirs, ["MIXED", "LF", "CRLF"].into_iter().zip(endings).collect::<Vec<_>>());
    let sticks = [Stick::Both, Stick::Neither, Stick::Start, Stick::End];
    assert_eq!(sticks.map(|it| it as u32), [0, 1, 2, 3]);
}

#[test]
fn ready_made_marks_are_those_of_the_header() {
    let Some(header) = header() else { return };
    let ours = [
        ("c", Hiding::c()),
        ("rust", Hiding::rust()),
        ("javascript", Hiding::javascript()),
        ("python", Hiding::python()),
        ("shell", Hiding::shell()),
    ];
    assert_eq!(header.matches("static const tm_hiding tm_hiding_").count(), ours.len());
    for (name, ours) in ours {
        let words = words_of(&header, &format!("tm_hiding_{name}"));
        let numbers: Vec<usize> = words[1..].iter().map(|it| it.parse().unwrap()).collect();
        let quoted = words_of(&header, &format!("{}[]", words[0]));
        let texts = quoted.iter().map(|it| it.trim_matches('\'').trim_start_matches('\\'));
        let texts: String = texts.map(|it| if it.is_empty() { "'" } else { it }).collect();
        let (line, rest) = texts[..numbers[0]].split_at(numbers[1]);
        let (opening, rest) = rest.split_at(numbers[2]);
        let (closing, quotes) = rest.split_at(numbers[3]);
        let theirs = Hiding::new().line(line).block(opening, closing);
        assert_eq!(quotes.chars().fold(theirs, Hiding::quote), ours, "{name}");
    }
}
