//! The binding says what the header says: its constants, its words, its version; and the library's version serves it.
use shrikemuff::{library_version, serves, Fault, Refusal, VERSION};

const HEADER: &str = include_str!("../../../include/shrikemuff.h");
const NUMBERS: &str = include_str!("../src/numbers.rs");

/// The constants of a text, each by its name: on a line of its own stand `before`, the name, `between` and the number.
fn constants(text: &str, before: &str, between: &str) -> Vec<(String, u32)> {
    let found = text.lines().filter_map(|line| {
        let (name, rest) = line.trim_start().strip_prefix(before)?.split_once(between)?;
        let digits = rest.trim_start_matches("u32 = ").trim_start_matches("usize = ").replace('_', "");
        let digits = digits.split(|c: char| !c.is_ascii_digit()).next()?.parse().ok()?;
        Some((name.to_string(), digits))
    });
    found.collect()
}

#[test]
fn same_constants() {
    let mut header = constants(HEADER, "#define SHRIKE_", " ");
    header.retain(|(name, _)| name.starts_with("VERSION_"));
    header.extend(constants(HEADER, "SHRIKE_", " = "));
    assert!(header.len() > 60);
    assert_eq!(constants(NUMBERS, "pub const ", ": "), header);
}

#[test]
fn same_words() {
    let of = |name: &str| constants(HEADER, "SHRIKE_", " = ").iter().find(|c| c.0 == name).map(|c| c.1);
    let said = HEADER.lines().filter_map(|line| {
        let (name, words) = line.trim().strip_prefix("case SHRIKE_")?.split_once(": return \"")?;
        Some((of(name), words.trim_end_matches("\";").to_string()))
    });
    let due = Refusal::ALL.iter().map(|refusal| (refusal.number(), refusal.words().to_string()));
    let done = (Some(0), "valid, or done".to_string());
    assert_eq!(said.collect::<Vec<_>>(), std::iter::once(done).chain(due).collect::<Vec<_>>());
    let other = format!("default: return \"{}\";", Refusal::Unknown(0));
    assert!(HEADER.contains(&other));
}

#[test]
fn words_of_faults() {
    let said: Vec<String> = Refusal::ALL.iter().map(|&refusal| Fault { refusal, place: 5 }.to_string()).collect();
    assert_eq!(
        said,
        [
            "broken number",
            "schema value, form or limit",
            "ambiguous model",
            "no shape, or bad piece",
            "too large, or no room",
            "operation or place",
            "name at 5",
            "attributes at 5",
            "content at 5",
            "root at 5",
            "ID twice at 5",
            "reference to none at 5",
            "table",
            "DTD text",
            "counts",
            "kind not compared"
        ]
    );
    let numbers: Vec<u32> = Refusal::ALL.iter().filter_map(|refusal| refusal.number()).collect();
    assert_eq!(numbers, [1, 2, 3, 4, 5, 6, 7, 8, 9, 10, 11, 12, 13, 14, 15, 16]);
}

#[test]
fn versions() {
    assert_eq!(library_version(), VERSION);
    let parts = [VERSION / 1_000_000, VERSION / 1_000 % 1_000, VERSION % 1_000].map(|part| part.to_string());
    assert_eq!(parts.join("."), env!("CARGO_PKG_VERSION"));
    let served: Vec<bool> = [0, 1, 1_000, 1_000_000].iter().map(|more| serves(VERSION + more)).collect();
    assert_eq!(served, [true, true, true, false]);
    assert!(!serves(VERSION - 1_000));
    assert_eq!(Refusal::Version(VERSION).number(), None);
    assert_eq!(Refusal::Unknown(77).number(), Some(77));
}
