//! The header's text against the crate: version, format codes, refusals and named sets.

use std::collections::BTreeMap;

use wentuqis::Refusal;
use wentuqis::pixel_convert::YuvSet;

const HEADER: &str = include_str!("../../include/wentuqis.h");
const FORMATS: &str = include_str!("../src/format.rs");

/// What follows a word on the lines that begin with it, blanks left out on both sides.
fn after<'a>(text: &'a str, word: &'a str) -> impl Iterator<Item = &'a str> {
    text.lines()
        .filter_map(move |line| line.trim().strip_prefix(word))
        .map(str::trim)
}

/// A number in decimal, in hexadecimal after 0x, or as Rust makes one of four letters.
fn number(text: &str) -> u32 {
    if let Some(digits) = text.strip_prefix("0x") {
        return u32::from_str_radix(digits, 16).unwrap();
    }
    match text.split_once("b\"") {
        Some((_, letters)) => u32::from_le_bytes(letters.as_bytes()[..4].try_into().unwrap()),
        None => text.parse().unwrap(),
    }
}

/// `NAME = NUMBER` of an enum, the comma and what follows it left out.
fn named_number(line: &str) -> Option<(&str, u32)> {
    let (name, rest) = line.split_once(" = ")?;
    let end = rest.find([',', ' ']).unwrap_or(rest.len());
    Some((name, number(&rest[..end])))
}

#[test]
fn the_version_is_the_crates() {
    let version: Vec<&str> = after(HEADER, "#define WENTUQIS_VERSION ").collect();
    assert_eq!(version, [format!("\"{}\"", env!("CARGO_PKG_VERSION"))]);
}

#[test]
fn the_format_codes_are_the_crates() {
    let header: BTreeMap<&str, u32> = after(HEADER, "WENTUQIS_FMT_")
        .filter_map(named_number)
        .collect();
    let ours: BTreeMap<&str, u32> = after(FORMATS, "D3DFMT_")
        .filter_map(|line| {
            let mut parts = line.strip_suffix(';')?.splitn(3, ' ');
            Some((parts.next()?, number(parts.nth(1)?)))
        })
        .collect();
    assert_eq!(header, ours);
    assert_eq!(header.len(), 34);
}

#[test]
fn the_replies_are_the_crates() {
    let replies: BTreeMap<&str, u32> = after(HEADER, "WENTUQIS_")
        .filter(|line| !line.starts_with("FMT_"))
        .filter_map(named_number)
        .collect();
    assert_eq!(replies.len(), 16);
    let cases: Vec<&str> = after(HEADER, "case WENTUQIS_").collect();
    assert_eq!(cases.len(), 16);
    let texts = after(HEADER, "return ").map(|text| text.trim_matches(['"', ';']));
    for (name, text) in cases.iter().map(|it| it.trim_end_matches(':')).zip(texts) {
        let short = match Refusal::from_number(replies[name]) {
            Some(refusal) => format!("{refusal}: "),
            None => "accepted".to_owned(),
        };
        assert!(text.starts_with(&short), "{name}: {text}");
    }
}

#[test]
fn the_named_sets_are_the_crates() {
    for (name, set) in [("BT601", YuvSet::BT601), ("BT709", YuvSet::BT709)] {
        let word = format!("#define WENTUQIS_{name} ");
        let numbers = [
            set.luma_gain,
            set.luma_offset,
            set.v_to_red,
            set.u_to_green,
            set.v_to_green,
            set.u_to_blue,
            set.chroma_centre,
        ];
        let listed = numbers.map(|it| it.to_string()).join(", ");
        let found: Vec<&str> = after(HEADER, &word).collect();
        assert_eq!(found, [format!("{{{listed}}}")]);
    }
}
