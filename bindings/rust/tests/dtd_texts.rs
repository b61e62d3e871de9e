//! DTD texts by the binding: the small shade's, each refusal with its spot, and lines and columns.
use shrikemuff::{import, import_spot, names, Refusal, Spot, Table, MOST_SCHEMA_FILE};

const SHADE: &[u8] = include_bytes!("../../../samples/small-shade/shade.dtd");
const SCHEMA: &[u8] = include_bytes!("../../../samples/small-shade/schema.dat");
const NAMES: &[u8] = b"shade\npanel\nrow\nuse\ntitle\nid\npanel\n";
const BEHIND: u8 = 99;

#[test]
fn small_shade() {
    let mut file = [BEHIND; 40];
    assert_eq!(import(SHADE, &mut file), Ok(SCHEMA.len()));
    assert_eq!(file[..SCHEMA.len()], *SCHEMA);
    assert!(file[SCHEMA.len()..].iter().all(|&byte| byte == BEHIND));
    assert!(Table::translate(&file[..SCHEMA.len()]).is_ok());
    let mut list = [BEHIND; 40];
    assert_eq!(names(SHADE, &mut list), Ok(NAMES.len()));
    assert_eq!(list[..NAMES.len()], *NAMES);
    assert!(list[NAMES.len()..].iter().all(|&byte| byte == BEHIND));
    assert_eq!(import_spot(SHADE), Ok(()));
}

/// A text is refused by all three calls, alike, and nothing is written.
#[track_caller]
fn refused(text: &[u8], refusal: Refusal, offset: usize) {
    let mut file = [BEHIND; MOST_SCHEMA_FILE];
    assert_eq!(import(text, &mut file), Err(refusal));
    assert_eq!(names(text, &mut file), Err(refusal));
    assert_eq!(file, [BEHIND; MOST_SCHEMA_FILE]);
    assert_eq!(import_spot(text), Err(Spot { refusal, offset }));
}

#[test]
fn refusals() {
    refused(b"", Refusal::DtdText, 0);
    refused(b"<!ELEMENT a EMPTY", Refusal::DtdText, 17);
    refused(b"<!ELEMENT a ANY>", Refusal::DtdText, 12);
    refused(b"<!ELEMENT a (b) *><!ELEMENT b EMPTY>", Refusal::DtdText, 16);
    refused(b"<!ELEMENT a EMPTY><!ELEMENT a EMPTY>", Refusal::DtdText, 28);
    refused(b"<!ELEMENT a (c)><!ELEMENT b EMPTY>", Refusal::DtdText, 13);
    refused(b"<!ELEMENT a EMPTY><!ATTLIST a i ID #IMPLIED j ID #IMPLIED>", Refusal::Schema, 46);
    assert_eq!(import(SHADE, &mut [0; 27]), Err(Refusal::Room));
    assert_eq!(names(SHADE, &mut [0; 34]), Err(Refusal::Room));
    assert_eq!(import(SHADE, &mut []), Err(Refusal::Room));
}

#[test]
fn lines_and_columns() {
    let text = b"<!ELEMENT a EMPTY>\n\n  <!ELEMENT b (a,|)>";
    let spot = import_spot(text).unwrap_err();
    assert_eq!(spot.line_and_column(text), (3, 18));
    assert_eq!(spot.to_string(), "DTD text at byte 37");
    assert_eq!(Spot::from(Refusal::DtdText).line_and_column(text), (1, 1));
    let at = |offset| Spot { refusal: Refusal::DtdText, offset }.line_and_column(b"ab\ncd\n");
    assert_eq!([0, 2, 3, 5, 6, 7].map(at), [(1, 1), (1, 3), (2, 1), (2, 3), (3, 1), (3, 1)]);
}
