//! DTD texts: one at the limits, hostile ones, and small ones by chance.

use crate::documents::Dice;

/// A text of more bytes is a hostile one.
pub const ORDINARY: usize = 16_384;
/// A hostile text has so many bytes.
const HOSTILE: usize = 65_536;
const ELEMENTS: [&str; 48] = [
    "shade", "panel", "row", "use", "note", "pattern", "yarn", "gauge", "needle", "stitch", "round", "repeat", "chart", "legend", "symbol",
    "colour", "swatch", "frame", "ring", "wire", "lamp", "socket", "cover", "seam", "hem", "border", "edge", "lace", "cable", "ridge",
    "purl", "knit", "slip", "cast", "bind", "join", "turn", "decrease", "increase", "marker", "label", "caption", "figure", "author",
    "source", "edition", "price", "kit",
];
const ATTRIBUTES: [&str; 64] = [
    "title",
    "id",
    "panel-id",
    "of",
    "width",
    "height",
    "depth",
    "weight",
    "count",
    "rows",
    "columns",
    "start",
    "end",
    "from",
    "to",
    "side",
    "face",
    "tension",
    "ply",
    "fibre",
    "brand",
    "lot",
    "shade-code",
    "hex",
    "tone",
    "hue",
    "light",
    "dark",
    "scale",
    "unit",
    "size",
    "small",
    "large",
    "left",
    "right",
    "top",
    "bottom",
    "front",
    "back",
    "inner",
    "outer",
    "first",
    "last",
    "next",
    "previous",
    "order",
    "group",
    "class",
    "type",
    "kind",
    "state",
    "date",
    "time",
    "zone",
    "lang",
    "space",
    "base",
    "href",
    "target",
    "media",
    "print",
    "draft",
    "version",
    "rate",
];

/// Each with its name, the answer, and whether libxml2 takes it too.
pub fn all() -> Vec<(&'static str, Vec<u8>, u32, bool)> {
    vec![
        ("small shade's text", include_bytes!("../../samples/small-shade/shade.dtd").to_vec(), 0, true),
        ("48 elements, 64 attributes, 8 KB", whole(|k| ELEMENTS[k % 48].to_string(), |k| ATTRIBUTES[k % 64].to_string()), 0, true),
        (
            "the same, names alike but for their ends",
            whole(|k| format!("element-{}", k % 48), |k| format!("attribute-{}", k % 64)),
            0,
            true,
        ),
        ("((((.. to the end", b"<!ELEMENT a ".iter().copied().chain([b'('; HOSTILE - 12]).collect(), 14, false),
        ("((((a))))", nested(1, HOSTILE / 2 - 16, b"(", b"a", b")"), 0, false),
        ("(((a),a),a)..", nested(4, HOSTILE - 16, b"(", b"a", b"),a"), 2, false),
        ("(a,(a,(a..", nested(4, HOSTILE - 16, b"(a,", b"a", b")"), 2, false),
        ("ATTLISTs of different names", lists(|k| format!("<!ATTLIST e{}>", k)), 14, false),
        ("ATTLISTs of one name", lists(|_| "<!ATTLIST a>".to_string()), 0, true),
        ("48 other names, then ATTLISTs of one", lists(|k| format!("<!ATTLIST e{}>", k.min(48))), 14, false),
    ]
}

/// 48 elements in some 8 KB: models of several names, ATTLISTs of one to four of 64 attributes, comments.
fn whole(element: impl Fn(usize) -> String, attribute: impl Fn(usize) -> String) -> Vec<u8> {
    const KINDS: [&str; 4] = ["CDATA", "ID", "IDREF", "IDREFS"];
    let mut text = String::new();
    let mut attributes = 0;
    for e in 0..ELEMENTS.len() {
        let name = |k: usize| element(e + k);
        text += &format!("<!-- {}: one of the parts of a pattern -->\n", name(0));
        let content = match e % 4 {
            0 => format!("({}, ({} | {})*, {}?)", name(1), name(2), name(3), name(4)),
            1 => format!("(({}+ | {}), {}*)", name(5), name(6), name(7)),
            2 => "(#PCDATA)".to_string(),
            _ => "EMPTY".to_string(),
        };
        text += &format!("<!ELEMENT {} {}>\n<!ATTLIST {}", name(0), content, name(0));
        for k in 0..1 + e % 4 {
            let kind = if k == 1 { 1 } else { [0, 2, 3][(e + k) % 3] };
            let status = if (e + k) % 2 == 0 { "#IMPLIED" } else { "#REQUIRED" };
            text += &format!("\n          {} {} {}", attribute(attributes), KINDS[kind], status);
            attributes += 1;
        }
        text += ">\n\n";
    }
    text.into_bytes()
}

/// A model: `before` and `after` round the middle, as often as `bytes` allow for the two with `per` bytes.
fn nested(per: usize, bytes: usize, before: &[u8], middle: &[u8], after: &[u8]) -> Vec<u8> {
    let times = bytes / per;
    let outer = if before == b"(" && after == b"),a" { 1 } else { 0 };
    let mut text = b"<!ELEMENT a ".to_vec();
    text.extend(b"(".repeat(outer));
    text.extend(before.repeat(times));
    text.extend(middle);
    text.extend(after.repeat(times));
    text.extend(b")".repeat(outer));
    text.push(b'>');
    text
}

/// An element `a`, and ATTLISTs, as many as fit.
fn lists(list: impl Fn(usize) -> String) -> Vec<u8> {
    let mut text = "<!ELEMENT a EMPTY>".to_string();
    let mut k = 0;
    loop {
        let next = list(k);
        if text.len() + next.len() > HOSTILE {
            return text.into_bytes();
        }
        text += &next;
        k += 1;
    }
}

/// A few declarations of a few names.
pub fn by_chance(dice: &mut Dice) -> Vec<u8> {
    let mut text = String::new();
    let mut elements = 0;
    for _ in 0..1 + dice.below(6) {
        let name = |dice: &mut Dice| ["a", "b", "ID", "x-1", "EMPTY"][dice.below(5) as usize];
        text += match dice.below(6) {
            0 => "<!-- a -->\n",
            1 => " ",
            _ => "",
        };
        if dice.below(3) > 0 && elements < 5 {
            text += &format!("<!ELEMENT {} {}>", ["a", "b", "ID", "x-1", "EMPTY"][elements], content(dice, 3));
            elements += 1;
        } else {
            text += &format!("<!ATTLIST {}", name(dice));
            for _ in 0..dice.below(3) {
                let kind = ["CDATA", "ID", "IDREF", "IDREFS"][dice.below(4) as usize];
                let status = ["#IMPLIED", "#REQUIRED"][dice.below(2) as usize];
                text += &format!(" {} {} {}", name(dice), kind, status);
            }
            text += ">";
        }
    }
    text.into_bytes()
}

fn content(dice: &mut Dice, deep: u32) -> String {
    match dice.below(4) {
        0 => "EMPTY".to_string(),
        1 => "( #PCDATA)".to_string(),
        _ => group(dice, deep),
    }
}

fn group(dice: &mut Dice, deep: u32) -> String {
    let separator = [",", " | "][dice.below(2) as usize];
    let parts: Vec<String> = (0..1 + dice.below(3))
        .map(|_| match deep > 0 && dice.below(3) == 0 {
            true => group(dice, deep - 1),
            false => ["a", "b", "ID"][dice.below(3) as usize].to_string() + suffix(dice),
        })
        .collect();
    format!("({}){}", parts.join(separator), suffix(dice))
}

fn suffix(dice: &mut Dice) -> &'static str {
    ["", "", "?", "*", "+"][dice.below(5) as usize]
}
