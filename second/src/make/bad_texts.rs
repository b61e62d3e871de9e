//! DTD texts with a fault: damaged at a byte, with a declaration too many or too few, at a limit or past it.

use super::texts::{self, Spelled};
use crate::random::Random;

/// The small shade, damaged at each of its bytes in turn.
pub const SHADE: &str = "<!-- The small shade: é€\u{fffd}🧶 -->
<!ELEMENT shade (panel+, use*)><!ATTLIST shade title CDATA #REQUIRED>
<!ELEMENT panel (row*)>
<!ELEMENT row (#PCDATA)> <!ELEMENT use EMPTY>
<!ATTLIST panel id ID #REQUIRED> <!ATTLIST panel\tnote CDATA #IMPLIED other IDREFS #IMPLIED >
<!ATTLIST use of IDREF #REQUIRED>
";

/// Changes a text at a byte: another one there, one more, one less, the end, a stretch again, or two the other way round.
pub fn damage(random: &mut Random, text: &mut Vec<u8>, at: usize) {
    let byte = match random.below(4) {
        0 => random.bits() as u8,
        1 => *random.pick(b"\x00\x0b\x7f\x80\xbf\xc0\xc3\xe0\xed\xef\xf4\xff"),
        _ => *random.pick(b"<>!-()#,|?*+\"&;% \n\taEI:_.9DRXS"),
    };
    match random.below(6) {
        0 if at < text.len() => text[at] = byte,
        1 => text.insert(at, byte),
        2 if at < text.len() => {
            text.remove(at);
        }
        3 => text.truncate(at),
        4 => {
            let stretch: Vec<u8> = text[at..].iter().take(random.within(1, 30)).copied().collect();
            text.splice(at..at, stretch);
        }
        _ if at + 1 < text.len() => text.swap(at, at + 1),
        _ => text.push(byte),
    }
}

/// Slips of a writer or a reader: what stands in a text, and what instead of it.
const SLIPS: [(&str, &str); 24] = [
    (",", "|"),
    ("|", ","),
    (",", ""),
    (",", ",,"),
    (")", ") *"),
    (")", ""),
    ("(", "(("),
    ("(", "()("),
    (" ", ""),
    (" ", "<!-- -->"),
    ("\n", "<!-- -- -->"),
    ("<", "<!-- \u{fffe} --><"),
    (">", "><?a?>"),
    (">", ">%a;"),
    ("#PCDATA", "#PCDATA|a"),
    ("EMPTY", "ANY"),
    ("EMPTY", "EMPTY2"),
    ("ELEMENT", "ELEMENTS"),
    ("ID", "IDX"),
    ("IDREF", "IDRE"),
    ("CDATA", "NMTOKEN"),
    ("#IMPLIED", "#FIXED 'a'"),
    ("#IMPLIED", "'a'"),
    ("#REQUIRED", "#REQUIRED'a'"),
];

/// Puts a slip at one of the places where it can be made.
pub fn slip(random: &mut Random, text: &[u8]) -> Vec<u8> {
    let from = random.below(SLIPS.len());
    for k in 0..SLIPS.len() {
        let (old, new) = SLIPS[(from + k) % SLIPS.len()];
        let places: Vec<usize> = (0..text.len()).filter(|at| text[*at..].starts_with(old.as_bytes())).collect();
        if !places.is_empty() {
            let at = *random.pick(&places);
            return [&text[..at], new.as_bytes(), &text[at + old.len()..]].concat();
        }
    }
    text.to_vec()
}

/// A well spelled text with a declaration twice, missing or new.
pub fn misled(random: &mut Random, mut spelled: Spelled) -> Vec<u8> {
    let at = random.below(spelled.pieces.len());
    let element = match random.chance(70) {
        true => random.pick(&spelled.names).clone(),
        false => texts::name(random),
    };
    let (one, two) = (texts::name(random), texts::name(random));
    let [element, one, two] = [&element, &one, &two].map(|name| String::from_utf8_lossy(name).into_owned());
    let new = match random.below(7) {
        0 => format!("<!ATTLIST {element} {one} ID #REQUIRED {two} ID #IMPLIED>"),
        1 => format!("<!ATTLIST {element} {one} CDATA #REQUIRED {one} CDATA #IMPLIED>"),
        2 => format!("<!ATTLIST {element} {one} ID{}", random.pick(&["", ">", " >", "X", "REF", "#IMPLIED", " #IMPLIED"])),
        3 => format!("<!ELEMENT {element} ({one},{two}?)>"),
        4 => format!("<!ELEMENT {element}"),
        _ => {
            // One of the declarations again, or gone.
            match random.chance(50) {
                true => spelled.pieces.push(spelled.pieces[at].clone()),
                false => drop(spelled.pieces.remove(at)),
            }
            String::new()
        }
    };
    let at = random.below(spelled.pieces.len() + 1);
    spelled.pieces.insert(at, new.into_bytes());
    spelled.text()
}

/// How many limits there are; a case takes the next one.
pub const LIMITS: usize = 8;

/// A text at a limit or one past it.
pub fn at_limit(random: &mut Random, which: usize) -> Vec<u8> {
    let past = random.below(2);
    let mut text = match which {
        0 => elements(48 + past),
        1 => [elements(48), b"<!ELEMENT e7 EMPTY>".to_vec()].concat(),
        2 => [elements(3), lists(random, 64 + past, 3)].concat(),
        3 => {
            // Lists of many elements that are declared nowhere; one of their attributes again.
            let list = |e: usize| format!("<!ATTLIST e{e} a ID #IMPLIED>");
            let again = if past == 1 { list(random.below(300)) } else { String::new() };
            let lists: String = (0..300).map(list).collect();
            [elements(random.below(3)), (lists + &again).into_bytes()].concat()
        }
        4 => {
            // 254 suffixes and a name, or one suffix more.
            let count = 254 + past;
            let suffixes: Vec<u8> = (0..count).flat_map(|_| [*random.pick(b"?*+"), b')']).collect();
            model(&[vec![b'('; count + 1], b"e0".to_vec(), suffixes, b")".to_vec()].concat())
        }
        5 => {
            let names = vec!["e0"; 64 + past];
            model(format!("({})", names.join(*random.pick(&[",", "|", " , "]))).as_bytes())
        }
        6 => {
            // 64 names with a star each are 191 symbols.
            let row = vec!["e0*"; 64].join(",");
            let around = 64 + past;
            model(format!("{}{row}{}", "(".repeat(around), ")?".repeat(around)).as_bytes())
        }
        _ => {
            let depth = *random.pick(&[255, 1_000, 10_000, 32_000]);
            let close = *random.pick(&[")", ")+", ""]);
            model(format!("{}e0{}", "(".repeat(depth), close.repeat(depth - random.below(2))).as_bytes())
        }
    };
    if random.chance(15) {
        let at = random.below(text.len() + 1);
        damage(random, &mut text, at);
    }
    text
}

fn elements(count: usize) -> Vec<u8> {
    (0..count).flat_map(|k| format!("<!ELEMENT e{k} EMPTY>\n").into_bytes()).collect()
}

fn model(spelled: &[u8]) -> Vec<u8> {
    [b"<!ELEMENT e0 ", spelled, b">"].concat()
}

/// So many attributes for some of so many elements, one list each.
fn lists(random: &mut Random, count: usize, elements: usize) -> Vec<u8> {
    let list = |k: usize, e: usize| format!("<!ATTLIST e{e} a{k} {} #IMPLIED>", ["CDATA", "IDREF", "IDREFS"][k % 3]);
    (0..count).flat_map(|k| list(k, random.below(elements)).into_bytes()).collect()
}
