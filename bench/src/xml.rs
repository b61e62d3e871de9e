//! The same schemas and documents as XML text: element e is `e0`, attribute `a0`, value `v0`, text `t0`, and so on.

use std::fmt::Write;

/// The document type declaration of a schema. The numbers are those of a schema file that is taken.
pub fn doctype(schema: &[u32]) -> String {
    let mut numbers = schema.iter().copied();
    let mut next = || numbers.next().expect("a whole schema");
    let (elements, root) = (next(), next());
    let mut text = format!("<!DOCTYPE e{} [\n", root);
    for element in 0..elements {
        let content = match next() {
            0 => "EMPTY".to_string(),
            1 => "(#PCDATA)".to_string(),
            _ => {
                let count = next();
                let symbols: Vec<u32> = (0..count).map(|_| next()).collect();
                grouped(expression(&mut symbols.iter().copied()))
            }
        };
        writeln!(text, "<!ELEMENT e{} {}>", element, content).unwrap();
        for _ in 0..next() {
            let attribute = next();
            let kind = ["CDATA", "ID", "IDREF", "IDREFS"][next() as usize];
            let status = match next() {
                0 => "#REQUIRED".to_string(),
                1 => "#IMPLIED".to_string(),
                _ => format!("#FIXED \"v{}\"", next()),
            };
            writeln!(text, "<!ATTLIST e{} a{} {} {}>", element, attribute, kind, status).unwrap();
        }
    }
    text.push_str("]>\n");
    text
}

/// A part of a content model: its text, and what joins it.
struct Part {
    text: String,
    joint: Joint,
}

#[derive(Clone, Copy, PartialEq, Eq)]
enum Joint {
    Sequence,
    Choice,
    Repeated,
    Name,
}

fn expression(symbols: &mut impl Iterator<Item = u32>) -> Part {
    let symbol = symbols.next().expect("a whole expression");
    match symbol {
        0 | 1 => {
            let (joint, mark) = if symbol == 0 { (Joint::Sequence, ",") } else { (Joint::Choice, "|") };
            let inner = |part: Part| if part.joint == joint { part.text } else { closed(part) };
            let left = inner(expression(symbols));
            let right = inner(expression(symbols));
            Part { text: left + mark + &right, joint }
        }
        2..=4 => {
            let part = expression(symbols);
            let mark = ["?", "*", "+"][symbol as usize - 2];
            let text = if part.joint == Joint::Name { part.text } else { grouped(part) };
            Part { text: text + mark, joint: Joint::Repeated }
        }
        _ => Part { text: format!("e{}", symbol - 5), joint: Joint::Name },
    }
}

fn closed(part: Part) -> String {
    match part.joint {
        Joint::Sequence | Joint::Choice => grouped(part),
        _ => part.text,
    }
}

fn grouped(part: Part) -> String {
    format!("({})", part.text)
}

/// The text of tokens that have shape.
pub fn document(tokens: &[u32]) -> String {
    let mut text = String::new();
    let mut open = Vec::new();
    for (place, &token) in tokens.iter().enumerate() {
        let number = token >> 3;
        let next_sort = tokens.get(place + 1).map_or(0, |next| next & 7);
        match token & 7 {
            1 => {
                open.push(number);
                write!(text, "<e{}", number).unwrap();
                if next_sort != 4 {
                    text.push('>');
                }
            }
            2 => write!(text, "</e{}>", open.pop().expect("ends balance")).unwrap(),
            3 => write!(text, "t{}", number).unwrap(),
            4 => write!(text, " a{}=\"", number).unwrap(),
            _ => {
                write!(text, "v{}", number).unwrap();
                text.push_str(match next_sort {
                    5 => " ",
                    4 => "\"",
                    _ => "\">",
                });
            }
        }
    }
    text
}

#[cfg(test)]
mod tests {
    use super::{doctype, document};
    use crate::documents::SMALL_SHADE;

    #[test]
    fn small_shade_as_text() {
        let declarations = doctype(&SMALL_SHADE);
        assert!(declarations.contains("<!ELEMENT e0 (e1+,e3*)>"), "{}", declarations);
        assert!(declarations.contains("<!ELEMENT e1 (e2*)>"), "{}", declarations);
        assert!(declarations.contains("<!ATTLIST e3 a2 IDREF #REQUIRED>"), "{}", declarations);
        assert_eq!(
            document(&[1, 4, 61, 9, 12, 165, 17, 243, 2, 2, 25, 20, 165, 2, 2]),
            "<e0 a0=\"v7\"><e1 a1=\"v20\"><e2>t30</e2></e1><e3 a2=\"v20\"></e3></e0>"
        );
    }
}
