//! DTD texts of random schemas: any names, order, white space, brackets and comments.

use crate::paper::expression::Expression::{self, Choice, Name, Optional, Plus, Sequence, Star};
use crate::paper::grammar::{Attribute, Content, Grammar, Kind};
use crate::random::Random;

/// A text in pieces: declarations, comments and white space. `elements` and `attributes` are the schema's numbers in the order in which the
/// text declares the ones and first names the others; `names` are the elements' names, by the schema's numbers.
pub struct Spelled {
    pub pieces: Vec<Vec<u8>>,
    pub elements: Vec<u16>,
    pub attributes: Vec<u16>,
    pub names: Vec<Vec<u8>>,
}

impl Spelled {
    pub fn text(&self) -> Vec<u8> {
        self.pieces.concat()
    }
}

/// A declaration to be spelled.
enum Part {
    Element(u16),
    List(u16, Vec<Attribute>),
}

pub fn spelled(random: &mut Random, grammar: &Grammar) -> Spelled {
    let mut speller = Speller { names: names(random, grammar.elements.len()), airy: *random.pick(&[0, 10, 60]) };
    let attribute_names = names(random, 64);
    let mut parts: Vec<Part> = Vec::new();
    for (e, element) in grammar.elements.iter().enumerate() {
        let e = e as u16;
        parts.push(Part::Element(e));
        let mut list = Vec::new();
        for attribute in &element.attributes {
            list.insert(random.below(list.len() + 1), *attribute);
            if random.chance(20) {
                parts.push(Part::List(e, std::mem::take(&mut list)));
            }
        }
        if !list.is_empty() || random.chance(5) {
            parts.push(Part::List(e, list));
        }
    }
    if random.chance(60) {
        for i in (1..parts.len()).rev() {
            parts.swap(i, random.within(0, i));
        }
    }
    let mut spelled = Spelled { pieces: Vec::new(), elements: Vec::new(), attributes: Vec::new(), names: Vec::new() };
    for part in &parts {
        spelled.pieces.push(between(random));
        match part {
            Part::Element(e) => {
                spelled.elements.push(*e);
                spelled.pieces.push(speller.element(random, *e, &grammar.elements[usize::from(*e)].content));
            }
            Part::List(e, list) => {
                for attribute in list {
                    if !spelled.attributes.contains(&attribute.number) {
                        spelled.attributes.push(attribute.number);
                    }
                }
                spelled.pieces.push(speller.list(random, *e, list, &attribute_names));
            }
        }
    }
    spelled.pieces.push(between(random));
    spelled.names = std::mem::take(&mut speller.names);
    spelled
}

/// Different names, many of them alike.
fn names(random: &mut Random, count: usize) -> Vec<Vec<u8>> {
    let mut names: Vec<Vec<u8>> = Vec::new();
    while names.len() < count {
        let name = name(random);
        if !names.contains(&name) {
            names.push(name);
        }
    }
    names
}

pub fn name(random: &mut Random) -> Vec<u8> {
    const WORDS: [&str; 12] =
        ["EMPTY", "ELEMENT", "ATTLIST", "CDATA", "ID", "IDREF", "IDREFS", "REQUIRED", "PCDATA", "ANY", "title", "panel"];
    if random.chance(10) {
        return random.pick(&WORDS).as_bytes().to_vec();
    }
    let length = *random.pick(&[1, 1, 2, 2, 3, 3, 5, 9, 70]);
    let mut name = vec![*random.pick(b"aabAZz_:")];
    name.extend((1..length).map(|_| *random.pick(b"aaab-._:09Z")));
    name
}

/// What may stand between declarations.
fn between(random: &mut Random) -> Vec<u8> {
    const INSIDE: [&str; 9] = ["", " a - b ", "->", "<!ELEMENT a (a)>", "%a; &b;", "\u{7f}\u{80}", "é€\u{fffd}", "\u{1f9f6}", "\t\r\n]]>"];
    match random.below(6) {
        0 => [b"<!--", random.pick(&INSIDE).as_bytes(), b"-->"].concat(),
        1 => vec![],
        2 => b"\r\n\t ".to_vec(),
        _ => b"\n".to_vec(),
    }
}

struct Speller {
    names: Vec<Vec<u8>>,
    /// How many of a hundred places where white space may stand have some.
    airy: usize,
}

impl Speller {
    fn may(&self, random: &mut Random, text: &mut Vec<u8>) {
        if random.chance(self.airy) {
            self.must(random, text);
        }
    }

    fn must(&self, random: &mut Random, text: &mut Vec<u8>) {
        text.push(*random.pick(b"    \n\r\t"));
        if random.chance(self.airy / 4) {
            self.must(random, text);
        }
    }

    fn element(&self, random: &mut Random, e: u16, content: &Content) -> Vec<u8> {
        let mut text = b"<!ELEMENT".to_vec();
        self.must(random, &mut text);
        text.extend(&self.names[usize::from(e)]);
        self.must(random, &mut text);
        match content {
            Content::Empty | Content::Run(_) => text.extend(b"EMPTY"),
            Content::Text => {
                text.push(b'(');
                self.may(random, &mut text);
                text.extend(b"#PCDATA");
                self.may(random, &mut text);
                text.push(b')');
            }
            Content::Model(model) => self.part(random, &model.expression, true, &mut text),
        }
        self.may(random, &mut text);
        text.push(b'>');
        text
    }

    /// A part of a model; the whole has a bracket round it, its suffix inside or outside.
    fn part(&self, random: &mut Random, expression: &Expression, is_whole: bool, text: &mut Vec<u8>) {
        let (inner, suffix) = match expression {
            Optional(one) => (&**one, Some(b'?')),
            Star(one) => (&**one, Some(b'*')),
            Plus(one) => (&**one, Some(b'+')),
            _ => (expression, None),
        };
        let is_bare_name = matches!(expression, Name(_));
        if random.chance(8) || (is_whole && is_bare_name) {
            return self.bracket(random, text, |random, text| self.part(random, expression, false, text));
        }
        match inner {
            Name(name) if !is_whole => text.extend(&self.names[usize::from(*name)]),
            Sequence(..) | Choice(..) => self.bracket(random, text, |random, text| self.row(random, inner, text)),
            _ => self.bracket(random, text, |random, text| self.part(random, inner, false, text)),
        }
        text.extend(suffix);
    }

    fn bracket(&self, random: &mut Random, text: &mut Vec<u8>, inside: impl FnOnce(&mut Random, &mut Vec<u8>)) {
        text.push(b'(');
        self.may(random, text);
        inside(random, text);
        self.may(random, text);
        text.push(b')');
    }

    /// The parts of a sequence or a choice; of a second one of its sort, mostly, the parts go on the same row.
    fn row(&self, random: &mut Random, expression: &Expression, text: &mut Vec<u8>) {
        let (one, two, mark) = match expression {
            Sequence(one, two) => (one, two, b','),
            Choice(one, two) => (one, two, b'|'),
            _ => panic!("a row has two parts"),
        };
        self.part(random, one, false, text);
        self.may(random, text);
        text.push(mark);
        self.may(random, text);
        match (&**two, mark) {
            (Sequence(..), b',') | (Choice(..), b'|') if random.chance(75) => self.row(random, two, text),
            _ => self.part(random, two, false, text),
        }
    }

    fn list(&self, random: &mut Random, e: u16, list: &[Attribute], names: &[Vec<u8>]) -> Vec<u8> {
        let mut text = b"<!ATTLIST".to_vec();
        self.must(random, &mut text);
        text.extend(&self.names[usize::from(e)]);
        for attribute in list {
            let kind: &[u8] = match attribute.kind {
                Kind::Cdata => b"CDATA",
                Kind::Id => b"ID",
                Kind::Idref => b"IDREF",
                Kind::Idrefs => b"IDREFS",
            };
            // A text has no value numbers: what is fixed is spelled as implied.
            let status: &[u8] = if attribute.required { b"#REQUIRED" } else { b"#IMPLIED" };
            for word in [&names[usize::from(attribute.number)], kind, status] {
                self.must(random, &mut text);
                text.extend(word);
            }
        }
        self.may(random, &mut text);
        text.push(b'>');
        text
    }
}
