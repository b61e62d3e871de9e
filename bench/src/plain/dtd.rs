//! DTD text: read into vectors and maps, then written as a schema file or as a list of names.

use crate::calls::Spot;
use std::collections::HashMap;

const ELEMENTS: usize = 48;
const ATTRIBUTES: usize = 64;
const SYMBOLS: usize = 255;
const NAMES: usize = 64;
/// The text is outside the subset; it goes past a limit.
const TEXT: u32 = 14;
const LIMIT: u32 = 2;

type Name<'a> = &'a [u8];

enum Content<'a> {
    Empty,
    Text,
    Model(Model<'a>),
}

/// The parts of a model, of which the last is the whole.
struct Model<'a> {
    parts: Vec<Part<'a>>,
    symbols: usize,
    names: usize,
}

struct Part<'a> {
    form: Form<'a>,
    suffixes: Vec<u8>,
}

enum Form<'a> {
    Name(Name<'a>),
    /// a separator and the parts between which it stands
    Group(u8, Vec<usize>),
}

struct Attribute {
    number: usize,
    kind: u8,
    status: u8,
}

/// What a text declares.
pub struct Declared<'a> {
    elements: Vec<(Name<'a>, Content<'a>)>,
    numbers: HashMap<Name<'a>, usize>,
    attributes: Vec<Name<'a>>,
    lists: HashMap<Name<'a>, Vec<Attribute>>,
}

struct Reader<'a> {
    text: &'a [u8],
    at: usize,
    declared: Declared<'a>,
    attribute_numbers: HashMap<Name<'a>, usize>,
    mentioned: Vec<(Name<'a>, usize)>,
}

/// What the text declares, or where it is refused.
pub fn read(text: &[u8]) -> Result<Declared<'_>, Spot> {
    let declared = Declared { elements: Vec::new(), numbers: HashMap::new(), attributes: Vec::new(), lists: HashMap::new() };
    let mut reader = Reader { text, at: 0, declared, attribute_numbers: HashMap::new(), mentioned: Vec::new() };
    reader.declarations()?;
    let declared = reader.declared;
    if declared.elements.is_empty() {
        return refused(TEXT, text.len());
    }
    match reader.mentioned.iter().find(|(name, _)| !declared.numbers.contains_key(name)) {
        Some(&(_, place)) => refused(TEXT, place),
        None => Ok(declared),
    }
}

fn refused<T>(number: u32, at: usize) -> Result<T, Spot> {
    Err(Spot { number, offset: at as u64 })
}

fn is_white(byte: u8) -> bool {
    matches!(byte, b' ' | b'\t' | b'\r' | b'\n')
}

fn is_first(byte: u8) -> bool {
    byte.is_ascii_alphabetic() || byte == b'_' || byte == b':'
}

fn is_more(byte: u8) -> bool {
    is_first(byte) || byte.is_ascii_digit() || byte == b'-' || byte == b'.'
}

impl<'a> Reader<'a> {
    fn fault<T>(&self) -> Result<T, Spot> {
        refused(TEXT, self.at)
    }

    fn peek(&self) -> Option<u8> {
        self.text.get(self.at).copied()
    }

    fn at_byte(&self, byte: u8) -> bool {
        self.peek() == Some(byte)
    }

    fn take(&mut self, byte: u8) -> Result<(), Spot> {
        if !self.at_byte(byte) {
            return self.fault();
        }
        self.at += 1;
        Ok(())
    }

    fn skip_white(&mut self) {
        while self.peek().map_or(false, is_white) {
            self.at += 1;
        }
    }

    fn white(&mut self) -> Result<(), Spot> {
        if !self.peek().map_or(false, is_white) {
            return self.fault();
        }
        self.skip_white();
        Ok(())
    }

    fn name(&mut self) -> Result<Name<'a>, Spot> {
        if !self.peek().map_or(false, is_first) {
            return self.fault();
        }
        let from = self.at;
        while self.peek().map_or(false, is_more) {
            self.at += 1;
        }
        Ok(&self.text[from..self.at])
    }

    /// The longest of the words, by its index; the fault is at the first byte that leaves all of them.
    fn word(&mut self, words: &[&str]) -> Result<usize, Spot> {
        let rest = &self.text[self.at..];
        let common = |word: &&str| word.bytes().zip(rest).take_while(|(a, b)| a == *b).count();
        let far = words.iter().map(common).max().unwrap_or(0);
        self.at += far;
        match words.iter().position(|word| word.len() == far && common(word) == far) {
            Some(word) => Ok(word),
            None => self.fault(),
        }
    }

    fn declarations(&mut self) -> Result<(), Spot> {
        loop {
            self.skip_white();
            if self.at == self.text.len() {
                return Ok(());
            }
            match self.word(&["<!ELEMENT", "<!ATTLIST", "<!--"])? {
                0 => self.element()?,
                1 => self.attlist()?,
                _ => self.comment()?,
            }
        }
    }

    fn comment(&mut self) -> Result<(), Spot> {
        let rest = &self.text[self.at..];
        let end = rest.windows(2).position(|pair| pair == b"--");
        let inside = &rest[..end.unwrap_or(rest.len())];
        if let Some(bad) = first_bad(inside) {
            return refused(TEXT, self.at + bad);
        }
        self.at += inside.len();
        if end.is_none() {
            return self.fault();
        }
        self.at += 2;
        self.take(b'>')
    }

    fn element(&mut self) -> Result<(), Spot> {
        self.white()?;
        let place = self.at;
        let name = self.name()?;
        if self.declared.numbers.contains_key(name) {
            return refused(TEXT, place);
        }
        if self.declared.elements.len() == ELEMENTS {
            return refused(LIMIT, place);
        }
        self.white()?;
        let content = self.content()?;
        self.skip_white();
        self.take(b'>')?;
        self.declared.numbers.insert(name, self.declared.elements.len());
        self.declared.elements.push((name, content));
        Ok(())
    }

    fn content(&mut self) -> Result<Content<'a>, Spot> {
        if !self.at_byte(b'(') {
            return self.word(&["EMPTY"]).map(|_| Content::Empty);
        }
        let place = self.at;
        self.at += 1;
        self.skip_white();
        if self.at_byte(b'#') {
            self.word(&["#PCDATA"])?;
            self.skip_white();
            return self.take(b')').map(|()| Content::Text);
        }
        let model = self.model()?;
        if model.symbols > SYMBOLS || model.names > NAMES {
            return refused(LIMIT, place);
        }
        Ok(Content::Model(model))
    }

    /// A model, behind its first bracket and the white space there.
    fn model(&mut self) -> Result<Model<'a>, Spot> {
        let mut model = Model { parts: Vec::new(), symbols: 0, names: 0 };
        let mut open: Vec<(Option<u8>, Vec<usize>)> = vec![(None, Vec::new())];
        loop {
            if self.at_byte(b'(') {
                self.at += 1;
                self.skip_white();
                open.push((None, Vec::new()));
                continue;
            }
            let place = self.at;
            let name = self.name()?;
            self.mentioned.push((name, place));
            model.names += 1;
            model.symbols += 1;
            model.parts.push(Part { form: Form::Name(name), suffixes: Vec::new() });
            let mut part = model.parts.len() - 1;
            self.suffix(&mut model, part);
            loop {
                let inner = open.last_mut().expect("a bracket is open");
                inner.1.push(part);
                self.skip_white();
                if self.at_byte(b')') {
                    self.at += 1;
                    let (separator, parts) = open.pop().expect("a bracket is open");
                    part = match separator {
                        None => parts[0],
                        Some(separator) => {
                            model.symbols += parts.len() - 1;
                            model.parts.push(Part { form: Form::Group(separator, parts), suffixes: Vec::new() });
                            model.parts.len() - 1
                        }
                    };
                    self.suffix(&mut model, part);
                    if open.is_empty() {
                        return Ok(model);
                    }
                    continue;
                }
                let due: &[u8] = match &inner.0 {
                    Some(b',') => b",",
                    Some(_) => b"|",
                    None => b",|",
                };
                match self.peek() {
                    Some(byte) if due.contains(&byte) => inner.0 = Some(byte),
                    _ => return self.fault(),
                }
                self.at += 1;
                self.skip_white();
                break;
            }
        }
    }

    fn suffix(&mut self, model: &mut Model<'a>, part: usize) {
        if let Some(byte @ (b'?' | b'*' | b'+')) = self.peek() {
            self.at += 1;
            model.symbols += 1;
            model.parts[part].suffixes.push(byte);
        }
    }

    fn attlist(&mut self) -> Result<(), Spot> {
        self.white()?;
        let place = self.at;
        let element = self.name()?;
        self.mentioned.push((element, place));
        self.declared.lists.entry(element).or_insert_with(Vec::new);
        loop {
            let before = self.at;
            self.skip_white();
            if self.at_byte(b'>') {
                self.at += 1;
                return Ok(());
            }
            if self.at == before {
                return self.fault();
            }
            let attribute = self.attribute(element)?;
            self.declared.lists.get_mut(element).expect("it was put there").push(attribute);
        }
    }

    fn attribute(&mut self, element: Name<'a>) -> Result<Attribute, Spot> {
        let place = self.at;
        let name = self.name()?;
        let known = self.attribute_numbers.get(name).copied();
        let number = known.unwrap_or(self.declared.attributes.len());
        if self.declared.lists[element].iter().any(|other| other.number == number) {
            return refused(TEXT, place);
        }
        if known.is_none() {
            if number == ATTRIBUTES {
                return refused(LIMIT, place);
            }
            self.attribute_numbers.insert(name, number);
            self.declared.attributes.push(name);
        }
        self.white()?;
        let place = self.at;
        let kind = self.word(&["CDATA", "ID", "IDREF", "IDREFS"])? as u8;
        if self.peek().map_or(false, is_more) {
            return self.fault();
        }
        if kind == 1 && self.declared.lists[element].iter().any(|other| other.kind == 1) {
            return refused(LIMIT, place);
        }
        self.white()?;
        let status = self.word(&["#REQUIRED", "#IMPLIED"])? as u8;
        Ok(Attribute { number, kind, status })
    }
}

/// The first byte with which no character of XML goes on; the length, if the last one is not whole.
fn first_bad(bytes: &[u8]) -> Option<usize> {
    let (good, bad) = match std::str::from_utf8(bytes) {
        Ok(text) => (text, None),
        Err(error) => {
            let from = error.valid_up_to();
            let begun = matches!(bytes[from], 0xC2..=0xF4);
            let bad = error.error_len().map_or(bytes.len(), |length| from + if begun { length } else { 0 });
            (std::str::from_utf8(&bytes[..from]).expect("it is valid up to here"), Some(bad))
        }
    };
    let outside = good.char_indices().find_map(|(at, char)| match char {
        '\u{9}' | '\u{A}' | '\u{D}' => None,
        '\u{0}'..='\u{1F}' => Some(at),
        '\u{FFFE}' | '\u{FFFF}' => Some(at + 2),
        _ => None,
    });
    outside.or(bad)
}

impl Declared<'_> {
    pub fn file(&self) -> Vec<u8> {
        let mut file = vec![self.elements.len() as u8, 0];
        for (name, content) in &self.elements {
            match content {
                Content::Empty => file.push(0),
                Content::Text => file.push(1),
                Content::Model(model) => {
                    file.push(2);
                    if model.symbols >= 128 {
                        file.push(model.symbols as u8);
                        file.push(1);
                    } else {
                        file.push(model.symbols as u8);
                    }
                    self.symbols(model, model.parts.len() - 1, &mut file);
                }
            }
            let mut list: Vec<&Attribute> = self.lists.get(name).map_or(Vec::new(), |list| list.iter().collect());
            list.sort_by_key(|attribute| attribute.number);
            file.push(list.len() as u8);
            for attribute in list {
                file.extend([attribute.number as u8, attribute.kind, attribute.status]);
            }
        }
        file
    }

    /// The symbols of a part. Each call but the first is of a part with a symbol of its own, so that they are at most 255 deep.
    fn symbols(&self, model: &Model<'_>, part: usize, file: &mut Vec<u8>) {
        let Part { form, suffixes } = &model.parts[part];
        let suffix = |&byte: &u8| match byte {
            b'?' => 2,
            b'*' => 3,
            _ => 4,
        };
        file.extend(suffixes.iter().rev().map(suffix));
        match form {
            Form::Name(name) => file.push(5 + self.numbers[name] as u8),
            Form::Group(separator, parts) => {
                for (k, &inner) in parts.iter().enumerate() {
                    if k + 1 < parts.len() {
                        file.push((*separator == b'|') as u8);
                    }
                    self.symbols(model, inner, file);
                }
            }
        }
    }

    pub fn names(&self) -> Vec<u8> {
        let names = self.elements.iter().map(|(name, _)| *name).chain(self.attributes.iter().copied());
        names.flat_map(|name| name.iter().copied().chain([b'\n'])).collect()
    }
}
