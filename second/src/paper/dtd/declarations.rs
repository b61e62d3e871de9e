//! A DTD text as a tree of its declarations, with the places of their names: XML 1.0's productions 29, 31 and 45 to 60, as far as item 4
//! takes them.

use super::words::{begins_name, comment_end, word_at, Sort, Word};
use crate::paper::grammar::{Kind, KINDS};
use std::ops::Range;

/// Where something stands in the text.
pub type Span = Range<usize>;

/// What is read of a text. If it stopped before the end, the last declaration holds what was whole.
#[derive(Debug, Default)]
pub struct Tree {
    pub declarations: Vec<Declaration>,
    /// The byte that cannot go on.
    pub stopped: Option<usize>,
}

#[derive(Debug)]
pub enum Declaration {
    Element { name: Span, content: Option<Content> },
    Attlist { element: Span, attributes: Vec<Attribute> },
}

#[derive(Debug)]
pub enum Content {
    Empty,
    Text,
    Model(Model),
}

#[derive(Debug)]
pub struct Attribute {
    pub name: Span,
    pub kind: Option<(Kind, Span)>,
    pub required: bool,
}

/// A model: its parts, those inside before those around them, the whole last.
#[derive(Debug, Default)]
pub struct Model {
    pub span: Span,
    pub parts: Vec<Part>,
}

#[derive(Debug)]
pub struct Part {
    pub form: Form,
    pub suffix: Option<u8>,
}

#[derive(Debug)]
pub enum Form {
    Name(Span),
    /// A bracket: the mark between its parts, if they are several, and their numbers.
    Bracket(Option<u8>, Vec<usize>),
}

/// The tree of a text.
pub fn read(text: &[u8]) -> Tree {
    let mut reading = Reading { text, at: 0 };
    let mut tree = Tree::default();
    tree.stopped = reading.declarations(&mut tree.declarations).err();
    tree
}

struct Reading<'a> {
    text: &'a [u8],
    at: usize,
}

/// What was read, or the byte that cannot go on.
type Read<T> = Result<T, usize>;

impl Reading<'_> {
    fn peek(&self) -> Word {
        word_at(self.text, self.at)
    }

    fn skip_white(&mut self) -> bool {
        let word = self.peek();
        self.at = if word.sort == Sort::White { word.to } else { self.at };
        word.sort == Sort::White
    }

    fn white(&mut self) -> Read<()> {
        match self.skip_white() {
            true => Ok(()),
            false => Err(self.at),
        }
    }

    fn skip_mark(&mut self, mark: u8) -> bool {
        let is_there = self.peek().sort == Sort::Mark(mark);
        self.at += usize::from(is_there);
        is_there
    }

    fn mark(&mut self, mark: u8) -> Read<()> {
        match self.skip_mark(mark) {
            true => Ok(()),
            false => Err(self.at),
        }
    }

    fn name(&mut self) -> Read<Span> {
        let word = self.peek();
        if word.sort != Sort::Run || !begins_name(self.text[word.from]) {
            return Err(word.from);
        }
        self.at = word.to;
        Ok(word.from..word.to)
    }

    /// Which of the keywords the next word is. If none, at fault is the first byte that leaves every one of them.
    fn keyword(&mut self, keywords: &[&str]) -> Read<usize> {
        let word = self.peek();
        let bytes = &self.text[word.from..word.to];
        if let Some(which) = keywords.iter().position(|keyword| keyword.as_bytes() == bytes) {
            self.at = word.to;
            return Ok(which);
        }
        let common = |keyword: &&str| keyword.bytes().zip(bytes).take_while(|(one, two)| one == *two).count();
        Err(word.from + keywords.iter().map(common).max().unwrap_or(0))
    }

    fn declarations(&mut self, declarations: &mut Vec<Declaration>) -> Read<()> {
        while self.at < self.text.len() {
            if self.skip_white() {
                continue;
            }
            self.mark(b'<')?;
            self.mark(b'!')?;
            if self.text[self.at..].starts_with(b"--") {
                self.at = comment_end(self.text, self.at + 2)?;
                continue;
            }
            match self.keyword(&["ELEMENT", "ATTLIST", "--"])? {
                0 => self.element(declarations)?,
                _ => self.attlist(declarations)?,
            }
        }
        Ok(())
    }

    fn element(&mut self, declarations: &mut Vec<Declaration>) -> Read<()> {
        self.white()?;
        let name = self.name()?;
        declarations.push(Declaration::Element { name: name.clone(), content: None });
        self.white()?;
        let content = Some(self.content()?);
        declarations.pop();
        declarations.push(Declaration::Element { name, content });
        self.skip_white();
        self.mark(b'>')
    }

    fn content(&mut self) -> Read<Content> {
        let from = self.at;
        if !self.skip_mark(b'(') {
            self.keyword(&["EMPTY"])?;
            return Ok(Content::Empty);
        }
        self.skip_white();
        if self.peek().sort == Sort::Hash {
            self.keyword(&["#PCDATA"])?;
            self.skip_white();
            self.mark(b')')?;
            return Ok(Content::Text);
        }
        self.at = from;
        self.model().map(Content::Model)
    }

    /// A model, from its first bracket to behind its last and the suffix there.
    fn model(&mut self) -> Read<Model> {
        let from = self.at;
        let mut parts: Vec<Part> = Vec::new();
        let mut open: Vec<(Option<u8>, Vec<usize>)> = Vec::new();
        loop {
            if self.skip_mark(b'(') {
                self.skip_white();
                open.push((None, Vec::new()));
                continue;
            }
            let mut form = Form::Name(self.name()?);
            // Behind a part: it is closed, and the brackets that end here.
            loop {
                parts.push(Part { form, suffix: self.suffix() });
                let (separator, inside) = match open.last_mut() {
                    None => return Ok(Model { span: from..self.at, parts }),
                    Some(bracket) => bracket,
                };
                inside.push(parts.len() - 1);
                self.skip_white();
                if !self.skip_mark(b')') {
                    self.separator(separator)?;
                    break;
                }
                let (separator, inside) = open.pop().expect("a bracket is open");
                form = Form::Bracket(separator, inside);
            }
            self.skip_white();
        }
    }

    fn suffix(&mut self) -> Option<u8> {
        [b'?', b'*', b'+'].into_iter().find(|suffix| self.skip_mark(*suffix))
    }

    /// A comma or a bar, the same all over a bracket.
    fn separator(&mut self, known: &mut Option<u8>) -> Read<()> {
        let wanted = match known {
            None => vec![b',', b'|'],
            Some(mark) => vec![*mark],
        };
        *known = Some(wanted.into_iter().find(|mark| self.skip_mark(*mark)).ok_or(self.at)?);
        Ok(())
    }

    fn attlist(&mut self, declarations: &mut Vec<Declaration>) -> Read<()> {
        self.white()?;
        let element = self.name()?;
        let mut attributes = Vec::new();
        let read = self.attributes(&mut attributes);
        declarations.push(Declaration::Attlist { element, attributes });
        read
    }

    fn attributes(&mut self, attributes: &mut Vec<Attribute>) -> Read<()> {
        loop {
            let is_white = self.skip_white();
            if self.skip_mark(b'>') {
                return Ok(());
            }
            if !is_white {
                return Err(self.at);
            }
            let name = self.name()?;
            attributes.push(Attribute { name, kind: None, required: false });
            let attribute = attributes.last_mut().expect("just put there");
            self.white()?;
            let from = self.at;
            let kind = KINDS[self.keyword(&["CDATA", "ID", "IDREF", "IDREFS"])?];
            attribute.kind = Some((kind, from..self.at));
            self.white()?;
            attribute.required = self.keyword(&["#REQUIRED", "#IMPLIED"])? == 0;
        }
    }
}
