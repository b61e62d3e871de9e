//! "Tokens and shape": a document as a tree, read from tokens and flattened to tokens.

use super::{DEEPEST, MOST_TOKENS};

#[derive(Clone, Copy, Debug, PartialEq)]
pub enum Token {
    Start(u16),
    End,
    Text(u16),
    Attribute(u16),
    Value(u16),
}

impl Token {
    pub fn of(token: u32) -> Option<Token> {
        let number = u16::try_from(token / 8).ok()?;
        match token % 8 {
            1 => Some(Token::Start(number)),
            2 if number == 0 => Some(Token::End),
            3 => Some(Token::Text(number)),
            4 => Some(Token::Attribute(number)),
            5 => Some(Token::Value(number)),
            _ => None,
        }
    }

    pub fn code(self) -> u32 {
        match self {
            Token::Start(name) => u32::from(name) * 8 + 1,
            Token::End => 2,
            Token::Text(text) => u32::from(text) * 8 + 3,
            Token::Attribute(number) => u32::from(number) * 8 + 4,
            Token::Value(value) => u32::from(value) * 8 + 5,
        }
    }
}

/// An element. A judgement asks for name, attributes and content of the touched ones only.
#[derive(Clone, Debug, PartialEq)]
pub struct Element {
    pub name: u16,
    pub attributes: Vec<Attribute>,
    pub content: Vec<Item>,
    pub touched: bool,
}

#[derive(Clone, Debug, PartialEq)]
pub struct Attribute {
    pub number: u16,
    pub values: Vec<u16>,
}

#[derive(Clone, Debug, PartialEq)]
pub enum Item {
    Element(Element),
    Text(u16),
}

impl Attribute {
    pub fn size(&self) -> usize {
        1 + self.values.len()
    }

    pub fn tokens(&self) -> Vec<u32> {
        let mut tokens = Vec::new();
        self.put_tokens(&mut tokens);
        tokens
    }

    fn put_tokens(&self, tokens: &mut Vec<u32>) {
        tokens.push(Token::Attribute(self.number).code());
        tokens.extend(self.values.iter().map(|value| Token::Value(*value).code()));
    }
}

impl Element {
    pub fn new(name: u16) -> Element {
        Element { name, attributes: Vec::new(), content: Vec::new(), touched: false }
    }

    /// The tokens of the start and its attributes.
    pub fn head_size(&self) -> usize {
        1 + self.attributes.iter().map(Attribute::size).sum::<usize>()
    }

    pub fn size(&self) -> usize {
        self.head_size() + self.content.iter().map(Item::size).sum::<usize>() + 1
    }

    pub fn depth(&self) -> usize {
        1 + self.children().map(Element::depth).max().unwrap_or(0)
    }

    pub fn children(&self) -> impl Iterator<Item = &Element> {
        self.content.iter().filter_map(|item| match item {
            Item::Element(element) => Some(element),
            Item::Text(_) => None,
        })
    }

    /// The content in short: the names of children, None for a text.
    pub fn items(&self) -> Vec<Option<u16>> {
        self.content.iter().map(Item::name).collect()
    }

    /// Visits this element and all below it, by rising place.
    pub fn each(&self, visit: &mut dyn FnMut(&Element)) {
        visit(self);
        for child in self.children() {
            child.each(visit);
        }
    }

    /// The same, each to be changed. What a visit puts in is visited too.
    pub fn each_mut(&mut self, visit: &mut dyn FnMut(&mut Element)) {
        visit(self);
        for item in &mut self.content {
            if let Item::Element(child) = item {
                child.each_mut(visit);
            }
        }
    }

    /// Marks this element and all below it.
    pub fn touch_all(&mut self) {
        self.each_mut(&mut |element| element.touched = true);
    }

    pub fn tokens(&self) -> Vec<u32> {
        let mut tokens = Vec::new();
        self.put_tokens(&mut tokens);
        tokens
    }

    fn put_tokens(&self, tokens: &mut Vec<u32>) {
        tokens.push(Token::Start(self.name).code());
        for attribute in &self.attributes {
            attribute.put_tokens(tokens);
        }
        for item in &self.content {
            item.put_tokens(tokens);
        }
        tokens.push(Token::End.code());
    }
}

impl Item {
    /// The name of an element.
    pub fn name(&self) -> Option<u16> {
        match self {
            Item::Element(element) => Some(element.name),
            Item::Text(_) => None,
        }
    }

    pub fn size(&self) -> usize {
        match self {
            Item::Element(element) => element.size(),
            Item::Text(_) => 1,
        }
    }

    pub fn tokens(&self) -> Vec<u32> {
        let mut tokens = Vec::new();
        self.put_tokens(&mut tokens);
        tokens
    }

    fn put_tokens(&self, tokens: &mut Vec<u32>) {
        match self {
            Item::Element(element) => element.put_tokens(tokens),
            Item::Text(text) => tokens.push(Token::Text(*text).code()),
        }
    }
}

/// The tree of a document that has shape.
pub fn document(buffer: &[u32], used: u64) -> Option<Element> {
    let used = usize::try_from(used).ok()?;
    element(buffer.get(..used)?)
}

/// The tree of tokens that are exactly one element of good shape.
pub fn element(tokens: &[u32]) -> Option<Element> {
    if tokens.len() < 2 || tokens.len() > MOST_TOKENS {
        return None;
    }
    let mut reading = Reading { tokens, at: 0 };
    let element = reading.element(1)?;
    match reading.at == tokens.len() {
        true => Some(element),
        false => None,
    }
}

/// The attribute that exactly these tokens are, with one value or more.
pub fn attribute(tokens: &[u32]) -> Option<Attribute> {
    if tokens.len() > MOST_TOKENS {
        return None;
    }
    let mut reading = Reading { tokens, at: 0 };
    let attribute = reading.attribute()?;
    match reading.at == tokens.len() {
        true => Some(attribute),
        false => None,
    }
}

struct Reading<'a> {
    tokens: &'a [u32],
    at: usize,
}

impl Reading<'_> {
    fn peek(&self) -> Option<Token> {
        Token::of(*self.tokens.get(self.at)?)
    }

    fn next(&mut self) -> Option<Token> {
        let token = self.peek()?;
        self.at += 1;
        Some(token)
    }

    /// The element that starts here, at this depth.
    fn element(&mut self, depth: usize) -> Option<Element> {
        let mut element = match self.next()? {
            Token::Start(name) if depth <= DEEPEST => Element::new(name),
            _ => return None,
        };
        while let Token::Attribute(number) = self.peek()? {
            if element.attributes.last().map_or(false, |before| before.number >= number) {
                return None;
            }
            element.attributes.push(self.attribute()?);
        }
        loop {
            element.content.push(match self.peek()? {
                Token::Start(_) => Item::Element(self.element(depth + 1)?),
                Token::Text(text) => {
                    self.at += 1;
                    Item::Text(text)
                }
                Token::End => {
                    self.at += 1;
                    return Some(element);
                }
                Token::Attribute(_) | Token::Value(_) => return None,
            });
        }
    }

    fn attribute(&mut self) -> Option<Attribute> {
        let number = match self.next()? {
            Token::Attribute(number) => number,
            _ => return None,
        };
        let mut values = Vec::new();
        while let Some(Token::Value(value)) = self.peek() {
            values.push(value);
            self.at += 1;
        }
        match values.is_empty() {
            true => None,
            false => Some(Attribute { number, values }),
        }
    }
}
