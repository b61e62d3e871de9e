//! What a schema or a proper table asks of each element.

use super::derivatives::Matcher;
use super::expression::Expression;
use super::table::Run;
use std::cell::RefCell;

#[derive(Debug)]
pub struct Grammar {
    pub root: usize,
    pub elements: Vec<Declaration>,
}

#[derive(Debug)]
pub struct Declaration {
    pub content: Content,
    pub attributes: Vec<Attribute>,
}

#[derive(Clone, Copy, Debug, PartialEq)]
pub struct Attribute {
    pub number: u16,
    pub kind: Kind,
    pub required: bool,
    /// Item 8: "if present has exactly that value".
    pub fixed: Option<u16>,
}

#[derive(Clone, Copy, Debug, PartialEq)]
pub enum Kind {
    Cdata,
    Id,
    Idref,
    Idrefs,
}

pub const KINDS: [Kind; 4] = [Kind::Cdata, Kind::Id, Kind::Idref, Kind::Idrefs];

#[derive(Debug)]
pub enum Content {
    Empty,
    Text,
    Model(Model),
    /// The model of a table that no schema gave.
    Run(Run),
}

/// An expression, and the derivatives of it that were met.
#[derive(Debug)]
pub struct Model {
    pub expression: Expression,
    matcher: RefCell<Matcher>,
}

impl Model {
    pub fn new(expression: Expression) -> Model {
        let matcher = RefCell::new(Matcher::new(&expression));
        Model { expression, matcher }
    }

    /// The state after one more name, if a match goes on with it. State 0 is the begin.
    pub fn step(&self, state: usize, name: u16) -> Option<usize> {
        self.matcher.borrow_mut().step(state, name)
    }

    /// The names that can come next, rising.
    pub fn names(&self, state: usize) -> Vec<u16> {
        self.matcher.borrow_mut().letters(state)
    }

    pub fn may_end(&self, state: usize) -> bool {
        self.matcher.borrow().may_end(state)
    }
}

impl Grammar {
    /// How many fixed attributes there are.
    pub fn fixed(&self) -> usize {
        self.elements.iter().flat_map(|element| &element.attributes).filter(|attribute| attribute.fixed.is_some()).count()
    }

    /// The declaration of a name, if it is below E.
    pub fn declaration(&self, name: u16) -> Option<&Declaration> {
        self.elements.get(usize::from(name))
    }
}

impl Declaration {
    pub fn attribute(&self, number: u16) -> Option<&Attribute> {
        self.attributes.iter().find(|attribute| attribute.number == number)
    }

    /// The first of these children and texts at which no content of the element can begin that way; their count, if they stop too early;
    /// None if they are what it may hold. A child is a name, a text is None.
    pub fn stop(&self, items: &[Option<u16>]) -> Option<usize> {
        match &self.content {
            Content::Empty => (!items.is_empty()).then_some(0),
            Content::Text => match items {
                [] | [None] => None,
                [None, ..] => Some(1),
                [Some(_), ..] => Some(0),
            },
            Content::Model(model) => stop(items, &|state, name| model.step(state, name), &|state| model.may_end(state)),
            Content::Run(run) => stop(items, &|state, name| run.step(state, name), &|state| run.may_end(state)),
        }
    }
}

/// The first item with which nothing goes on from the state before it; the count of all, if there may be no end.
fn stop(items: &[Option<u16>], step: &dyn Fn(usize, u16) -> Option<usize>, may_end: &dyn Fn(usize) -> bool) -> Option<usize> {
    let mut state = 0;
    for (i, item) in items.iter().enumerate() {
        match item.and_then(|name| step(state, name)) {
            Some(next) => state = next,
            None => return Some(i),
        }
    }
    (!may_end(state)).then_some(items.len())
}
