//! Item 4, "DTD files as they come": the tree of a text is searched for faults, numbered and written.

pub mod declarations;
pub mod words;

use super::answer::{AMBIGUOUS, DTD, ROOM, SCHEMA};
use super::expression::Expression;
use super::grammar::{self, Grammar, Kind};
use super::{numbers, occurrences, schema_file};
use declarations::{Content, Declaration, Form, Model, Span, Tree};
use std::collections::{HashMap, HashSet};

/// A number and an offset in a text: 0 at 0 for one that is taken.
#[derive(Clone, Copy, Debug, PartialEq)]
pub struct Spot {
    pub number: u32,
    pub offset: u64,
}

/// The most elements, different attributes, symbols and names of a model.
const MOST: (usize, usize, usize, usize) = (48, 64, 255, 64);

/// A text that is taken, with its names in order.
struct Taken<'a> {
    text: &'a [u8],
    tree: Tree,
    elements: Vec<&'a [u8]>,
    attributes: Vec<&'a [u8]>,
}

/// The schema file of a text, or the number of the refusal.
pub fn import(text: &[u8], room: usize) -> Result<Vec<u8>, u32> {
    let taken = take(text).map_err(|spot| spot.number)?;
    within(numbers::file_of(&schema_file::numbers_of(&taken.grammar())), room)
}

/// The names of a text, each ended by byte 10, or the number of the refusal.
pub fn names(text: &[u8], room: usize) -> Result<Vec<u8>, u32> {
    let taken = take(text).map_err(|spot| spot.number)?;
    let names = taken.elements.iter().chain(&taken.attributes);
    within(names.flat_map(|name| [name, &b"\n"[..]].concat()).collect(), room)
}

fn within(bytes: Vec<u8>, room: usize) -> Result<Vec<u8>, u32> {
    match bytes.len() <= room {
        true => Ok(bytes),
        false => Err(ROOM),
    }
}

/// Where a text is refused.
pub fn spot(text: &[u8]) -> Spot {
    match take(text) {
        Ok(_) => Spot { number: 0, offset: 0 },
        Err(spot) => spot,
    }
}

/// The schema that a text says by its own expressions, or the number of a refusal: the import's, or 3 for an ambiguous model.
pub fn grammar(text: &[u8]) -> Result<Grammar, u32> {
    let grammar = take(text).map_err(|spot| spot.number)?.grammar();
    let is_ambiguous = |declaration: &grammar::Declaration| match &declaration.content {
        grammar::Content::Model(model) => occurrences::of(&model.expression).ambiguous,
        _ => false,
    };
    match grammar.elements.iter().any(is_ambiguous) {
        true => Err(AMBIGUOUS),
        false => Ok(grammar),
    }
}

fn take(text: &[u8]) -> Result<Taken<'_>, Spot> {
    let tree = declarations::read(text);
    // What is declared stands before the byte at which reading stopped, if it did; what is missing is found at the end.
    if let Some(spot) = declared_fault(text, &tree) {
        return Err(spot);
    }
    if let Some(offset) = tree.stopped {
        return Err(Spot { number: DTD, offset: offset as u64 });
    }
    let names: Vec<&[u8]> = tree.declarations.iter().filter_map(Declaration::declared).map(|span| &text[span]).collect();
    let mut all_named = tree.declarations.iter().flat_map(Declaration::named);
    if names.is_empty() {
        return Err(Spot { number: DTD, offset: text.len() as u64 });
    }
    if let Some(span) = all_named.find(|span| !names.contains(&&text[span.clone()])) {
        return Err(Spot { number: DTD, offset: span.start as u64 });
    }
    drop(all_named);
    let mut attributes = Vec::new();
    for name in tree.declarations.iter().flat_map(Declaration::attributes).map(|attribute| &text[attribute.name.clone()]) {
        if !attributes.contains(&name) {
            attributes.push(name);
        }
    }
    Ok(Taken { text, tree, elements: names, attributes })
}

/// The first fault in what is declared.
fn declared_fault(text: &[u8], tree: &Tree) -> Option<Spot> {
    let at = |number: u32, span: &Span| Some(Spot { number, offset: span.start as u64 });
    let mut elements: HashSet<&[u8]> = HashSet::new();
    let mut attributes: HashSet<&[u8]> = HashSet::new();
    let mut given: HashMap<&[u8], HashSet<&[u8]>> = HashMap::new();
    let mut with_id: HashSet<&[u8]> = HashSet::new();
    for declaration in &tree.declarations {
        match declaration {
            Declaration::Element { name, content } => {
                if !elements.insert(&text[name.clone()]) {
                    return at(DTD, name);
                }
                if elements.len() > MOST.0 {
                    return at(SCHEMA, name);
                }
                match content {
                    Some(Content::Model(model)) if model.symbols() > MOST.2 || model.names() > MOST.3 => return at(SCHEMA, &model.span),
                    _ => {}
                }
            }
            Declaration::Attlist { element, attributes: list } => {
                let element = &text[element.clone()];
                for attribute in list {
                    let name = &text[attribute.name.clone()];
                    if !given.entry(element).or_default().insert(name) {
                        return at(DTD, &attribute.name);
                    }
                    attributes.insert(name);
                    if attributes.len() > MOST.1 {
                        return at(SCHEMA, &attribute.name);
                    }
                    match &attribute.kind {
                        Some((Kind::Id, span)) if !with_id.insert(element) => return at(SCHEMA, span),
                        _ => {}
                    }
                }
            }
        }
    }
    None
}

impl Declaration {
    /// The element that is declared.
    fn declared(&self) -> Option<Span> {
        match self {
            Declaration::Element { name, .. } => Some(name.clone()),
            Declaration::Attlist { .. } => None,
        }
    }

    /// The elements that are named, by a model or an attribute list.
    fn named(&self) -> Vec<Span> {
        match self {
            Declaration::Element { content: Some(Content::Model(model)), .. } => model.spans().cloned().collect(),
            Declaration::Element { .. } => vec![],
            Declaration::Attlist { element, .. } => vec![element.clone()],
        }
    }

    fn attributes(&self) -> &[declarations::Attribute] {
        match self {
            Declaration::Element { .. } => &[],
            Declaration::Attlist { attributes, .. } => attributes,
        }
    }
}

impl Model {
    fn spans(&self) -> impl Iterator<Item = &Span> {
        self.parts.iter().filter_map(|part| match &part.form {
            Form::Name(span) => Some(span),
            Form::Bracket(..) => None,
        })
    }

    fn names(&self) -> usize {
        self.spans().count()
    }

    /// Each name, each suffix and each mark between two parts is a symbol.
    fn symbols(&self) -> usize {
        let own = |form: &Form| match form {
            Form::Name(_) => 1,
            Form::Bracket(_, parts) => parts.len() - 1,
        };
        self.parts.iter().map(|part| own(&part.form) + usize::from(part.suffix.is_some())).sum()
    }
}

impl Taken<'_> {
    /// The schema, its models by the text's expressions.
    fn grammar(&self) -> Grammar {
        let elements = self.tree.declarations.iter().filter_map(|declaration| match declaration {
            Declaration::Element { name, content: Some(content) } => Some((&self.text[name.clone()], content)),
            _ => None,
        });
        let declared = |(name, content): (&[u8], &Content)| grammar::Declaration {
            content: match content {
                Content::Empty => grammar::Content::Empty,
                Content::Text => grammar::Content::Text,
                Content::Model(model) => grammar::Content::Model(grammar::Model::new(self.expression(model, model.parts.len() - 1))),
            },
            attributes: self.attributes_of(name),
        };
        Grammar { root: 0, elements: elements.map(declared).collect() }
    }

    /// The attributes of an element in all its lists, by rising number.
    fn attributes_of(&self, element: &[u8]) -> Vec<grammar::Attribute> {
        let is_its = |declaration: &&Declaration| match declaration {
            Declaration::Attlist { element: named, .. } => &self.text[named.clone()] == element,
            Declaration::Element { .. } => false,
        };
        let lists = self.tree.declarations.iter().filter(is_its);
        let mut attributes: Vec<grammar::Attribute> = lists.flat_map(Declaration::attributes).map(|one| self.attribute(one)).collect();
        attributes.sort_by_key(|attribute| attribute.number);
        attributes
    }

    fn attribute(&self, attribute: &declarations::Attribute) -> grammar::Attribute {
        let number = number_of(&self.attributes, &self.text[attribute.name.clone()]);
        let (kind, _) = attribute.kind.as_ref().expect("the text was read to its end");
        grammar::Attribute { number, kind: *kind, required: attribute.required, fixed: None }
    }

    /// The expression of a part of a model: a bracket round one part is that part, and of several the first stands against the rest.
    fn expression(&self, model: &Model, mut part: usize) -> Expression {
        while let declarations::Part { form: Form::Bracket(None, inside), suffix: None } = &model.parts[part] {
            part = inside[0];
        }
        let bare = match &model.parts[part].form {
            Form::Name(span) => Expression::Name(number_of(&self.elements, &self.text[span.clone()])),
            Form::Bracket(separator, inside) => {
                let join = if *separator == Some(b',') { Expression::Sequence } else { Expression::Choice };
                let mut parts = inside.iter().rev().map(|part| self.expression(model, *part));
                let last = parts.next().expect("a bracket has a part");
                parts.fold(last, |rest, one| join(Box::new(one), Box::new(rest)))
            }
        };
        match model.parts[part].suffix {
            None => bare,
            Some(b'?') => Expression::Optional(Box::new(bare)),
            Some(b'*') => Expression::Star(Box::new(bare)),
            Some(_) => Expression::Plus(Box::new(bare)),
        }
    }
}

fn number_of(names: &[&[u8]], name: &[u8]) -> u16 {
    names.iter().position(|known| *known == name).expect("a name that was met") as u16
}
