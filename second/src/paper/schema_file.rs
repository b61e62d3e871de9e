//! "Schema file": read from the front, the first fault deciding; and written.

use super::answer::{AMBIGUOUS, BROKEN, SCHEMA};
use super::expression::Expression;
use super::grammar::{Attribute, Content, Declaration, Grammar, Kind, Model, KINDS};
use super::{numbers, occurrences};

/// "Up to 16 in a schema."
pub const MOST_FIXED: usize = 16;

struct Reading<'a> {
    rest: &'a [u8],
    /// Fixed attributes met.
    fixed: usize,
    /// Which rule of fixed attributes was broken, if one was.
    broken: Option<&'static str>,
}

impl Reading<'_> {
    /// The next number, which must lie from `low` to `high`.
    fn number(&mut self, low: u32, high: u32) -> Result<u32, u32> {
        let (number, bytes) = numbers::number(self.rest).map_err(|_| BROKEN)?;
        self.rest = &self.rest[bytes..];
        match low <= number && number <= high {
            true => Ok(number),
            false => Err(SCHEMA),
        }
    }

    fn content(&mut self, elements: u32) -> Result<Content, u32> {
        Ok(match self.number(0, 2)? {
            0 => Content::Empty,
            1 => Content::Text,
            _ => Content::Model(self.model(elements)?),
        })
    }

    fn model(&mut self, elements: u32) -> Result<Model, u32> {
        let count = self.number(1, 255)?;
        let symbols = (0..count).map(|_| self.number(0, 4 + elements)).collect::<Result<Vec<u32>, u32>>()?;
        let expression = Expression::of_symbols(&symbols).ok_or(SCHEMA)?;
        if expression.names().len() > 64 {
            return Err(SCHEMA);
        }
        if occurrences::of(&expression).ambiguous {
            return Err(AMBIGUOUS);
        }
        Ok(Model::new(expression))
    }

    fn attributes(&mut self) -> Result<Vec<Attribute>, u32> {
        let count = self.number(0, 64)?;
        let mut attributes: Vec<Attribute> = Vec::new();
        for _ in 0..count {
            let lowest = attributes.last().map_or(0, |before| u32::from(before.number) + 1);
            let number = self.number(lowest, 63)? as u16;
            let kind = KINDS[self.number(0, 3)? as usize];
            if kind == Kind::Id && attributes.iter().any(|before| before.kind == Kind::Id) {
                return Err(SCHEMA);
            }
            let status = self.number(0, 2)?;
            let fixed = if status == 2 { Some(self.fixed(kind)?) } else { None };
            attributes.push(Attribute { number, kind, required: status == 0, fixed });
        }
        Ok(attributes)
    }

    /// The value of a fixed attribute. "a seventeenth fixed attribute, one not CDATA, or a value over 65,535 is 2 where its number stands"
    fn fixed(&mut self, kind: Kind) -> Result<u16, u32> {
        if kind != Kind::Cdata || self.fixed == MOST_FIXED {
            self.broken = Some(if kind != Kind::Cdata { "fixed, not CDATA" } else { "fixed, 17th" });
            return Err(SCHEMA);
        }
        self.fixed += 1;
        let value = self.number(0, numbers::LARGEST)?;
        u16::try_from(value).map_err(|_| {
            self.broken = Some("fixed, value");
            SCHEMA
        })
    }

    fn schema(&mut self) -> Result<Grammar, u32> {
        let count = self.number(1, 48)?;
        let root = self.number(0, count - 1)? as usize;
        let mut elements = Vec::new();
        for _ in 0..count {
            let content = self.content(count)?;
            elements.push(Declaration { content, attributes: self.attributes()? });
        }
        match self.rest.is_empty() {
            true => Ok(Grammar { root, elements }),
            false => Err(SCHEMA),
        }
    }
}

/// The schema of a file, or the number of the refusal.
pub fn read(file: &[u8]) -> Result<Grammar, u32> {
    read_telling(file).0
}

/// The same, and the rule of fixed attributes that is broken, if it is one.
pub fn read_telling(file: &[u8]) -> (Result<Grammar, u32>, Option<&'static str>) {
    let mut reading = Reading { rest: file, fixed: 0, broken: None };
    let read = reading.schema();
    (read, reading.broken)
}

/// The numbers of a schema's file. The models must be expressions.
pub fn numbers_of(grammar: &Grammar) -> Vec<u32> {
    let mut file = vec![grammar.elements.len() as u32, grammar.root as u32];
    for element in &grammar.elements {
        match &element.content {
            Content::Empty => file.push(0),
            Content::Text => file.push(1),
            Content::Model(model) => {
                let symbols = model.expression.symbols();
                file.extend([2, symbols.len() as u32]);
                file.extend(symbols);
            }
            Content::Run(_) => panic!("a table that no schema gives has no file"),
        }
        file.push(element.attributes.len() as u32);
        for attribute in &element.attributes {
            let kind = KINDS.iter().position(|kind| *kind == attribute.kind).expect("one of four") as u32;
            file.extend([u32::from(attribute.number), kind]);
            match attribute.fixed {
                Some(value) => file.extend([2, u32::from(value)]),
                None => file.push(u32::from(!attribute.required)),
            }
        }
    }
    file
}
