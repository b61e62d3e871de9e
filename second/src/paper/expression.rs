//! A content model's expression, as a tree.

#[derive(Clone, Debug, PartialEq)]
pub enum Expression {
    Sequence(Box<Expression>, Box<Expression>),
    Choice(Box<Expression>, Box<Expression>),
    Optional(Box<Expression>),
    Star(Box<Expression>),
    Plus(Box<Expression>),
    Name(u16),
}

use Expression::{Choice, Name, Optional, Plus, Sequence, Star};

impl Expression {
    /// The expression that exactly these symbols are.
    pub fn of_symbols(symbols: &[u32]) -> Option<Expression> {
        let mut rest = symbols.iter().copied();
        let whole = Expression::take(&mut rest)?;
        match rest.next() {
            None => Some(whole),
            Some(_) => None,
        }
    }

    fn take(symbols: &mut impl Iterator<Item = u32>) -> Option<Expression> {
        let symbol = symbols.next()?;
        if symbol >= 5 {
            return Some(Name((symbol - 5) as u16));
        }
        let one = Box::new(Expression::take(symbols)?);
        Some(match symbol {
            0 => Sequence(one, Box::new(Expression::take(symbols)?)),
            1 => Choice(one, Box::new(Expression::take(symbols)?)),
            2 => Optional(one),
            3 => Star(one),
            _ => Plus(one),
        })
    }

    /// The symbols, an operator before its parts.
    pub fn symbols(&self) -> Vec<u32> {
        let mut symbols = Vec::new();
        self.put_symbols(&mut symbols);
        symbols
    }

    fn put_symbols(&self, symbols: &mut Vec<u32>) {
        symbols.push(match self {
            Sequence(..) => 0,
            Choice(..) => 1,
            Optional(_) => 2,
            Star(_) => 3,
            Plus(_) => 4,
            Name(name) => 5 + u32::from(*name),
        });
        for part in self.parts() {
            part.put_symbols(symbols);
        }
    }

    pub fn parts(&self) -> Vec<&Expression> {
        match self {
            Sequence(one, two) | Choice(one, two) => vec![&**one, &**two],
            Optional(one) | Star(one) | Plus(one) => vec![&**one],
            Name(_) => vec![],
        }
    }

    /// The names in reading order, one for each occurrence.
    pub fn names(&self) -> Vec<u16> {
        match self {
            Name(name) => vec![*name],
            _ => self.parts().iter().flat_map(|part| part.names()).collect(),
        }
    }

    /// The same expression over its occurrences: name k is replaced by k, in reading order.
    pub fn marked(&self) -> Expression {
        self.mark(&mut 0)
    }

    fn mark(&self, next: &mut u16) -> Expression {
        match self {
            Sequence(one, two) => {
                let one = one.mark(next);
                Sequence(Box::new(one), Box::new(two.mark(next)))
            }
            Choice(one, two) => {
                let one = one.mark(next);
                Choice(Box::new(one), Box::new(two.mark(next)))
            }
            Optional(one) => Optional(Box::new(one.mark(next))),
            Star(one) => Star(Box::new(one.mark(next))),
            Plus(one) => Plus(Box::new(one.mark(next))),
            Name(_) => {
                *next += 1;
                Name(*next - 1)
            }
        }
    }
}
