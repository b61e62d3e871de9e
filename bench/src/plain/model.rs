//! A content model: its symbols read to the sets of occurrences.

use super::members;

pub const MOST_NAMES: usize = 64;

/// The sets of a model, over its occurrences.
pub struct Model {
    pub names: Vec<u64>,
    pub follow: Vec<u64>,
    pub empty: bool,
    pub first: u64,
    pub last: u64,
}

/// What is known of a part of the expression.
struct Part {
    empty: bool,
    first: u64,
    last: u64,
}

const SEQUENCE: u32 = 0;
const CHOICE: u32 = 1;
const OPTIONAL: u32 = 2;
const ANY_NUMBER: u32 = 3;
const FIRST_NAME: u32 = 5;

impl Model {
    /// `None` if the symbols are not exactly one expression, or more than 64 names occur.
    pub fn read(symbols: &[u32]) -> Option<Model> {
        let mut model = Model { names: Vec::new(), follow: Vec::new(), empty: false, first: 0, last: 0 };
        let mut rest = symbols.iter();
        let whole = model.part(&mut rest)?;
        if rest.next().is_some() {
            return None;
        }
        model.empty = whole.empty;
        model.first = whole.first;
        model.last = whole.last;
        Some(model)
    }

    fn part<'a>(&mut self, symbols: &mut impl Iterator<Item = &'a u32>) -> Option<Part> {
        match *symbols.next()? {
            SEQUENCE => {
                let a = self.part(symbols)?;
                let b = self.part(symbols)?;
                self.join(a.last, b.first);
                Some(Part {
                    empty: a.empty && b.empty,
                    first: if a.empty { a.first | b.first } else { a.first },
                    last: if b.empty { a.last | b.last } else { b.last },
                })
            }
            CHOICE => {
                let a = self.part(symbols)?;
                let b = self.part(symbols)?;
                Some(Part { empty: a.empty || b.empty, first: a.first | b.first, last: a.last | b.last })
            }
            OPTIONAL => {
                let a = self.part(symbols)?;
                Some(Part { empty: true, ..a })
            }
            symbol if symbol < FIRST_NAME => {
                let a = self.part(symbols)?;
                self.join(a.last, a.first);
                Some(Part { empty: a.empty || symbol == ANY_NUMBER, ..a })
            }
            symbol => {
                if self.names.len() == MOST_NAMES {
                    return None;
                }
                let occurrence = 1 << self.names.len();
                self.names.push(u64::from(symbol - FIRST_NAME));
                self.follow.push(0);
                Some(Part { empty: false, first: occurrence, last: occurrence })
            }
        }
    }

    /// Each of `next` can come directly after each of `last`.
    fn join(&mut self, last: u64, next: u64) {
        for k in members(last) {
            self.follow[k] |= next;
        }
    }

    pub fn is_ambiguous(&self) -> bool {
        !one_of_each(&self.names, self.first) || self.follow.iter().any(|&set| !one_of_each(&self.names, set))
    }
}

/// No two occurrences in the set have the same name. Names are below 64.
pub fn one_of_each(names: &[u64], set: u64) -> bool {
    let mut seen = 0u64;
    for k in members(set) {
        let name = 1 << names[k];
        if seen & name != 0 {
            return false;
        }
        seen |= name;
    }
    true
}
