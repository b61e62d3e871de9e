//! The table: its layout, what a proper one is, one element's block.

use super::members;
use super::model::one_of_each;

pub const ELEMENTS: usize = 48;
pub const BLOCK: usize = 138;
/// Behind the blocks: the count of fixed attributes, and entries of element, attribute and value.
pub const FIXED: usize = 2 + ELEMENTS * BLOCK;
pub const MOST_FIXED: usize = 16;
const ENTRY: usize = 3;
pub const WORDS: usize = FIXED + 1 + MOST_FIXED * ENTRY;

pub const EMPTY: u64 = 0;
pub const TEXT: u64 = 1;
pub const MODEL: u64 = 2;

/// Places in a block.
pub mod at {
    pub const KIND: usize = 0;
    pub const ALLOWED: usize = 1;
    pub const REQUIRED: usize = 2;
    pub const ID: usize = 3;
    pub const IDREF: usize = 4;
    pub const IDREFS: usize = 5;
    pub const COUNT: usize = 6;
    pub const NO_CHILD: usize = 7;
    pub const FIRST: usize = 8;
    pub const LAST: usize = 9;
    pub const NAMES: usize = 10;
    pub const FOLLOW: usize = 74;
}

/// A table that was found proper.
#[derive(Clone, Copy)]
pub struct Table<'a> {
    words: &'a [u64],
}

impl<'a> Table<'a> {
    pub fn proper(words: &'a [u64]) -> Option<Table<'a>> {
        if words.len() != WORDS {
            return None;
        }
        let (elements, root) = (words[0], words[1]);
        if elements < 1 || elements > ELEMENTS as u64 || root >= elements {
            return None;
        }
        let (used, unused) = words[2..FIXED].split_at(elements as usize * BLOCK);
        let proper = used.chunks_exact(BLOCK).all(|block| Element { block }.is_proper(elements)) && all_zero(unused);
        let table = Table { words };
        if proper && table.has_proper_entries() {
            Some(table)
        } else {
            None
        }
    }

    /// The entries of fixed attributes rise, and each names an attribute that may be fixed.
    fn has_proper_entries(&self) -> bool {
        let count = self.words[FIXED];
        if count > MOST_FIXED as u64 {
            return false;
        }
        let (entries, no_entries) = self.words[FIXED + 1..].split_at(count as usize * ENTRY);
        let mut before = None;
        let proper = entries.chunks_exact(ENTRY).all(|entry| {
            let rises = before < Some((entry[0], entry[1]));
            before = Some((entry[0], entry[1]));
            rises && self.may_be_fixed(entry[0], entry[1]) && entry[2] <= 65_535
        });
        proper && all_zero(no_entries)
    }

    fn may_be_fixed(&self, element: u64, attribute: u64) -> bool {
        let element = if element < self.words[0] { self.element(element as u32) } else { None };
        element.map_or(false, |element| {
            let others = element.required() | element.id() | element.idref() | element.idrefs();
            attribute < 64 && (element.allowed() & !others) >> attribute & 1 == 1
        })
    }

    /// The value to which an attribute of an element is fixed, if it is.
    pub fn fixed(&self, element: u32, attribute: u32) -> Option<u32> {
        let entries = self.words[FIXED + 1..].chunks_exact(ENTRY).take(self.words[FIXED] as usize);
        let mut alike = entries.filter(|entry| entry[0] == u64::from(element) && entry[1] == u64::from(attribute));
        alike.next().map(|entry| entry[2] as u32)
    }

    /// Adds an entry, for which there is room.
    pub fn add_fixed(words: &mut [u64], element: u32, attribute: u32, value: u32) {
        let at = FIXED + 1 + words[FIXED] as usize * ENTRY;
        words[at..at + ENTRY].copy_from_slice(&[u64::from(element), u64::from(attribute), u64::from(value)]);
        words[FIXED] += 1;
    }

    pub fn elements(&self) -> u32 {
        self.words[0] as u32
    }

    pub fn root(&self) -> u32 {
        self.words[1] as u32
    }

    /// The block of a declared element.
    pub fn element(&self, name: u32) -> Option<Element<'a>> {
        if u64::from(name) >= self.words[0] {
            return None;
        }
        let begin = 2 + name as usize * BLOCK;
        Some(Element { block: &self.words[begin..begin + BLOCK] })
    }
}

/// Where a run of a model stands: at the start, or behind an occurrence.
#[derive(Clone, Copy)]
pub enum State {
    Start,
    Behind(usize),
}

impl State {
    pub fn number(self) -> usize {
        match self {
            State::Start => 0,
            State::Behind(k) => 1 + k,
        }
    }
}

#[derive(Clone, Copy)]
pub struct Element<'a> {
    block: &'a [u64],
}

impl<'a> Element<'a> {
    pub fn kind(&self) -> u64 {
        self.block[at::KIND]
    }

    pub fn allowed(&self) -> u64 {
        self.block[at::ALLOWED]
    }

    pub fn required(&self) -> u64 {
        self.block[at::REQUIRED]
    }

    pub fn id(&self) -> u64 {
        self.block[at::ID]
    }

    pub fn idref(&self) -> u64 {
        self.block[at::IDREF]
    }

    pub fn idrefs(&self) -> u64 {
        self.block[at::IDREFS]
    }

    fn is_proper(&self, elements: u64) -> bool {
        let (id, idref, idrefs) = (self.id(), self.idref(), self.idrefs());
        let attributes_proper = (self.required() | id | idref | idrefs) & !self.allowed() == 0
            && id & idref == 0
            && id & idrefs == 0
            && idref & idrefs == 0
            && id.count_ones() <= 1;
        attributes_proper
            && match self.kind() {
                EMPTY | TEXT => all_zero(&self.block[at::COUNT..]),
                MODEL => self.is_model_proper(elements),
                _ => false,
            }
    }

    fn is_model_proper(&self, elements: u64) -> bool {
        let count = self.block[at::COUNT];
        if !(1..=64).contains(&count) {
            return false;
        }
        let (names, no_names) = self.block[at::NAMES..at::FOLLOW].split_at(count as usize);
        let (follow, no_follow) = self.block[at::FOLLOW..].split_at(count as usize);
        let lowest = u64::MAX >> (64 - count);
        let (first, last) = (self.block[at::FIRST], self.block[at::LAST]);
        self.block[at::NO_CHILD] <= 1
            && names.iter().all(|&name| name < elements)
            && last & !lowest == 0
            && first & !lowest == 0
            && one_of_each(names, first)
            && follow.iter().all(|&set| set & !lowest == 0 && one_of_each(names, set))
            && all_zero(no_names)
            && all_zero(no_follow)
    }

    /// The state behind one more child, if the content takes it.
    pub fn next(&self, state: State, name: u32) -> Option<State> {
        let set = match state {
            State::Start => self.block[at::FIRST],
            State::Behind(k) => self.block[at::FOLLOW + k],
        };
        members(set).find(|&k| self.block[at::NAMES + k] == u64::from(name)).map(State::Behind)
    }

    /// Whether the children may end there.
    pub fn ends(&self, state: State) -> bool {
        match state {
            State::Start => self.kind() == EMPTY || self.block[at::NO_CHILD] == 1,
            State::Behind(k) => self.block[at::LAST] >> k & 1 == 1,
        }
    }

    pub fn run(&self) -> Run<'a> {
        Run {
            names: &self.block[at::NAMES..at::FOLLOW],
            follow: &self.block[at::FOLLOW..],
            next: self.block[at::FIRST],
            may_end: self.block[at::NO_CHILD] == 1,
            last: self.block[at::LAST],
        }
    }
}

fn all_zero(words: &[u64]) -> bool {
    words.iter().all(|&word| word == 0)
}

/// A model being run over children: begin in first, move by follow, end in last.
pub struct Run<'a> {
    names: &'a [u64],
    follow: &'a [u64],
    next: u64,
    last: u64,
    may_end: bool,
}

impl Run<'_> {
    /// False if no occurrence of that name can come next.
    pub fn step(&mut self, name: u32) -> bool {
        match members(self.next).find(|&k| self.names[k] == u64::from(name)) {
            Some(k) => {
                self.next = self.follow[k];
                self.may_end = self.last >> k & 1 == 1;
                true
            }
            None => false,
        }
    }

    pub fn may_end(&self) -> bool {
        self.may_end
    }
}
