//! "Table": the words of a schema, what is proper, and what a proper table asks of a document.

use super::grammar::{Attribute, Content, Declaration, Grammar, Kind, KINDS};
use super::occurrences;

pub const WORDS: usize = 6_675;
pub const BLOCKS: usize = 48;
pub const BLOCK: usize = 138;

/// Where the parts of a block stand. `KIND_SETS` are the sets of ID, IDREF and IDREFS.
pub const ALLOWED: usize = 1;
pub const REQUIRED: usize = 2;
pub const KIND_SETS: usize = 3;
pub const COUNT: usize = 6;
pub const NO_CHILD: usize = 7;
pub const FIRST: usize = 8;
pub const LAST: usize = 9;
pub const NAMES: usize = 10;
pub const FOLLOW: usize = 74;

/// Item 8: where the count of fixed attributes stands; behind it 16 entries of element, attribute and value.
pub const FIXED: usize = 2 + BLOCKS * BLOCK;
pub const ENTRIES: usize = FIXED + 1;

/// Where the block of an element begins.
pub fn block_at(element: usize) -> usize {
    2 + BLOCK * element
}

/// The table of a schema.
pub fn of(grammar: &Grammar) -> Vec<u64> {
    let mut words = vec![grammar.elements.len() as u64, grammar.root as u64];
    for element in &grammar.elements {
        words.extend(block_of(element));
    }
    words.resize(FIXED, 0);
    words.push(grammar.fixed() as u64);
    for (e, element) in grammar.elements.iter().enumerate() {
        for attribute in &element.attributes {
            words.extend(attribute.fixed.iter().flat_map(|value| [e as u64, u64::from(attribute.number), u64::from(*value)]));
        }
    }
    words.resize(WORDS, 0);
    words
}

fn block_of(element: &Declaration) -> Vec<u64> {
    let mut block = vec![0; BLOCK];
    for attribute in &element.attributes {
        let bit = 1 << attribute.number;
        block[ALLOWED] |= bit;
        block[REQUIRED] |= if attribute.required { bit } else { 0 };
        match attribute.kind {
            Kind::Cdata => {}
            Kind::Id => block[KIND_SETS] |= bit,
            Kind::Idref => block[KIND_SETS + 1] |= bit,
            Kind::Idrefs => block[KIND_SETS + 2] |= bit,
        }
    }
    match &element.content {
        Content::Empty => {}
        Content::Text => block[0] = 1,
        Content::Model(model) => {
            let found = occurrences::of(&model.expression);
            block[0] = 2;
            block[COUNT] = found.names.len() as u64;
            block[NO_CHILD] = u64::from(found.no_child);
            block[FIRST] = found.first;
            block[LAST] = found.last;
            for (k, name) in found.names.iter().enumerate() {
                block[NAMES + k] = u64::from(*name);
                block[FOLLOW + k] = found.follow[k];
            }
        }
        Content::Run(_) => panic!("a table that no schema gives is not made from a grammar"),
    }
    block
}

/// Whether a table is proper.
pub fn is_proper(words: &[u64]) -> bool {
    is_proper_but_fixed(words) && fixed_fault(words).is_none()
}

/// Whether a table is proper in all but its fixed attributes.
pub fn is_proper_but_fixed(words: &[u64]) -> bool {
    if words.len() != WORDS || words[0] < 1 || words[0] > BLOCKS as u64 || words[1] >= words[0] {
        return false;
    }
    let (declared, others) = words[..FIXED].split_at(block_at(words[0] as usize));
    others.iter().all(|word| *word == 0) && declared[2..].chunks(BLOCK).all(|block| is_proper_block(block, words[0]))
}

/// The first rule that the fixed attributes of such a table break: "entries rise strictly by element and then attribute, name an attribute
/// allowed, of no ID or reference kind and not required, [..] the count is at most 16, [..] values stay at or below 65,535 and [..] unused
/// entries are 0".
pub fn fixed_fault(words: &[u64]) -> Option<&'static str> {
    let count = usize::try_from(words[FIXED]).ok().filter(|count| *count <= 16);
    let (used, unused) = match count {
        Some(count) => words[ENTRIES..].split_at(3 * count),
        None => return Some("table: 17 fixed"),
    };
    let entries: Vec<&[u64]> = used.chunks(3).collect();
    if unused.iter().any(|word| *word != 0) {
        return Some("table: fixed unused");
    }
    if entries.windows(2).any(|pair| pair[0][..2] >= pair[1][..2]) {
        return Some("table: fixed rising");
    }
    entries.iter().find_map(|entry| entry_fault(words, entry))
}

fn entry_fault(words: &[u64], entry: &[u64]) -> Option<&'static str> {
    if entry[0] >= words[0] {
        return Some("table: fixed from E");
    }
    let block = &words[block_at(entry[0] as usize)..][..BLOCK];
    let is_in = |set: u64| entry[1] < 64 && set >> entry[1] & 1 == 1;
    if !is_in(block[ALLOWED]) {
        return Some("table: fixed barred");
    }
    if block[KIND_SETS..KIND_SETS + 3].iter().any(|set| is_in(*set)) {
        return Some("table: fixed key");
    }
    if is_in(block[REQUIRED]) {
        return Some("table: fixed needed");
    }
    (entry[2] > 65_535).then_some("table: fixed value")
}

fn is_proper_block(block: &[u64], elements: u64) -> bool {
    let allowed = block[ALLOWED];
    let (id, idref, idrefs) = (block[KIND_SETS], block[KIND_SETS + 1], block[KIND_SETS + 2]);
    let sets_fit = [block[REQUIRED], id, idref, idrefs].iter().all(|set| set & !allowed == 0);
    let sets_differ = (0..64).all(|bit| [id, idref, idrefs].iter().filter(|set| *set >> bit & 1 == 1).count() <= 1);
    if !sets_fit || !sets_differ || bits(id).len() > 1 {
        return false;
    }
    match block[0] {
        0 | 1 => block[COUNT..].iter().all(|word| *word == 0),
        2 => is_proper_model(block, elements),
        _ => false,
    }
}

fn is_proper_model(block: &[u64], elements: u64) -> bool {
    if block[COUNT] < 1 || block[COUNT] > 64 || block[NO_CHILD] > 1 {
        return false;
    }
    let n = block[COUNT] as usize;
    let (names, no_names) = block[NAMES..FOLLOW].split_at(n);
    let (follow, no_follow) = block[FOLLOW..].split_at(n);
    let lowest = |set: &u64| bits(*set).iter().all(|k| *k < n);
    let one_each = |set: &u64| {
        let set = bits(*set);
        set.iter().all(|j| set.iter().all(|k| j == k || names[*j] != names[*k]))
    };
    no_names.iter().chain(no_follow).all(|word| *word == 0)
        && names.iter().all(|name| *name < elements)
        && lowest(&block[LAST])
        && follow.iter().chain([&block[FIRST]]).all(|set| lowest(set) && one_each(set))
}

/// The numbers of the bits of a set, rising.
pub fn bits(set: u64) -> Vec<usize> {
    (0..64).filter(|bit| set >> bit & 1 == 1).collect()
}

/// The content of a block, to be run: begin in first, move by follow, end in last, or by the no-child flag.
#[derive(Debug)]
pub struct Run {
    pub no_child: bool,
    pub first: u64,
    pub last: u64,
    pub names: Vec<u16>,
    pub follow: Vec<u64>,
}

impl Run {
    pub fn describes(&self, children: &[u16]) -> bool {
        let end = children.iter().try_fold(0, |state, child| self.step(state, *child));
        end.map_or(false, |state| self.may_end(state))
    }

    /// The state after one more name, if the run goes on with it. State 0 is the begin, state k + 1 is at occurrence k.
    pub fn step(&self, state: usize, name: u16) -> Option<usize> {
        let may_come = if state == 0 { self.first } else { self.follow[state - 1] };
        bits(may_come).into_iter().find(|k| self.names[*k] == name).map(|k| k + 1)
    }

    /// The names that can come next, rising.
    pub fn names_after(&self, state: usize) -> Vec<u16> {
        let may_come = if state == 0 { self.first } else { self.follow[state - 1] };
        let mut names: Vec<u16> = bits(may_come).into_iter().map(|k| self.names[k]).collect();
        names.sort_unstable();
        names
    }

    pub fn may_end(&self, state: usize) -> bool {
        match state {
            0 => self.no_child,
            _ => self.last >> (state - 1) & 1 == 1,
        }
    }
}

/// What a proper table asks for, read from its words alone.
pub fn grammar_of(words: &[u64]) -> Option<Grammar> {
    if !is_proper(words) {
        return None;
    }
    let declared = &words[2..block_at(words[0] as usize)];
    let mut elements: Vec<Declaration> = declared.chunks(BLOCK).map(declaration_of).collect();
    for entry in words[ENTRIES..].chunks(3).take(words[FIXED] as usize) {
        let attributes = &mut elements[entry[0] as usize].attributes;
        let fixed = attributes.iter_mut().find(|attribute| u64::from(attribute.number) == entry[1]);
        fixed.expect("an attribute that is allowed").fixed = Some(entry[2] as u16);
    }
    Some(Grammar { root: words[1] as usize, elements })
}

fn declaration_of(block: &[u64]) -> Declaration {
    let n = block[COUNT] as usize;
    let content = match block[0] {
        0 => Content::Empty,
        1 => Content::Text,
        _ => Content::Run(Run {
            no_child: block[NO_CHILD] == 1,
            first: block[FIRST],
            last: block[LAST],
            names: block[NAMES..NAMES + n].iter().map(|name| *name as u16).collect(),
            follow: block[FOLLOW..FOLLOW + n].to_vec(),
        }),
    };
    let attribute = |bit: usize| {
        let kind = (0..3).find(|i| block[KIND_SETS + i] >> bit & 1 == 1).map_or(Kind::Cdata, |i| KINDS[i + 1]);
        Attribute { number: bit as u16, kind, required: block[REQUIRED] >> bit & 1 == 1, fixed: None }
    };
    Declaration { content, attributes: bits(block[ALLOWED]).into_iter().map(attribute).collect() }
}
