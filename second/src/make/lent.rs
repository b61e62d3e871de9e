//! What a case is lent: a table, a document in its buffer, and what stood in buffers before.

use super::documents::{self, Ground, Scale};
use super::sizes::Sizes;
use super::{faults, files, fixed, tables};
use crate::case::Table;
use crate::random::Random;
use std::rc::Rc;

/// A table with what is needed to grow documents for it.
pub struct Base {
    pub table: Rc<Table>,
    sizes: Sizes,
}

impl Base {
    /// None if the table is not proper.
    pub fn new(table: Table) -> Option<Base> {
        let sizes = documents::sizes_of(table.grammar.as_ref()?);
        Some(Base { table: Rc::new(table), sizes })
    }

    pub fn ground(&self) -> Ground<'_> {
        Ground { grammar: self.table.grammar.as_ref().expect("a base is proper"), sizes: &self.sizes }
    }
}

/// The table itself, or now and then one with a changed word or another length.
pub fn lent_table(random: &mut Random, base: &Base) -> Rc<Table> {
    if random.chance(93) {
        return Rc::clone(&base.table);
    }
    lent_changed(random, base)
}

pub fn lent_changed(random: &mut Random, base: &Base) -> Rc<Table> {
    let mut words = base.table.words.clone();
    match random.below(10) {
        0..=4 => tables::change_word(random, &mut words),
        5..=7 => fixed::break_table(random, &mut words),
        _ => tables::change_length(random, &mut words),
    }
    Rc::new(Table::of_words(words))
}

/// A document in its buffer, and its length: grown, grown with faults, or noise.
pub fn lent_document(random: &mut Random, ground: &Ground, scale: Scale) -> (Vec<u32>, u64) {
    let mut root = documents::document(random, ground, scale);
    let way = random.below(20);
    if way >= 11 {
        for _ in 0..random.within(1, 3) {
            faults::in_tree(random, &mut root, ground.grammar);
        }
    }
    let mut buffer = root.tokens();
    if way == 19 {
        match random.chance(70) {
            true => faults::in_tokens(random, &mut buffer),
            false => buffer = faults::noise(random, 30),
        }
    }
    let used = buffer.len();
    let room = match random.below(10) {
        0 => used,
        1 => used + 1,
        2 => used + random.below(12),
        3 => used + random.below(400),
        4 | 5 if scale != Scale::Tiny => used.max(8_192),
        6 if scale != Scale::Tiny => used.max(8_192) + random.below(700),
        7 if random.chance(40) => 8_192 + random.below(2_000),
        _ => used + random.below(80),
    };
    let behind = files::old_tokens(random, room.saturating_sub(used));
    buffer.extend(behind);
    (buffer, used as u64)
}

/// A used length of any sort.
pub fn other_used(random: &mut Random, used: u64, room: usize) -> u64 {
    match random.below(10) {
        0 => random.below(3) as u64,
        1 => used + 1,
        2 => used.saturating_sub(1),
        3 => room as u64,
        4 => room as u64 + 1,
        5 => used + (1 << 32),
        6 => *random.pick(&[8_191, 8_192, 8_193, 65_536, 1 << 31, 1 << 32, 1 << 63, u64::MAX]),
        7 => random.bits(),
        _ => random.below(room + 2) as u64,
    }
}

/// Words that stand in a table buffer before a call.
pub fn old_words(random: &mut Random, length: usize) -> Vec<u64> {
    match random.chance(30) {
        true => vec![random.bits(); length],
        false => (0..length).map(|_| random.bits()).collect(),
    }
}
