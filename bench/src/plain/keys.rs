//! IDs and references.

use super::shape::{number, sort, ATTRIBUTE, START, VALUE};
use super::table::{Element, Table};
use super::Fault;

/// How an ID met twice and a reference to none are found.
#[derive(Clone, Copy, PartialEq, Eq)]
pub enum Keys {
    /// Each value is compared with each ID.
    Pairs,
    /// Each ID is marked in a field of 65,536 bits.
    Field,
}

#[derive(Clone, Copy)]
struct Key {
    place: usize,
    value: u32,
}

/// What the values of an attribute are.
enum Role {
    Id,
    Reference,
    Neither,
}

/// The first ID met earlier (11), else the first reference that is no ID (12).
pub fn judge(table: Table, tokens: &[u32], keys: Keys) -> Result<(), Fault> {
    let (ids, references) = gather(table, tokens);
    match keys {
        Keys::Pairs => by_pairs(&ids, &references),
        Keys::Field => by_field(&ids, &references),
    }
}

fn gather(table: Table, tokens: &[u32]) -> (Vec<Key>, Vec<Key>) {
    let (mut ids, mut references) = (Vec::new(), Vec::new());
    let mut element = None;
    let mut role = Role::Neither;
    for (place, &token) in tokens.iter().enumerate() {
        match sort(token) {
            START => element = table.element(number(token)),
            ATTRIBUTE => role = role_of(element, number(token)),
            VALUE => match role {
                Role::Id => ids.push(Key { place, value: number(token) }),
                Role::Reference => references.push(Key { place, value: number(token) }),
                Role::Neither => {}
            },
            _ => {}
        }
    }
    (ids, references)
}

fn role_of(element: Option<Element>, attribute: u32) -> Role {
    match element {
        Some(element) if attribute < 64 => {
            let bit = 1u64 << attribute;
            if element.id() & bit != 0 {
                Role::Id
            } else if (element.idref() | element.idrefs()) & bit != 0 {
                Role::Reference
            } else {
                Role::Neither
            }
        }
        _ => Role::Neither,
    }
}

fn by_pairs(ids: &[Key], references: &[Key]) -> Result<(), Fault> {
    for (k, later) in ids.iter().enumerate() {
        if ids[..k].iter().any(|earlier| earlier.value == later.value) {
            return Err(Fault::at(11, later.place));
        }
    }
    for reference in references {
        if !ids.iter().any(|id| id.value == reference.value) {
            return Err(Fault::at(12, reference.place));
        }
    }
    Ok(())
}

fn by_field(ids: &[Key], references: &[Key]) -> Result<(), Fault> {
    let mut marked = [0u64; 1024];
    for id in ids {
        let word = &mut marked[id.value as usize / 64];
        let bit = 1 << (id.value % 64);
        if *word & bit != 0 {
            return Err(Fault::at(11, id.place));
        }
        *word |= bit;
    }
    for reference in references {
        if marked[reference.value as usize / 64] >> (reference.value % 64) & 1 == 0 {
            return Err(Fault::at(12, reference.place));
        }
    }
    Ok(())
}
