//! Random edits of a document: fitting ones, and ones with a fault in operation, place or piece.

use super::documents::{self, Ground, Scale};
use super::{faults, keys, pieces};
use crate::paper::edits::{Edit, DROP, INSERT, REMOVE, REPLACE, SET};
use crate::paper::grammar::{Content, Kind};
use crate::paper::spots::{element_at, spot, Spot};
use crate::paper::tree::{Attribute, Element, Item, Token};
use crate::paper::MOST_TOKENS;
use crate::random::Random;

/// An edit of a document that has shape.
pub fn edit(random: &mut Random, ground: &Ground, root: &Element) -> Edit {
    if random.chance(4) {
        return heavy(random, ground, root);
    }
    let operation = match pieces::operation(random) {
        REMOVE if root.content.is_empty() && random.chance(90) => INSERT,
        operation => operation,
    };
    let mut edit = fitting(random, ground, root, operation);
    if random.chance(30) {
        disturb(random, ground, root, &mut edit);
    }
    edit
}

/// An edit that brings or takes away thousands of tokens: another document, or a list of references that fills this one.
fn heavy(random: &mut Random, ground: &Ground, root: &Element) -> Edit {
    if random.chance(50) {
        if let Some(edit) = long_references(random, ground, root) {
            return edit;
        }
    }
    let scale = *random.pick(&[Scale::Tiny, Scale::Full]);
    Edit { operation: REPLACE, place: 0, piece: documents::document(random, ground, scale).tokens() }
}

/// A drop or a set of an IDREFS attribute, the document growing to 8,192 tokens if it was not there; None if there is no place for one.
fn long_references(random: &mut Random, ground: &Ground, root: &Element) -> Option<Edit> {
    let list_of = |token: u32| match Token::of(token) {
        Some(Token::Start(name)) => ground.grammar.declaration(name)?.attributes.iter().find(|known| known.kind == Kind::Idrefs),
        _ => None,
    };
    let tokens = root.tokens();
    let places: Vec<usize> = (0..tokens.len()).filter(|place| list_of(tokens[*place]).is_some()).collect();
    let ids = keys::ids(root, ground.grammar);
    if places.is_empty() || ids.is_empty() {
        return None;
    }
    let place = *random.pick(&places);
    let number = list_of(tokens[place])?.number;
    let count = (MOST_TOKENS - 1).saturating_sub(tokens.len()).max(1);
    let piece = Attribute { number, values: vec![*random.pick(&ids); count] }.tokens();
    match random.chance(40) {
        true => Some(Edit { operation: DROP, place: place as u64, piece: piece[..1].to_vec() }),
        false => Some(Edit { operation: SET, place: place as u64, piece }),
    }
}

/// An edit of tokens without shape.
pub fn blind(random: &mut Random, ground: &Ground, room: usize) -> Edit {
    let mut piece = vec![Token::Attribute(random.short()).code(), Token::Value(random.short()).code()];
    pieces::disturb(random, ground, &mut piece);
    Edit { operation: random.below(7) as u32, place: random.below(room + 2) as u64, piece }
}

/// An edit that is in form, and that the grammar allows if such a one is soon found.
fn fitting(random: &mut Random, ground: &Ground, root: &Element, operation: u32) -> Edit {
    let tokens = root.tokens();
    let ids = keys::ids(root, ground.grammar);
    let size = match random.below(30) {
        0 => random.within(100, 8_192),
        _ => *random.pick(&[0, 4, 12, 40]),
    };
    let mut edit = Edit { operation, place: 0, piece: Vec::new() };
    let undeclared = undeclared_places(ground, &tokens, operation);
    for _ in 0..5 {
        edit.place = place_of(random, &tokens, &undeclared, operation);
        let mut root = root.clone();
        let spot = spot(&root, edit.place);
        let fits = match operation {
            INSERT | REPLACE => {
                let (item, fits) = item_for(random, ground, &mut root, &spot, operation == REPLACE);
                edit.piece.clear();
                match item {
                    Some(name) => edit.piece = pieces::element(random, ground, name, size, &ids).tokens(),
                    None => edit.piece.push(Token::Text(random.short()).code()),
                }
                fits
            }
            REMOVE => can_go(ground, &mut root, &spot),
            SET | DROP => match &spot {
                Spot::Item(path) => match element_at(&mut root, path) {
                    Some(element) => attribute_edit(random, ground, element, &ids, &mut edit),
                    None => false,
                },
                _ => false,
            },
            _ => true,
        };
        if fits {
            break;
        }
    }
    edit
}

/// The places where an operation touches an element that is not declared.
fn undeclared_places(ground: &Ground, tokens: &[u32], operation: u32) -> Vec<usize> {
    let is_undeclared = |name: u16| ground.grammar.declaration(name).is_none();
    let mut places = Vec::new();
    let mut above: Vec<u16> = Vec::new();
    for (place, token) in tokens.iter().enumerate() {
        let below_one = above.last().map_or(false, |name| is_undeclared(*name));
        let suits = match (operation, Token::of(*token)) {
            (SET | DROP, Some(Token::Start(name))) => is_undeclared(name),
            (INSERT, Some(Token::End)) => below_one,
            (INSERT | REMOVE | REPLACE, Some(Token::Start(_) | Token::Text(_))) => below_one,
            _ => false,
        };
        if suits {
            places.push(place);
        }
        match Token::of(*token) {
            Some(Token::Start(name)) => above.push(name),
            Some(Token::End) => drop(above.pop()),
            _ => {}
        }
    }
    places
}

/// A place where the operation may be, from somewhere on; now and then from a given one.
fn place_of(random: &mut Random, tokens: &[u32], given: &[usize], operation: u32) -> u64 {
    let has_attribute = |place: usize| matches!(Token::of(tokens[place + 1]), Some(Token::Attribute(_)));
    let suits = |place: usize| match Token::of(tokens[place]) {
        Some(Token::Start(_)) if operation == DROP => has_attribute(place),
        Some(Token::Start(_)) => place > 0 || (operation != INSERT && operation != REMOVE),
        Some(Token::Text(_)) => operation < SET,
        Some(Token::End) => operation == INSERT,
        _ => false,
    };
    let from = match !given.is_empty() && random.chance(60) {
        true => *random.pick(given),
        false => random.below(tokens.len()),
    };
    let around = (from..tokens.len()).chain(0..from);
    around.into_iter().find(|place| suits(*place)).unwrap_or(0) as u64
}

/// The name of an element that may be put at a spot, or None for a text; and whether it fits.
fn item_for(random: &mut Random, ground: &Ground, root: &mut Element, spot: &Spot, replace: bool) -> (Option<u16>, bool) {
    let (path, at) = match spot {
        Spot::Item(path) => match path.split_last() {
            Some((at, above)) => (above, *at),
            None if random.chance(15) => return (Some(faults::name(random, ground.grammar)), true),
            None => return (Some(ground.grammar.root as u16), true),
        },
        Spot::End(path) => (&path[..], usize::MAX),
        Spot::Other => return (Some(faults::name(random, ground.grammar)), false),
    };
    let parent = element_at(root, path).expect("an element holds the spot");
    let declaration = match ground.grammar.declaration(parent.name) {
        Some(declaration) => declaration,
        None => return (Some(faults::name(random, ground.grammar)), true),
    };
    let names = match &declaration.content {
        Content::Empty => return (None, false),
        Content::Text => return (None, replace || parent.content.is_empty()),
        Content::Model(model) => model.expression.names(),
        Content::Run(run) => run.names.clone(),
    };
    let at = at.min(parent.content.len());
    for _ in 0..4 {
        let name = *random.pick(&names);
        let mut items: Vec<Option<u16>> = parent.content[..at].iter().map(Item::name).collect();
        items.push(Some(name));
        items.extend(parent.content[at + usize::from(replace)..].iter().map(Item::name));
        if declaration.stop(&items).is_none() {
            return (Some(name), true);
        }
    }
    (Some(*random.pick(&names)), false)
}

/// Whether the parent may do without the item at a spot.
fn can_go(ground: &Ground, root: &mut Element, spot: &Spot) -> bool {
    let (at, above) = match spot {
        Spot::Item(path) => match path.split_last() {
            Some(split) => split,
            None => return false,
        },
        _ => return false,
    };
    let parent = element_at(root, above).expect("an element holds the item");
    parent.content.remove(*at);
    ground.grammar.declaration(parent.name).map_or(true, |declaration| declaration.stop(&parent.items()).is_none())
}

/// Gives a set or a drop its piece; true if there is something to set or drop.
fn attribute_edit(random: &mut Random, ground: &Ground, element: &Element, ids: &[u16], edit: &mut Edit) -> bool {
    edit.piece.clear();
    if edit.operation == SET {
        edit.piece = pieces::attribute(random, ground, element, ids).tokens();
        return ground.grammar.declaration(element.name).map_or(true, |declaration| !declaration.attributes.is_empty());
    }
    if element.attributes.is_empty() {
        edit.piece.push(Token::Attribute(random.short()).code());
        return false;
    }
    let number = random.pick(&element.attributes).number;
    edit.piece.push(Token::Attribute(number).code());
    let known = ground.grammar.declaration(element.name).and_then(|declaration| declaration.attribute(number));
    known.map_or(true, |known| !known.required)
}

fn disturb(random: &mut Random, ground: &Ground, root: &Element, edit: &mut Edit) {
    let size = root.size();
    match random.below(20) {
        0..=5 => edit.place = other_place(random, size, edit.place),
        6..=10 => pieces::disturb(random, ground, &mut edit.piece),
        11 | 12 => edit.operation = *random.pick(&[0, 6, 7, 255, 256, 257, 1 << 31, u32::MAX]),
        13 => edit.operation = random.within(1, 5) as u32,
        14 | 15 => {
            let above = depth_of(root, edit.place);
            let name = match random.chance(70) {
                true => ground.grammar.root as u16,
                false => faults::name(random, ground.grammar),
            };
            edit.piece = pieces::deep(random, ground, name, above);
        }
        16 if random.chance(30) => {
            let name = faults::name(random, ground.grammar);
            let attribute = random.below(64) as u16;
            edit.piece = pieces::long(random, edit.operation, name, attribute, size);
        }
        17 => {
            edit.place = other_place(random, size, edit.place);
            pieces::disturb(random, ground, &mut edit.piece);
        }
        _ => {
            // The piece goes in again where it came from, or its like does: its IDs clash.
            if let Spot::Item(path) = spot(root, edit.place) {
                if let Some(element) = element_at(&mut root.clone(), &path) {
                    edit.piece = element.tokens();
                }
            }
        }
    }
}

fn other_place(random: &mut Random, size: usize, place: u64) -> u64 {
    match random.below(9) {
        0 => 0,
        1 => place + 1,
        2 => place.saturating_sub(1),
        3 => size as u64 - 1,
        4 => size as u64 + random.below(3) as u64,
        5 => place + (1 << 32),
        6 => *random.pick(&[8_191, 8_192, 65_536, 1 << 31, 1 << 32, 1 << 63, u64::MAX, u64::MAX - 1]),
        7 => random.bits(),
        _ => random.below(size + 2) as u64,
    }
}

/// How deep the element lies that holds what stands at a place.
fn depth_of(root: &Element, place: u64) -> usize {
    match spot(root, place) {
        Spot::Item(path) => path.len(),
        Spot::End(path) => path.len() + 1,
        Spot::Other => 1,
    }
}
