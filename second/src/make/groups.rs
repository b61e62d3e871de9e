//! Groups of edits: an ID renamed with its references, edits in form whatever they leave, swings and lists; and second buffers for them.

use super::documents::Ground;
use super::{edits, files, keys, lists};
use crate::paper::edits::{changed, Edit, SET};
use crate::paper::grammar::Kind;
use crate::paper::lists::numbers_of;
use crate::paper::tree::{self, Element, Token};
use crate::random::Random;

/// A group for the document in a buffer.
pub fn group(random: &mut Random, ground: &Ground, buffer: &[u32], used: u64) -> Vec<u32> {
    let root = tree::document(buffer, used);
    match (random.below(10), &root) {
        (0..=3, Some(root)) => match rename(random, ground, root) {
            Some(edits) => numbers_of(&edits),
            None => numbers_of(&in_form(random, ground, root, buffer.len())),
        },
        (6, Some(_)) if used <= 200 => numbers_of(&lists::swings(random, ground, buffer, used)),
        (4 | 5, Some(root)) => numbers_of(&in_form(random, ground, root, buffer.len())),
        _ => lists::list(random, ground, buffer, used),
    }
}

/// An ID becomes another value together with its references; now and then one of them is left as it was, or the value is taken.
fn rename(random: &mut Random, ground: &Ground, root: &Element) -> Option<Vec<Edit>> {
    let ids = keys::ids(root, ground.grammar);
    if ids.is_empty() {
        return None;
    }
    let old = *random.pick(&ids);
    let new = match random.below(8) {
        0 => *random.pick(&ids),
        _ => random.short(),
    };
    let forgets = random.chance(20);
    let tokens = root.tokens();
    let starts: Vec<usize> = (0..tokens.len()).filter(|place| matches!(Token::of(tokens[*place]), Some(Token::Start(_)))).collect();
    let (mut at, mut edits) = (0, Vec::new());
    root.each(&mut |element| {
        for attribute in &element.attributes {
            let kind = keys::kind(ground.grammar, element.name, attribute.number);
            let is_key = matches!(kind, Some(Kind::Id | Kind::Idref | Kind::Idrefs));
            if is_key && attribute.values.contains(&old) && !(forgets && random.chance(30)) {
                let mut attribute = attribute.clone();
                attribute.values.iter_mut().filter(|value| **value == old).for_each(|value| *value = new);
                edits.push(Edit { operation: SET, place: starts[at] as u64, piece: attribute.tokens() });
            }
        }
        at += 1;
    });
    if edits.len() > 1 && random.chance(50) {
        let other = random.within(1, edits.len() - 1);
        edits.swap(0, other);
    }
    (!edits.is_empty()).then_some(edits)
}

/// Edits that are in form, one after another; now and then one that is not looked at behind them.
fn in_form(random: &mut Random, ground: &Ground, root: &Element, room: usize) -> Vec<Edit> {
    let most = match root.size() {
        0..=200 => *random.pick(&[1, 2, 3, 8]),
        _ => random.within(1, 2),
    };
    let mut root = root.clone();
    let mut edits = Vec::new();
    for _ in 0..most {
        let mut edit = edits::edit(random, ground, &root);
        edit.place = u64::from(edit.place as u32);
        let mut next = root.clone();
        let is_in_form = changed(&mut next, &edit, room).is_ok();
        if is_in_form {
            root = next;
        }
        if is_in_form || random.chance(20) {
            edits.push(edit);
        }
    }
    match edits.is_empty() {
        true => vec![edits::edit(random, ground, &root)],
        false => edits,
    }
}

/// A second buffer for a first one of this many places: as long, longer, or shorter.
pub fn second(random: &mut Random, room: usize) -> Vec<u32> {
    let length = match random.below(20) {
        0 => room.saturating_sub(1),
        1 => random.below(room + 1),
        2 => random.below(3),
        3..=9 => room + random.below(40),
        10 => room + random.below(900),
        _ => room,
    };
    files::old_tokens(random, length)
}
