//! Values of attributes: IDs that differ and references that meet them.

use crate::paper::grammar::{Grammar, Kind};
use crate::paper::tree::Element;
use crate::random::Random;
use std::collections::HashSet;

/// The kind of an attribute of an element, None if it is not allowed there.
pub fn kind(grammar: &Grammar, element: u16, attribute: u16) -> Option<Kind> {
    grammar.declaration(element)?.attribute(attribute).map(|known| known.kind)
}

/// The value of a fixed attribute of an element.
pub fn fixed(grammar: &Grammar, element: u16, attribute: u16) -> Option<u16> {
    grammar.declaration(element)?.attribute(attribute)?.fixed
}

fn is_reference(kind: Option<Kind>) -> bool {
    matches!(kind, Some(Kind::Idref | Kind::Idrefs))
}

/// The ID values of a tree.
pub fn ids(root: &Element, grammar: &Grammar) -> Vec<u16> {
    let mut ids = Vec::new();
    root.each(&mut |element| {
        for attribute in &element.attributes {
            if kind(grammar, element.name, attribute.number) == Some(Kind::Id) {
                ids.extend(&attribute.values);
            }
        }
    });
    ids
}

/// Gives all attributes values: IDs differ from each other and from those taken, references are to either. References that
/// would meet nothing go, where they are not required.
pub fn settle(random: &mut Random, root: &mut Element, grammar: &Grammar, taken: &[u16]) {
    let mut used: HashSet<u16> = taken.iter().copied().collect();
    let mut targets = taken.to_vec();
    let mut next = random.short();
    let step = random.bits() as u16 | 1;
    root.each_mut(&mut |element| {
        for attribute in &mut element.attributes {
            let kind = kind(grammar, element.name, attribute.number);
            if let Some(value) = fixed(grammar, element.name, attribute.number) {
                attribute.values = vec![value];
                continue;
            }
            for value in &mut attribute.values {
                if kind == Some(Kind::Id) && used.len() < 65_536 {
                    while !used.insert(next) {
                        next = next.wrapping_add(step);
                    }
                    *value = next;
                    targets.push(next);
                } else {
                    *value = random.short();
                }
            }
        }
    });
    root.each_mut(&mut |element| {
        let name = element.name;
        if targets.is_empty() {
            element.attributes.retain(|attribute| {
                let known = grammar.declaration(name).and_then(|declaration| declaration.attribute(attribute.number));
                known.map_or(true, |known| known.required || !is_reference(Some(known.kind)))
            });
            return;
        }
        for attribute in &mut element.attributes {
            if is_reference(kind(grammar, name, attribute.number)) {
                for value in &mut attribute.values {
                    *value = *random.pick(&targets);
                }
            }
        }
    });
}

/// Brings a tree to exactly this size by further references of an IDREFS attribute, if it has one and is not larger.
pub fn stretch(root: &mut Element, grammar: &Grammar, size: usize) {
    let mut missing = size.saturating_sub(root.size());
    root.each_mut(&mut |element| {
        for attribute in &mut element.attributes {
            if kind(grammar, element.name, attribute.number) == Some(Kind::Idrefs) {
                let value = attribute.values[0];
                attribute.values.resize(attribute.values.len() + missing, value);
                missing = 0;
            }
        }
    });
}
