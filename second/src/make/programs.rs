//! Files for the edit program. Ways to spoil them follow each other in turn, so that each line it can print is met soon.

use super::documents::{self, Ground, Scale};
use super::{edits, faults, files, schemas};
use crate::paper::edits::{self as paper_edits, Edit, INSERT, LONGEST_BACK, REPLACE};
use crate::paper::program::{printed, Files, LONGEST_FILE};
use crate::paper::spots::{element_at, spot, Spot};
use crate::paper::tally::MIDDLE;
use crate::paper::tree::{self, Element};
use crate::paper::{answer, judgement, numbers, schema_file, DEEPEST, MOST_TOKENS};
use crate::random::Random;

/// How many ways there are; a run takes the next one.
pub const WAYS: usize = 28;

/// The answers that an edit of a valid document can have.
const EDIT_ANSWERS: [u32; 9] = [
    answer::DONE,
    answer::SHAPE,
    answer::ROOM,
    answer::PLACE,
    answer::ATTRIBUTES,
    answer::CONTENT,
    answer::ROOT,
    answer::ID_TWICE,
    answer::NO_ID,
];

/// The faults that a check can find in a document with shape.
const CHECK_FAULTS: [u32; 5] = [answer::ATTRIBUTES, answer::CONTENT, answer::ROOT, answer::ID_TWICE, answer::NO_ID];

/// The first of several drawn that is as wanted, else the last.
pub fn drawn_until<T>(random: &mut Random, tries: usize, draw: &mut dyn FnMut(&mut Random) -> T, wanted: &dyn Fn(&T) -> bool) -> T {
    let mut drawn = draw(random);
    for _ in 1..tries {
        if wanted(&drawn) {
            break;
        }
        drawn = draw(random);
    }
    drawn
}

/// The files of one run of the program.
pub fn files(random: &mut Random, ground: &Ground, schema: &[u8], way: usize) -> Files {
    let scale = *random.pick(&[Scale::Tiny, Scale::Tiny, Scale::Middle, Scale::Middle, Scale::Large, Scale::Full]);
    let (mut doc, mut edits) = document_and_edits(random, ground, scale);
    let mut schema = schema.to_vec();
    match way {
        0..=2 => {
            let number = way as u32 + 1;
            let refused = |file: &Vec<u8>| schema_file::read(file).map(|_| ()) == Err(number);
            schema = drawn_until(random, 300, &mut |random| schemas::damaged(random, ground.grammar), &refused);
        }
        3 => return Files { schema: None, doc: Some(doc), edits: Some(edits) },
        4 => return Files { schema: Some(schema), doc: None, edits: Some(edits) },
        5 => return Files { schema: Some(schema), doc: Some(doc), edits: None },
        6 => schema.resize(LONGEST_FILE + 1, 1),
        7 => doc.resize(LONGEST_FILE + 1, 1),
        8 => lengthen_edits(&mut edits, LONGEST_FILE + 1),
        9 => match random.below(3) {
            0 => schema.resize(LONGEST_FILE, 1),
            1 => doc.resize(LONGEST_FILE, 1),
            _ => lengthen_edits(&mut edits, LONGEST_FILE),
        },
        10 => {
            let mut damaged = |random: &mut Random| {
                let mut doc = doc.clone();
                files::damage_bytes(random, &mut doc);
                doc
            };
            let broken = |doc: &Vec<u8>| numbers::read(doc, MOST_TOKENS) == Err(answer::BROKEN);
            doc = drawn_until(random, 20, &mut damaged, &broken);
        }
        11 => doc = numbers::file_of(&vec![random.below(128) as u32; MOST_TOKENS + random.within(1, 3)]),
        12 => doc.clear(),
        13..=17 => {
            let number = CHECK_FAULTS[way - 13];
            let begins = format!("0 {number} ");
            return drawn_until(random, 300, &mut faulty, &|files| printed(files).text.starts_with(&begins));
        }
        18 => doc = (0..random.below(40)).flat_map(|_| numbers::form(faults::token(random) % 2_097_152)).collect(),
        19 => files::damage_bytes(random, &mut edits),
        20 => edits.truncate(random.below(edits.len())),
        21 => {
            edits.extend([3, 0]);
            edits.extend(numbers::form(*random.pick(&[8_193, 8_194, 16_384, 2_097_151])));
            edits.resize(edits.len() + random.below(9_000), 1);
        }
        22 => {
            edits = vec![4, 0];
            edits.extend(numbers::file_of(&[8_192, 12]));
            edits.resize(edits.len() + 8_191, 13);
        }
        23 => edits.clear(),
        _ => {}
    }
    Files { schema: Some(schema), doc: Some(doc), edits: Some(edits) }
}

/// A document, valid if its schema describes one of this scale, and edits of it, each with an answer drawn beforehand if soon found.
fn document_and_edits(random: &mut Random, ground: &Ground, scale: Scale) -> (Vec<u8>, Vec<u8>) {
    let is_valid = |tokens: &Vec<u32>| judgement::check(Some(ground.grammar), tokens, tokens.len() as u64).number == 0;
    let mut draw = |random: &mut Random| documents::document(random, ground, scale).tokens();
    let mut buffer = drawn_until(random, 5, &mut draw, &is_valid);
    let doc = numbers::file_of(&buffer);
    let mut file = vec![9, 0, 0];
    let mut used = buffer.len() as u64;
    buffer.resize(buffer.len().max(MOST_TOKENS), 0);
    for line in 0..random.within(4, 30) {
        let root = match tree::document(&buffer, used) {
            Some(root) => root,
            None => break,
        };
        let number = EDIT_ANSWERS[line % EDIT_ANSWERS.len()];
        let mut draw = |random: &mut Random| {
            let edit = in_form(aimed(random, ground, &root, number));
            let outcome = paper_edits::edit(Some(ground.grammar), &buffer, used, &edit, &[0; LONGEST_BACK], &MIDDLE);
            (edit, outcome)
        };
        let tries = if used > 1_000 { 3 } else { 20 };
        let (edit, outcome) = drawn_until(random, tries, &mut draw, &|drawn| drawn.1.answer.number == number);
        let bytes = numbers::file_of(&edit.numbers());
        if file.len() + bytes.len() > LONGEST_FILE || edit.piece.len() > MOST_TOKENS {
            break;
        }
        file.extend(bytes);
        buffer = outcome.doc;
        used = outcome.answer.used;
    }
    (doc, file)
}

/// An edit; where only few have the answer that is wanted, one of them now and then.
pub fn aimed(random: &mut Random, ground: &Ground, root: &Element, number: u32) -> Edit {
    match number {
        answer::ROOT if random.chance(30) => {
            let mut renamed = root.clone();
            renamed.name = renamed.name.wrapping_add(1 + random.short() / 2);
            Edit { operation: REPLACE, place: 0, piece: renamed.tokens() }
        }
        answer::ROOM if random.chance(30) => {
            let piece = documents::chain(random, ground.grammar, root.name, DEEPEST).tokens();
            Edit { operation: INSERT, place: root.size() as u64 - 1, piece }
        }
        answer::ID_TWICE if random.chance(50) => {
            // An element once more, before itself.
            let tokens = root.tokens();
            let starts: Vec<usize> = (1..tokens.len()).filter(|place| tokens[*place] % 8 == 1).collect();
            let place = if starts.is_empty() { 0 } else { *random.pick(&starts) as u64 };
            let piece = match spot(root, place) {
                Spot::Item(path) => element_at(&mut root.clone(), &path).map_or(vec![], |element| element.tokens()),
                _ => vec![],
            };
            Edit { operation: INSERT, place, piece }
        }
        _ => edits::edit(random, ground, root),
    }
}

/// The edit with every number cut down to one that a file can hold.
fn in_form(mut edit: Edit) -> Edit {
    edit.operation = edit.operation.min(numbers::LARGEST);
    edit.place = edit.place.min(u64::from(numbers::LARGEST));
    for token in &mut edit.piece {
        *token = (*token).min(numbers::LARGEST);
    }
    edit
}

/// A schema of its own and a document of it with faults.
fn faulty(random: &mut Random) -> Files {
    let grammar = schemas::schema(random);
    let sizes = documents::sizes_of(&grammar);
    let mut root = documents::document(random, &Ground { grammar: &grammar, sizes: &sizes }, Scale::Tiny);
    for _ in 0..random.within(1, 2) {
        faults::in_tree(random, &mut root, &grammar);
    }
    let schema = numbers::file_of(&schema_file::numbers_of(&grammar));
    Files { schema: Some(schema), doc: Some(numbers::file_of(&root.tokens())), edits: Some(vec![2, 1, 0]) }
}

/// Brings a file of edits to a length, by edits with a bad operation.
fn lengthen_edits(file: &mut Vec<u8>, length: usize) {
    while file.len() + 3 <= length {
        file.extend([9, 0, 0]);
    }
    file.resize(length, 9);
}
