//! "The five edits", done on the tree and flattened.

use super::answer::{COUNTS, DONE, PLACE, ROOM, SHAPE, TABLE};
use super::grammar::Grammar;
use super::judgement;
use super::spots::{element_at, holder, spot, Spot};
use super::table::BLOCKS;
use super::tally::{self, Tally};
use super::tree::{self, Attribute, Element, Item, Token};
use super::{DEEPEST, MOST_TOKENS};

pub const INSERT: u32 = 1;
pub const REMOVE: u32 = 2;
pub const REPLACE: u32 = 3;
pub const SET: u32 = 4;
pub const DROP: u32 = 5;

/// The most numbers of an edit that takes another one back: operation, place, piece count, and a whole document.
pub const LONGEST_BACK: usize = 3 + MOST_TOKENS;

#[derive(Clone, Debug, PartialEq)]
pub struct Edit {
    pub operation: u32,
    pub place: u64,
    pub piece: Vec<u32>,
}

impl Edit {
    /// Item 2: "operation, place, piece count and piece, as 32-bit numbers".
    pub fn numbers(&self) -> Vec<u32> {
        let head = [self.operation, self.place as u32, self.piece.len() as u32];
        [&head[..], &self.piece].concat()
    }

    /// The edit that stands at the front of a second buffer.
    pub fn at_front(numbers: &[u32]) -> Edit {
        let count = numbers[2] as usize;
        Edit { operation: numbers[0], place: u64::from(numbers[1]), piece: numbers[3..3 + count].to_vec() }
    }
}

#[derive(Clone, Copy, Debug, PartialEq)]
pub struct Answer {
    pub number: u32,
    pub place: u32,
    pub used: u64,
    pub change: i32,
    /// Item 10: the children and texts of the touched elements in the edited document; 0 if refused.
    pub children: u32,
}

impl Answer {
    /// The answer of a refusal: "the old length and change 0".
    pub fn refused(number: u32, place: u32, used: u64) -> Answer {
        Answer { number, place, used, change: 0, children: 0 }
    }
}

/// What holds after an edit: the answer, the document's buffer, the second one and the counts.
#[derive(Clone, Debug, PartialEq)]
pub struct Edited {
    pub answer: Answer,
    pub doc: Vec<u32>,
    pub back: Vec<u32>,
    pub counts: Tally,
    /// If it is in form and the document has room for it.
    pub looked: Option<Looked>,
}

/// What an edit in form is about: the edit that takes it back, the elements of each name before it, and those that come less those that go.
#[derive(Clone, Debug, PartialEq)]
pub struct Looked {
    pub inverse: Edit,
    pub before: [i64; BLOCKS],
    pub moved: [i64; BLOCKS],
}

/// A good piece of one of the five operations.
enum Piece {
    Insert(Item),
    Remove,
    Replace(Item),
    Set(Attribute),
    Drop(u16),
}

/// An edit of the document in a buffer, with a second buffer for what takes it back, and the counts.
pub fn edit(grammar: Option<&Grammar>, buffer: &[u32], used: u64, edit: &Edit, back: &[u32], counts: &Tally) -> Edited {
    let (mut doc, mut back, mut counts) = (buffer.to_vec(), back.to_vec(), *counts);
    let (answer, looked) = in_place(grammar, &mut doc, used, edit, back.len(), &mut counts);
    if let (DONE, Some(looked)) = (answer.number, &looked) {
        let inverse = looked.inverse.numbers();
        back[..inverse.len()].copy_from_slice(&inverse);
    }
    Edited { answer, doc, back, counts, looked }
}

/// Edits the document in its buffer and the counts.
pub fn in_place(
    grammar: Option<&Grammar>,
    doc: &mut [u32],
    used: u64,
    edit: &Edit,
    back_room: usize,
    counts: &mut Tally,
) -> (Answer, Option<Looked>) {
    let (grammar, (root, looked)) = match grammar.ok_or(TABLE).and_then(|grammar| Ok((grammar, prepared(doc, used, edit)?))) {
        Ok(prepared) => prepared,
        Err(number) => return (Answer::refused(number, 0, used), None),
    };
    let answer = match judged(grammar, &root, &looked, back_room, counts) {
        Err((number, place)) => Answer::refused(number, place, used),
        Ok(after) => {
            *counts = after;
            let tokens = root.tokens();
            doc[..used as usize].fill(0);
            doc[..tokens.len()].copy_from_slice(&tokens);
            let change = tokens.len() as i64 - used as i64;
            Answer { number: DONE, place: 0, used: tokens.len() as u64, change: change as i32, children: looked_at(&root) }
        }
    };
    (answer, Some(looked))
}

/// What an edit is about, if it is in form and the document has room for it.
pub fn looked(buffer: &[u32], used: u64, edit: &Edit) -> Option<Looked> {
    prepared(buffer, used, edit).ok().map(|prepared| prepared.1)
}

/// The children and texts of all touched elements: of the parent, or of the element that is set or dropped, and of each in the piece.
fn looked_at(root: &Element) -> u32 {
    let mut count = 0;
    root.each(&mut |element| {
        if element.touched {
            count += element.content.len() as u32;
        }
    });
    count
}

/// What follows for an edited document: the second buffer, the counts, which are given as they are after it, and judgement.
fn judged(grammar: &Grammar, root: &Element, looked: &Looked, back_room: usize, counts: &Tally) -> Result<Tally, (u32, u32)> {
    if looked.inverse.numbers().len() > back_room {
        return Err((ROOM, 0));
    }
    let counts = tally::kept(&tally::moved(counts, &looked.moved, grammar)).ok_or((COUNTS, 0))?;
    let verdict = judgement::judge(root, grammar);
    match verdict.number {
        DONE => Ok(counts),
        number => Err((number, verdict.place)),
    }
}

/// The edited document and what the edit is about: all that comes before the second buffer.
fn prepared(buffer: &[u32], used: u64, edit: &Edit) -> Result<(Element, Looked), u32> {
    let mut root = tree::document(buffer, used).ok_or(SHAPE)?;
    let before = tally::names(&root);
    let (operation, piece) = changed(&mut root, edit, buffer.len())?;
    let mut moved = tally::names(&root);
    for (name, count) in moved.iter_mut().enumerate() {
        *count -= before[name];
    }
    Ok((root, Looked { inverse: Edit { operation, place: edit.place, piece }, before, moved }))
}

/// Does an edit on a tree: "form, place and size". Gives operation and piece of what takes it back.
pub fn changed(root: &mut Element, edit: &Edit, room: usize) -> Result<(u32, Vec<u32>), u32> {
    if !(INSERT..=DROP).contains(&edit.operation) {
        return Err(PLACE);
    }
    let piece = piece_of(edit).ok_or(SHAPE)?;
    let spot = spot(root, edit.place);
    let back = apply(root, spot, piece).ok_or(PLACE)?;
    let size = root.size();
    if size > MOST_TOKENS || root.depth() > DEEPEST || size > room {
        return Err(ROOM);
    }
    Ok(back)
}

fn piece_of(edit: &Edit) -> Option<Piece> {
    let piece = &edit.piece[..];
    match edit.operation {
        INSERT => item_of(piece).map(Piece::Insert),
        REPLACE => item_of(piece).map(Piece::Replace),
        REMOVE if piece.is_empty() => Some(Piece::Remove),
        SET => tree::attribute(piece).map(Piece::Set),
        DROP if piece.len() == 1 => match Token::of(piece[0])? {
            Token::Attribute(number) => Some(Piece::Drop(number)),
            _ => None,
        },
        _ => None,
    }
}

/// One text, or one element of good shape, all of it touched.
fn item_of(piece: &[u32]) -> Option<Item> {
    if let [token] = piece {
        return match Token::of(*token)? {
            Token::Text(text) => Some(Item::Text(text)),
            _ => None,
        };
    }
    let mut element = tree::element(piece)?;
    element.touch_all();
    Some(Item::Element(element))
}

/// Does the edit and marks what it touches. Gives operation and piece of what takes it back; None if the place does not suit.
fn apply(root: &mut Element, spot: Spot, piece: Piece) -> Option<(u32, Vec<u32>)> {
    Some(match (piece, spot) {
        (Piece::Insert(item), Spot::Item(path)) => {
            let (content, i) = holder(root, &path)?;
            content.insert(i, item);
            (REMOVE, Vec::new())
        }
        (Piece::Insert(item), Spot::End(path)) => {
            let element = element_at(root, &path)?;
            element.touched = true;
            element.content.push(item);
            (REMOVE, Vec::new())
        }
        (Piece::Remove, Spot::Item(path)) => {
            let (content, i) = holder(root, &path)?;
            (INSERT, content.remove(i).tokens())
        }
        (Piece::Replace(item), Spot::Item(path)) => match (holder(root, &path), item) {
            (Some((content, i)), item) => (REPLACE, std::mem::replace(&mut content[i], item).tokens()),
            (None, Item::Element(element)) => (REPLACE, std::mem::replace(root, element).tokens()),
            (None, Item::Text(_)) => return None,
        },
        (Piece::Set(attribute), Spot::Item(path)) => {
            let element = element_at(root, &path)?;
            element.touched = true;
            let number = attribute.number;
            match element.attributes.iter_mut().find(|old| old.number == number) {
                Some(old) => (SET, std::mem::replace(old, attribute).tokens()),
                None => {
                    let rank = element.attributes.iter().filter(|old| old.number < number).count();
                    element.attributes.insert(rank, attribute);
                    (DROP, vec![Token::Attribute(number).code()])
                }
            }
        }
        (Piece::Drop(number), Spot::Item(path)) => {
            let element = element_at(root, &path)?;
            element.touched = true;
            let i = element.attributes.iter().position(|old| old.number == number)?;
            (SET, element.attributes.remove(i).tokens())
        }
        _ => return None,
    })
}
