//! The inputs: four mixes, each a schema and documents of any size for it; the edits near their front and near their end; the
//! documents and edits that are refused at a known step; a schema at the limits.

use crate::calls::{Edit, DROP, INSERT, REMOVE, REPLACE, SET};

/// Attribute numbers, the same in every mix.
const TITLE: u32 = 0;
const ID: u32 = 1;
const REFERENCE: u32 = 2;
const CAPTION: u32 = 3;
/// Allowed nowhere.
const UNKNOWN: u32 = 63;

/// An ID value that no document holds, and a reference to none.
const FRESH: u32 = 65_001;
const FRESH_TOO: u32 = 65_002;
const NOWHERE: u32 = 65_003;
/// IDs that come with a script step, of which the k-th is k more.
const STEP_IDS: u32 = 65_100;
/// Values and texts of documents are below this.
const VALUES: u32 = 65_000;

/// Elements that carry an ID, and elements that refer, in every mix but that of the many IDs.
const FEW: usize = 8;
const MANY: usize = 2000;

/// A row in a schema. Attribute kinds: 0 CDATA, 1 ID, 2 IDREF. Status: 0 required, 1 implied.
const ROW: [u32; 8] = [1, 2, REFERENCE, 2, 1, CAPTION, 0, 1];

#[derive(Clone, Copy, PartialEq, Eq)]
pub enum Mix {
    FewIds,
    ManyIds,
    Depth64,
    Choice40,
}

pub const MIXES: [Mix; 4] = [Mix::FewIds, Mix::ManyIds, Mix::Depth64, Mix::Choice40];

/// An edit, and the one that takes it back.
pub struct Pair {
    pub name: &'static str,
    pub back_name: &'static str,
    pub edit: Edit,
    pub back: Edit,
}

/// An edit that is refused at a known step, so that the time up to there can be told.
pub struct Refused {
    pub after: &'static str,
    pub number: u32,
    pub edit: Edit,
    /// The buffer ends with the document.
    pub is_full: bool,
}

/// Near the front or near the end of a document.
#[derive(Clone, Copy, PartialEq, Eq)]
pub enum Spot {
    Front,
    End,
}

pub const SPOTS: [Spot; 2] = [Spot::Front, Spot::End];

impl Spot {
    pub fn name(self) -> &'static str {
        match self {
            Spot::Front => "front",
            Spot::End => "end",
        }
    }
}

impl Mix {
    pub fn name(self) -> &'static str {
        match self {
            Mix::FewIds => "few IDs",
            Mix::ManyIds => "2,000 IDs",
            Mix::Depth64 => "depth 64",
            Mix::Choice40 => "40-name choice",
        }
    }

    pub fn about(self) -> &'static str {
        match self {
            Mix::FewIds => "`shade (panel+, use*)`, `panel (row*)`: 8 panels with an ID, 8 uses that refer to one, the rest rows of text, every second with a caption",
            Mix::ManyIds => "the same schema: 2,000 panels with an ID (as many as fit at smaller sizes), 8 uses, a few rows",
            Mix::Depth64 => "`book (node*)`, `node (node|row)*`: chains of nodes down to rows at depth 64; 8 IDs, 8 references",
            Mix::Choice40 => "`book (e1|e2|…|e40)*`, children in random order, half of the names EMPTY and half text; 8 IDs, 8 references",
        }
    }

    /// The schema, as the numbers of its file.
    pub fn schema(self) -> Vec<u32> {
        match self {
            Mix::FewIds | Mix::ManyIds => [
                &[4, 0][..],
                &[2, 5, 0, 4, 5 + 1, 3, 5 + 3, 1, TITLE, 0, 0],
                &[2, 2, 3, 5 + 2, 3, ID, 1, 0, REFERENCE, 2, 1, CAPTION, 0, 1],
                &ROW,
                &[0, 2, REFERENCE, 2, 0, CAPTION, 0, 1],
            ]
            .concat(),
            Mix::Depth64 => [&[3, 0][..], &[2, 2, 3, 5 + 1, 1, TITLE, 0, 0], &[2, 4, 3, 1, 5 + 1, 5 + 2, 1, ID, 1, 1], &ROW].concat(),
            Mix::Choice40 => {
                let mut schema = vec![41, 0, 2, 80, 3];
                schema.extend([1; 39]);
                schema.extend(5 + 1..=5 + 40);
                schema.extend([1, TITLE, 0, 0]);
                for name in 1..=40 {
                    let kind = u32::from(name > 20);
                    schema.extend([kind, 3, ID, 1, 1, REFERENCE, 2, 1, CAPTION, 0, 1]);
                }
                schema
            }
        }
    }

    /// A valid document of exactly `size` tokens, 400 or more. Its last element has a caption.
    pub fn document(self, size: usize) -> Vec<u32> {
        let tokens = match self {
            Mix::FewIds => few_ids(size),
            Mix::ManyIds => many_ids(size),
            Mix::Depth64 => depth_64(size),
            Mix::Choice40 => choice_40(size),
        };
        assert_eq!(tokens.len(), size, "{}", self.name());
        tokens
    }

    /// The name of the elements that are inserted, removed and replaced.
    fn item_name(self) -> u32 {
        match self {
            Mix::FewIds | Mix::Depth64 => 2,
            Mix::ManyIds => 1,
            Mix::Choice40 => 30,
        }
    }

    /// An item with these attributes beside those it needs.
    fn item(self, id: u32, more: &[(u32, u32)]) -> Vec<u32> {
        let mut maker = Maker::new();
        maker.start(self.item_name());
        if self == Mix::ManyIds {
            maker.attribute(ID, id);
        }
        for &(number, value) in more {
            maker.attribute(number, value);
        }
        if self != Mix::ManyIds {
            maker.text(77);
        }
        maker.end();
        maker.tokens
    }

    /// The place of an item with no attribute beside those it needs and no child, near the front or near the end.
    fn place(self, tokens: &[u32], spot: Spot) -> usize {
        let bare = self.item(FRESH, &[]);
        let fits = |&place: &usize| {
            let alike = |(&there, &here): (&u32, &u32)| there == here || (matches!(here & 7, 3 | 5) && there & 7 == here & 7);
            place > 8 && tokens[place..].len() > bare.len() && tokens[place..].iter().zip(&bare).all(alike)
        };
        let mut places = 1..tokens.len();
        match spot {
            Spot::Front => places.find(fits),
            Spot::End => places.rfind(fits),
        }
        .expect("a document has bare items")
    }

    /// The piece of a small edit at a place, the k-th of a step, if the place is one for it: an item comes before a bare one, a bare one goes or
    /// gives way to another, or gets a caption; a caption goes. A bare item has no attribute beside those it needs and no child.
    pub fn small_piece(self, tokens: &[u32], place: usize, operation: u32, k: u32) -> Option<Vec<u32>> {
        let caption = token(CAPTION, 4);
        if operation == DROP {
            let attributes = tokens[place + 1..].iter().take_while(|&&t| matches!(t & 7, 4 | 5));
            return if tokens[place] & 7 == 1 && attributes.clone().any(|&t| t == caption) { Some(vec![caption]) } else { None };
        }
        let sorts: &[u32] = if self == Mix::ManyIds { &[1, 4, 5, 2] } else { &[1, 3, 2] };
        if place == 0 || !tokens[place..].iter().map(|t| t & 7).take(sorts.len()).eq(sorts.iter().copied()) {
            return None;
        }
        Some(match operation {
            INSERT | REPLACE => self.item(STEP_IDS + k, &[]),
            SET => vec![caption, token(k, 5)],
            _ => vec![],
        })
    }

    /// Changes an ID that is referred to, and all its references, to a new value: each edit alone would be refused.
    pub fn rename(self, tokens: &[u32]) -> Vec<Edit> {
        let reference = tokens.iter().position(|&t| t == token(REFERENCE, 4)).expect("a reference");
        let old = tokens[reference + 1];
        let mut edits = Vec::new();
        let mut start = 0;
        for place in 0..tokens.len() - 1 {
            if tokens[place] & 7 == 1 {
                start = place;
            }
            if (tokens[place] == token(ID, 4) || tokens[place] == token(REFERENCE, 4)) && tokens[place + 1] == old {
                edits.push(Edit { operation: SET, place: start as u64, piece: vec![tokens[place], token(FRESH, 5)] });
            }
        }
        edits
    }

    /// The five edits, all done on the valid document, each with the one that takes it back.
    pub fn pairs(self, tokens: &[u32], spot: Spot) -> Vec<Pair> {
        let at = self.place(tokens, spot);
        let place = at as u64;
        let bare = self.item(FRESH, &[]);
        let there = tokens[at..at + bare.len()].to_vec();
        let edit = |operation, piece| Edit { operation, place, piece };
        vec![
            Pair { name: "insert", back_name: "remove", edit: edit(INSERT, bare), back: edit(REMOVE, vec![]) },
            Pair {
                name: "replace",
                back_name: "replace",
                edit: edit(REPLACE, self.item(FRESH_TOO, &[(CAPTION, 5)])),
                back: edit(REPLACE, there),
            },
            Pair {
                name: "set",
                back_name: "drop",
                edit: edit(SET, vec![token(CAPTION, 4), token(5, 5)]),
                back: edit(DROP, vec![token(CAPTION, 4)]),
            },
        ]
    }

    /// Inserts at the same place as the one that is done, each refused a step later than the one before.
    pub fn refused_inserts(self, tokens: &[u32], spot: Spot) -> Vec<Refused> {
        let place = self.place(tokens, spot) as u64;
        let edit = |operation, piece| Edit { operation, place, piece };
        let unknown = self.item(FRESH, &[(UNKNOWN, 5)]);
        let nowhere = self.item(FRESH, &[(REFERENCE, NOWHERE)]);
        vec![
            Refused { after: "table, shape", number: 6, edit: edit(0, nowhere.clone()), is_full: false },
            Refused { after: "piece, place, size", number: 5, edit: edit(INSERT, nowhere.clone()), is_full: true },
            Refused { after: "splice, touched elements", number: 8, edit: edit(INSERT, unknown), is_full: false },
            Refused { after: "IDs", number: 12, edit: edit(INSERT, nowhere), is_full: false },
        ]
    }
}

/// The same document with a root of another name: refused after shape (10).
pub fn with_other_root(tokens: &[u32]) -> Vec<u32> {
    let mut tokens = tokens.to_vec();
    tokens[0] = token(1, 1);
    tokens
}

/// The same document with an unknown attribute at the last element: refused after all elements and before the IDs (8).
pub fn with_last_element_wrong(tokens: &[u32]) -> Vec<u32> {
    let mut tokens = tokens.to_vec();
    let last = tokens.iter().rposition(|&t| t & 7 == 1).unwrap();
    let caption = (last..tokens.len()).rfind(|&k| tokens[k] & 7 == 4).expect("the last element has a caption");
    tokens[caption] = token(UNKNOWN, 4);
    tokens
}

/// The paper's small shade.
pub const SMALL_SHADE: [u32; 28] = [4, 0, 2, 5, 0, 4, 6, 3, 8, 1, 0, 0, 0, 2, 2, 3, 7, 1, 1, 1, 0, 1, 0, 0, 1, 2, 2, 0];

/// The paper's document of the small shade.
pub const SMALL_DOCUMENT: [u32; 15] = [1, 4, 61, 9, 12, 165, 17, 243, 2, 2, 25, 20, 165, 2, 2];

/// The insert into it that the paper has done, and the remove that takes it back.
pub fn small_pair() -> Pair {
    let edit = |operation, piece| Edit { operation, place: 10, piece };
    Pair { name: "insert", back_name: "remove", edit: edit(INSERT, vec![9, 12, 173, 2]), back: edit(REMOVE, vec![]) }
}

/// A document of `Mix::Depth64`'s schema with no ID and no reference: one node of rows.
pub fn no_ids(size: usize) -> Vec<u32> {
    let mut maker = Maker::new();
    maker.root();
    maker.start(1);
    rows(size - 6).into_iter().for_each(|length| maker.row(length));
    maker.end();
    maker.end();
    assert_eq!(maker.tokens.len(), size, "no IDs");
    maker.tokens
}

/// A schema at the limits: 48 elements, each with a model of 255 symbols and 64 names and with 64 attributes. The model is
/// `((n0|…|n46)*, n47, (n0|…|n15)*)`, the names turned by one from element to element; the first choice stands under 127
/// operators of one part, `?`, `*` and `+` in turn.
pub fn dense_schema() -> Vec<u32> {
    let mut schema = vec![48, 0];
    for element in 0..48 {
        let name = |k: u32| 5 + (k + element) % 48;
        schema.extend([2, 255]);
        schema.push(0);
        schema.extend((0..127).map(|k| 2 + k % 3));
        schema.extend([1; 46]);
        schema.extend((0..47).map(name));
        schema.extend([0, name(47), 3]);
        schema.extend([1; 15]);
        schema.extend((0..16).map(name));
        schema.push(64);
        for attribute in 0..64 {
            let kind = match attribute {
                0 => 1,
                _ => [0, 2, 3][attribute as usize % 3],
            };
            schema.extend([attribute, kind, attribute % 2]);
        }
    }
    schema
}

/// The schema at the limits with as many fixed attributes as there may be: attribute 3 of the first elements, which is CDATA.
pub fn dense_schema_with_fixed() -> Vec<u32> {
    let dense = dense_schema();
    let (head, elements) = dense.split_at(2);
    let mut schema = head.to_vec();
    for (element, numbers) in elements.chunks_exact(elements.len() / 48).enumerate() {
        // the attributes stand at the end, three numbers each
        let (before, status_and_rest) = numbers.split_at(numbers.len() - 3 * (64 - 3) + 2);
        schema.extend(before);
        match element {
            0..=15 => schema.extend([2, element as u32]),
            _ => schema.push(status_and_rest[0]),
        }
        schema.extend(&status_and_rest[1..]);
    }
    schema
}

/// The schema of few and of many IDs with the captions of rows fixed, and a document of few IDs that keeps to it.
pub fn fixed_captions(size: usize) -> (Vec<u32>, Vec<u32>) {
    const VALUE: u32 = 5;
    let mut schema = Mix::FewIds.schema();
    let row = schema.windows(ROW.len()).position(|numbers| numbers == ROW).expect("a row");
    schema.splice(row + ROW.len() - 1..row + ROW.len(), [2, VALUE]);
    let mut tokens = Mix::FewIds.document(size);
    for place in 2..tokens.len() {
        if tokens[place - 2] == token(2, 1) && tokens[place - 1] == token(CAPTION, 4) {
            tokens[place] = token(VALUE, 5);
        }
    }
    (schema, tokens)
}

/// The small shade with (panel, panel?, use*) in place of (panel+, use*).
pub fn other_small_shade() -> Vec<u32> {
    let mut schema = SMALL_SHADE.to_vec();
    schema.splice(3..9, [7, 0, 6, 0, 2, 6, 3, 8]);
    schema
}

/// 48 elements, of which element 0 has the model (0, 0, ..)*, its name so many times, and the others are empty.
pub fn cycle(count: usize) -> Vec<u32> {
    let mut schema = vec![48, 0, 2, 2 * count as u32, 3];
    schema.extend(vec![0; count - 1]);
    schema.extend(vec![5; count]);
    schema.push(0);
    schema.extend([0; 2 * 47]);
    schema
}

/// The numbers as a file of seven-bit groups.
pub fn file(numbers: &[u32]) -> Vec<u8> {
    let mut bytes = Vec::new();
    for &number in numbers {
        let mut rest = number;
        while rest > 127 {
            bytes.push((rest & 127) as u8 | 128);
            rest >>= 7;
        }
        bytes.push(rest as u8);
    }
    bytes
}

fn token(number: u32, sort: u32) -> u32 {
    number * 8 + sort
}

/// Tokens in the making, with numbers as if at random for texts and values.
struct Maker {
    tokens: Vec<u32>,
    dice: Dice,
}

impl Maker {
    fn new() -> Maker {
        Maker { tokens: Vec::new(), dice: Dice::new(1) }
    }

    fn start(&mut self, name: u32) {
        self.tokens.push(token(name, 1));
    }

    fn end(&mut self) {
        self.tokens.push(token(0, 2));
    }

    fn text(&mut self, number: u32) {
        self.tokens.push(token(number, 3));
    }

    fn attribute(&mut self, number: u32, value: u32) {
        self.tokens.push(token(number, 4));
        self.tokens.push(token(value, 5));
    }

    fn any_value(&mut self) -> u32 {
        self.dice.below(VALUES)
    }

    /// 3 tokens, or 5 with a caption.
    fn row(&mut self, length: usize) {
        self.start(2);
        if length == 5 {
            let value = self.any_value();
            self.attribute(CAPTION, value);
        }
        let text = self.any_value();
        self.text(text);
        self.end();
    }

    fn root(&mut self) {
        self.start(0);
        self.attribute(TITLE, 7);
    }

    /// Eight uses, the last one with a caption: 34 tokens. They refer to eight of the `ids`.
    fn uses(&mut self, ids: usize) {
        for k in 0..FEW {
            self.start(3);
            self.attribute(REFERENCE, id_value(ids / 2 + k * (ids / 2) / FEW));
            if k == FEW - 1 {
                self.attribute(CAPTION, 9);
            }
            self.end();
        }
    }
}

/// The value of the k-th ID: all differ, in no order, below `VALUES` for k below 2,000.
fn id_value(k: usize) -> u32 {
    (k as u32 * 7919 + 13) % 64_997
}

/// Lengths 3 and 5 in turn that add up to `total`, 8 or more; the last is 5.
fn rows(total: usize) -> Vec<usize> {
    let mut lengths = Vec::new();
    let mut rest = total - 5;
    while rest >= 16 {
        lengths.extend([3, 5]);
        rest -= 8;
    }
    while rest > 0 {
        let length = if rest % 3 == 0 { 3 } else { 5 };
        assert!(rest >= length, "{} tokens are no rows", total);
        lengths.push(length);
        rest -= length;
    }
    lengths.push(5);
    lengths
}

fn few_ids(size: usize) -> Vec<u32> {
    let mut maker = Maker::new();
    maker.root();
    let lengths = rows(size - 4 - 4 * FEW - 34);
    for (k, lengths) in parts(&lengths, FEW).enumerate() {
        maker.start(1);
        maker.attribute(ID, id_value(k));
        lengths.iter().for_each(|&length| maker.row(length));
        maker.end();
    }
    maker.uses(FEW);
    maker.end();
    maker.tokens
}

/// The list in `count` parts, as even as can be.
fn parts<T>(list: &[T], count: usize) -> impl Iterator<Item = &[T]> {
    (0..count).map(move |k| &list[k * list.len() / count..(k + 1) * list.len() / count])
}

fn many_ids(size: usize) -> Vec<u32> {
    let room = size - 4 - 34;
    let ids = MANY.min((room - 18) / 4);
    let lengths = rows(room - 4 * ids);
    let first_with_row = (ids - lengths.len()) / 2;
    let mut maker = Maker::new();
    maker.root();
    for k in 0..ids {
        maker.start(1);
        maker.attribute(ID, id_value(k));
        if let Some(&length) = k.checked_sub(first_with_row).and_then(|row| lengths.get(row)) {
            maker.row(length);
        }
        maker.end();
    }
    maker.uses(ids);
    maker.end();
    maker.tokens
}

fn depth_64(size: usize) -> Vec<u32> {
    const NODES: usize = 62;
    // The first eight chains have an ID at the top and a row that refers at the bottom, 7 tokens together. Rows take the rest.
    let chains = (size - 200) / (2 * NODES + 3);
    let with_id = chains.min(FEW);
    let lengths = rows(size - 4 - chains * 2 * NODES - 7 * with_id);
    let mut maker = Maker::new();
    maker.root();
    for (k, lengths) in parts(&lengths, chains).enumerate() {
        for depth in 0..NODES {
            maker.start(1);
            if k < with_id && depth == 0 {
                maker.attribute(ID, id_value(k));
            }
        }
        if k < with_id {
            maker.start(2);
            maker.attribute(REFERENCE, id_value(with_id - 1 - k));
            maker.text(3);
            maker.end();
        }
        lengths.iter().for_each(|&length| maker.row(length));
        (0..NODES).for_each(|_| maker.end());
    }
    maker.end();
    maker.tokens
}

fn choice_40(size: usize) -> Vec<u32> {
    let mut maker = Maker::new();
    let mut dice = Dice::new(40);
    maker.root();
    // An empty child (names to 20) has 2 tokens, a text child 3, and 2 more with an attribute. The last child has 5.
    let mut rest = size - 4 - 5;
    let mut child = 0;
    while rest > 0 {
        let name = match rest {
            2 | 4 => 1 + dice.below(20),
            3 => 21 + dice.below(20),
            _ => 1 + dice.below(40),
        };
        let before = maker.tokens.len();
        maker.start(name);
        if (20..20 + FEW).contains(&child) {
            maker.attribute(ID, id_value(child));
        } else if (40..40 + FEW).contains(&child) {
            maker.attribute(REFERENCE, id_value(child - 20));
        }
        if name > 20 {
            let text = maker.any_value();
            maker.text(text);
        }
        maker.end();
        child += 1;
        rest -= maker.tokens.len() - before;
    }
    maker.start(40);
    maker.attribute(CAPTION, 9);
    maker.text(9);
    maker.end();
    maker.end();
    maker.tokens
}

/// Numbers as if at random, the same at every run.
pub struct Dice {
    state: u64,
}

impl Dice {
    pub fn new(seed: u64) -> Dice {
        Dice { state: seed.wrapping_mul(0x9E37_79B9_7F4A_7C15) | 1 }
    }

    pub fn below(&mut self, bound: u32) -> u32 {
        self.state ^= self.state << 13;
        self.state ^= self.state >> 7;
        self.state ^= self.state << 17;
        (((self.state >> 32) * u64::from(bound)) >> 32) as u32
    }
}

#[cfg(test)]
mod tests;
