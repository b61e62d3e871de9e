//! Calls drawn by chance from small documents of every mix: the contenders must agree on them too, refusals included.

use bench::calls::{Calls, Counts, Edit};
use bench::documents::{file, fixed_captions, Dice, Mix, MIXES};
use bench::plain::{BACK, FIXED, PLACES, WORDS};
use bench::texts;

const TOKENS: usize = 420;
/// Bytes that a DTD's text may or may not have where they are put.
const MARKS: &[u8] = b"<>!-()#,|?*+ \n\x7f\xc3\xffaAE:_.9IDRS";

/// Runs `count` rounds of calls for each mix. The count of calls, or what differs.
pub fn agree(contenders: &[&dyn Calls], count: u32) -> Result<u64, String> {
    let mut calls = 0;
    for (k, &mix) in MIXES.iter().enumerate() {
        let mut dice = Dice::new(k as u64 + 7);
        for round in 0..count {
            agree_once(contenders, mix, &mut dice).map_err(|what| format!("{}, round {}: {}", mix.name(), round, what))?;
            calls += 12;
        }
    }
    Ok(calls)
}

/// The same from all contenders.
fn same<T: PartialEq>(what: &str, contenders: &[&dyn Calls], run: impl Fn(&dyn Calls) -> T) -> Result<T, String> {
    let first = run(contenders[0]);
    for other in &contenders[1..] {
        if run(*other) != first {
            return Err(format!("{}: {} and {} differ", what, contenders[0].name(), other.name()));
        }
    }
    Ok(first)
}

fn agree_once(contenders: &[&dyn Calls], mix: Mix, dice: &mut Dice) -> Result<(), String> {
    let is_fixed = mix == Mix::FewIds && dice.below(2) == 0;
    let (numbers, mut tokens) = if is_fixed { fixed_captions(TOKENS) } else { (mix.schema(), mix.document(TOKENS)) };
    let mut schema = file(&numbers);
    let mut table = vec![0; WORDS];
    contenders[0].translate(&schema, &mut table);
    if dice.below(4) == 0 {
        let word = match dice.below(5) {
            0 => dice.below(WORDS as u32),
            1 => FIXED as u32 + dice.below(4),
            2 => FIXED as u32 + dice.below(49),
            _ => dice.below(2 + 5 * 138),
        };
        let bit = if dice.below(2) == 0 { dice.below(4) } else { dice.below(64) };
        table[word as usize] ^= 1 << bit;
    }
    disturb(&mut schema, dice, |byte, dice| *byte = dice.below(256) as u8);
    same("translate", contenders, |calls| {
        let mut lent = vec![7; WORDS];
        (calls.translate(&schema, &mut lent), lent)
    })?;

    let other = {
        let mut table = vec![0; WORDS];
        contenders[0].translate(&file(&MIXES[dice.below(MIXES.len() as u32) as usize].schema()), &mut table);
        table
    };
    let element = dice.below(6);
    let room = PLACES + 1 - dice.below(16) as usize / 14 * 2;
    same("compare", contenders, |calls| {
        let mut lent = vec![7; room];
        (calls.compare(&table, &other, element, &mut lent), lent)
    })?;

    if dice.below(3) > 0 {
        disturb(&mut tokens, dice, |token, dice| match dice.below(3) {
            0 => *token = dice.below(45 * 8),
            1 => *token = (*token & 7) | dice.below(45) << 3,
            _ => *token ^= 1 << dice.below(32),
        });
    }
    let used = tokens.len() as u64;
    let counts = any_counts(contenders[0], &table, &tokens, dice);
    same("check", contenders, |calls| {
        let mut lent = counts;
        (calls.check(&table, &tokens, used, &mut lent), lent)
    })?;
    let name = dice.below(50);
    same("elements", contenders, |calls| calls.elements(&table, &counts, name))?;

    let mut buffer = tokens.clone();
    buffer.resize(tokens.len() + dice.below(12) as usize, 7);
    let edit = any_edit(&tokens, dice);
    let room = if dice.below(4) == 0 { dice.below(12) as usize } else { BACK };
    same("edit", contenders, |calls| {
        let (mut lent, mut back, mut counts) = (buffer.clone(), vec![7; room], counts);
        (calls.edit(&table, &mut lent, used, edit.operation, edit.place, &edit.piece, &mut back, &mut counts), lent, back, counts)
    })?;

    let list = any_list(&tokens, dice);
    same("list", contenders, |calls| {
        let (mut lent, mut counts) = (buffer.clone(), counts);
        (calls.list(&table, &mut lent, used, &list, &mut counts), lent, counts)
    })?;

    let room = buffer.len() + dice.below(8) as usize - dice.below(8) as usize / 7;
    same("group", contenders, |calls| {
        let (mut lent, mut second) = (buffer.clone(), vec![8; room]);
        (calls.group(&table, &mut lent, used, &list, &mut second), lent, second)
    })?;

    let mut bytes = file(&tokens);
    disturb(&mut bytes, dice, |byte, dice| *byte = dice.below(256) as u8);
    let room = TOKENS - 2 + dice.below(8) as usize;
    same("read", contenders, |calls| {
        let mut lent = vec![7; room];
        (calls.read(&bytes, &mut lent), lent)
    })?;

    let mut text = texts::by_chance(dice);
    disturb(&mut text, dice, |byte, dice| *byte = MARKS[dice.below(MARKS.len() as u32) as usize]);
    let room = dice.below(60) as usize;
    same("import", contenders, |calls| {
        let mut lent = vec![7; room];
        (calls.import(&text, &mut lent), lent)
    })?;
    same("names", contenders, |calls| {
        let mut lent = vec![7; room];
        (calls.names(&text, &mut lent), lent)
    })?;
    same("import_spot", contenders, |calls| calls.import_spot(&text))?;

    let room = file(&tokens).len() + dice.below(4) as usize - 2;
    same("write", contenders, |calls| {
        let mut lent = vec![7; room];
        (calls.write(&tokens, &mut lent), lent)
    })?;
    Ok(())
}

/// Changes, cuts out or doubles an entry, a few times or not at all.
fn disturb<T: Copy>(list: &mut Vec<T>, dice: &mut Dice, change: impl Fn(&mut T, &mut Dice)) {
    for _ in 0..dice.below(3) {
        let at = dice.below(list.len() as u32) as usize;
        match dice.below(4) {
            0 => drop(list.remove(at)),
            1 => list.insert(at, list[at]),
            _ => change(&mut list[at], dice),
        }
    }
}

fn any_edit(tokens: &[u32], dice: &mut Dice) -> Edit {
    let length = tokens.len() as u32;
    let operation = dice.below(32) % 6;
    let place = dice.below(length + 3);
    let from = dice.below(length) as usize;
    let attribute = dice.below(4) * 8 + 4;
    let mut piece = match operation {
        1 | 3 if dice.below(4) == 0 => vec![dice.below(100) * 8 + 3],
        1 | 3 => item(tokens, from),
        4 => vec![attribute, dice.below(65_536) * 8 + 5],
        5 => vec![attribute],
        _ => vec![],
    };
    if dice.below(8) == 0 {
        piece.push(dice.below(45 * 8));
    }
    if dice.below(8) == 0 && !piece.is_empty() {
        let at = dice.below(piece.len() as u32) as usize;
        piece[at] = (piece[at] & 7) | dice.below(45) << 3;
    }
    Edit { operation, place: u64::from(place), piece }
}

/// The counts of the document if it is valid, else all 100; now and then with one that is near or past an end of the range.
fn any_counts(calls: &dyn Calls, table: &[u64], tokens: &[u32], dice: &mut Dice) -> Counts {
    let mut counts = [100; 48];
    calls.check(table, tokens, tokens.len() as u64, &mut counts);
    if dice.below(4) == 0 {
        let ends = [-1, 0, 1, 8191, 8192, 8193, i32::MIN, i32::MAX];
        let name = if dice.below(2) == 0 { dice.below(4) } else { dice.below(48) };
        counts[name as usize] = ends[dice.below(ends.len() as u32) as usize];
    }
    counts
}

/// The numbers of a few edits, now and then of too many, or disturbed.
fn any_list(tokens: &[u32], dice: &mut Dice) -> Vec<u32> {
    let count = if dice.below(64) == 0 { 250 + dice.below(10) } else { dice.below(6) };
    let mut list: Vec<u32> = (0..count).flat_map(|_| any_edit(tokens, dice).numbers().collect::<Vec<u32>>()).collect();
    if dice.below(6) == 0 && !list.is_empty() {
        disturb(&mut list, dice, |number, dice| *number = dice.below(20));
    }
    list
}

/// The element that starts at the place, else the token there.
fn item(tokens: &[u32], from: usize) -> Vec<u32> {
    let mut open = 0;
    let mut piece = Vec::new();
    for &token in &tokens[from..] {
        open += i32::from(token & 7 == 1) - i32::from(token & 7 == 2);
        piece.push(token);
        if open <= 0 {
            break;
        }
    }
    piece
}
