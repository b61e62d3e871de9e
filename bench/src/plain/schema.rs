//! The translator: a schema file to a table.

use super::model::Model;
use super::numbers::Numbers;
use super::table::{at, Table, BLOCK, ELEMENTS, FIXED, MODEL, MOST_FIXED, WORDS};

const CDATA: u32 = 0;
const ID: u32 = 1;
const IDREF: u32 = 2;
const IDREFS: u32 = 3;

const REQUIRED: u32 = 0;
const IMPLIED: u32 = 1;
const FIXED_STATUS: u32 = 2;

/// Fills a table of its own and copies it out: a refusal must leave `table` as it was.
pub fn translate(file: &[u8], table: &mut [u64]) -> Result<(), u32> {
    if table.len() != WORDS {
        return Err(13);
    }
    let mut made = vec![0u64; WORDS];
    let mut numbers = Numbers::of(file);
    let elements = within(numbers.next()?, 1, ELEMENTS as u32)?;
    let root = within(numbers.next()?, 0, elements - 1)?;
    made[0] = u64::from(elements);
    made[1] = u64::from(root);
    for element in 0..elements {
        let begin = 2 + element as usize * BLOCK;
        content(&mut numbers, elements, &mut made[begin..begin + BLOCK])?;
        attributes(&mut numbers, element, &mut made)?;
    }
    if !numbers.is_at_end() {
        return Err(2);
    }
    table.copy_from_slice(&made);
    Ok(())
}

fn within(value: u32, least: u32, most: u32) -> Result<u32, u32> {
    if least <= value && value <= most {
        Ok(value)
    } else {
        Err(2)
    }
}

fn content(numbers: &mut Numbers, elements: u32, block: &mut [u64]) -> Result<(), u32> {
    let kind = u64::from(within(numbers.next()?, 0, 2)?);
    block[at::KIND] = kind;
    if kind != MODEL {
        return Ok(());
    }
    let count = within(numbers.next()?, 1, 255)?;
    let mut symbols = Vec::with_capacity(count as usize);
    for _ in 0..count {
        symbols.push(within(numbers.next()?, 0, 4 + elements)?);
    }
    let model = Model::read(&symbols).ok_or(2u32)?;
    if model.is_ambiguous() {
        return Err(3);
    }
    let n = model.names.len();
    block[at::COUNT] = n as u64;
    block[at::NO_CHILD] = u64::from(model.empty);
    block[at::FIRST] = model.first;
    block[at::LAST] = model.last;
    block[at::NAMES..at::NAMES + n].copy_from_slice(&model.names);
    block[at::FOLLOW..at::FOLLOW + n].copy_from_slice(&model.follow);
    Ok(())
}

fn attributes(numbers: &mut Numbers, element: u32, words: &mut [u64]) -> Result<(), u32> {
    let begin = 2 + element as usize * BLOCK;
    let count = within(numbers.next()?, 0, 64)?;
    let mut least = 0;
    for _ in 0..count {
        let attribute = within(numbers.next()?, least, 63)?;
        least = attribute + 1;
        let bit = 1u64 << attribute;
        let block = &mut words[begin..begin + BLOCK];
        block[at::ALLOWED] |= bit;
        let kind = numbers.next()?;
        match kind {
            CDATA => {}
            ID if block[at::ID] == 0 => block[at::ID] = bit,
            IDREF => block[at::IDREF] |= bit,
            IDREFS => block[at::IDREFS] |= bit,
            _ => return Err(2),
        }
        match numbers.next()? {
            REQUIRED => block[at::REQUIRED] |= bit,
            IMPLIED => {}
            FIXED_STATUS if kind == CDATA && words[FIXED] < MOST_FIXED as u64 => {
                Table::add_fixed(words, element, attribute, within(numbers.next()?, 0, 65_535)?)
            }
            _ => return Err(2),
        }
    }
    Ok(())
}
