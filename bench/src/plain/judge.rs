//! The judgement of a document, whole or at touched elements.

use super::counts;
use super::keys::{self, Keys};
use super::shape::{self, number, sort, ATTRIBUTE, END, START, TEXT, VALUE};
use super::table::{self, Element, Table};
use super::Fault;
use crate::calls::Counts;

pub fn check(words: &[u64], buffer: &[u32], used: u64, counts: &mut Counts, keys: Keys) -> Result<(), Fault> {
    let table = Table::proper(words).ok_or(13u32)?;
    let tokens = shape::document(buffer, used).ok_or(4u32)?;
    judge(table, tokens, starts(tokens, 0, tokens.len()), keys)?;
    *counts = counts::fresh(table, tokens);
    Ok(())
}

/// The places of starts, rising, from `from` to before `to`.
pub fn starts(tokens: &[u32], from: usize, to: usize) -> impl Iterator<Item = usize> + '_ {
    (from..to).filter(move |&place| sort(tokens[place]) == START)
}

/// Judges tokens that have shape: the root's name, then the elements whose starts are given, then IDs and references. How many children
/// those elements have.
pub fn judge(table: Table, tokens: &[u32], touched: impl Iterator<Item = usize>, keys: Keys) -> Result<usize, Fault> {
    if number(tokens[0]) != table.root() {
        return Err(Fault::at(10, 0));
    }
    let ends = shape::ends(tokens);
    let mut children = 0;
    for start in touched {
        children += judge_element(table, tokens, &ends, start)?;
    }
    keys::judge(table, tokens, keys)?;
    Ok(children)
}

fn judge_element(table: Table, tokens: &[u32], ends: &[u32], start: usize) -> Result<usize, Fault> {
    let element = table.element(number(tokens[start])).ok_or_else(|| Fault::at(7, start))?;
    let content = judge_attributes(table, element, tokens, start).map_err(|number| Fault::at(number, start))?;
    judge_content(element, tokens, ends, content).map_err(|place| Fault::at(9, place))
}

/// The place after the attributes, if they are good.
fn judge_attributes(table: Table, element: Element, tokens: &[u32], start: usize) -> Result<usize, u32> {
    let mut present = 0;
    let mut at = start + 1;
    while sort(tokens[at]) == ATTRIBUTE {
        let attribute = number(tokens[at]);
        if attribute > 63 || element.allowed() >> attribute & 1 == 0 {
            return Err(8);
        }
        present |= 1u64 << attribute;
        let values = tokens[at + 1..].iter().take_while(|&&token| sort(token) == VALUE).count();
        if values > 1 && element.idrefs() >> attribute & 1 == 0 {
            return Err(8);
        }
        if table.fixed(number(tokens[start]), attribute).map_or(false, |value| value != number(tokens[at + 1])) {
            return Err(8);
        }
        at += 1 + values;
    }
    if element.required() & !present == 0 {
        Ok(at)
    } else {
        Err(8)
    }
}

/// `at` is the place of the first child, text, or the element's end. How many children and texts there are; an error is the place of the
/// first child or text with which content cannot go on, or of the end.
fn judge_content(element: Element, tokens: &[u32], ends: &[u32], mut at: usize) -> Result<usize, usize> {
    let mut children = 0;
    let good = match element.kind() {
        table::EMPTY => sort(tokens[at]) == END,
        table::TEXT => {
            children = (sort(tokens[at]) == TEXT) as usize;
            at += children;
            sort(tokens[at]) == END
        }
        _ => {
            let mut run = element.run();
            while sort(tokens[at]) == START {
                if !run.step(number(tokens[at])) {
                    return Err(at);
                }
                at = ends[at] as usize + 1;
                children += 1;
            }
            sort(tokens[at]) == END && run.may_end()
        }
    };
    if good {
        Ok(children)
    } else {
        Err(at)
    }
}
