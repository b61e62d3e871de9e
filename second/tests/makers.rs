//! The random cases hold what they must: rows of every number of texts, kept and refused; content that stops at a child, a text and an end;
//! done edits of every sort, whose children are counted once more on the tokens; runs of edits that are stepped back.

use second::case::{Case, Memory, Outcome, Said};
use second::make::group::{Group, SLOTS};
use second::paper::grammar::{Content, Grammar};
use second::paper::tally::fresh;
use second::paper::tree::{self, Element};
use second::random::Random;

/// The slots of a group that are checks, and those that are checks or edits.
const CHECKS: std::ops::Range<u64> = 12..26;
const CHECKS_AND_EDITS: std::ops::Range<u64> = 12..86;

/// Every case in these slots of so many groups, and its outcome. Gives the runs of edits that were stepped back.
fn each_case(groups: u64, slots: std::ops::Range<u64>, visit: &mut dyn FnMut(&Case, &Outcome)) -> Vec<usize> {
    let mut stepped_back = Vec::new();
    for number in 0..groups {
        let mut group = Group::new(3, number);
        for slot in slots.clone() {
            let case = group.case(&mut Random::new(4, number * SLOTS + slot), slot, 0);
            let outcome = case.outcome();
            visit(&case, &outcome);
            group.went(&case, &outcome);
        }
        stepped_back.extend(group.stepped_back);
    }
    stepped_back
}

/// The text-only elements of a tree that have no child: how many have no text, one, two or more.
fn rows(root: &Element, grammar: &Grammar) -> [usize; 3] {
    let mut rows = [0; 3];
    root.each(&mut |element| {
        let is_row = grammar.declaration(element.name).map_or(false, |declaration| matches!(declaration.content, Content::Text));
        if is_row && element.children().next().is_none() {
            rows[element.content.len().min(2)] += 1;
        }
    });
    rows
}

#[test]
fn rows_of_no_text_one_and_two() {
    let (mut empty_kept, mut one_kept, mut two_refused, mut cleared) = (0, 0, 0, 0);
    each_case(300, CHECKS_AND_EDITS, &mut |case, outcome| match (case, &outcome.said) {
        (Case::Check { table, doc, used, .. }, Said::Verdict(verdict)) => {
            if let (Some(grammar), Some(root)) = (&table.grammar, tree::document(doc, *used)) {
                let rows = rows(&root, grammar);
                empty_kept += usize::from(verdict.number == 0 && rows[0] > 0);
                one_kept += usize::from(verdict.number == 0 && rows[1] > 0);
                two_refused += usize::from(verdict.number == 9 && rows[2] > 0);
                assert!(verdict.number != 0 || rows[2] == 0);
            }
        }
        (Case::Edit { doc, edit, .. }, Said::Answer(answer)) if edit.operation == 2 && answer.number == 0 => {
            cleared += usize::from(doc[edit.place as usize] % 8 == 3);
        }
        _ => {}
    });
    for count in [empty_kept, one_kept, two_refused, cleared] {
        assert!(count >= 25, "{empty_kept} {one_kept} {two_refused} {cleared}");
    }
}

/// By schemas and by runs that no schema gives, content stops at a child, at a text, and at the end token.
#[test]
fn content_stops_everywhere() {
    let mut stops = [[0; 3]; 2];
    each_case(600, CHECKS, &mut |case, outcome| {
        if let (Case::Check { table, doc, .. }, Said::Verdict(verdict)) = (case, &outcome.said) {
            if verdict.number == 9 {
                let sort = [1, 3, 2].iter().position(|sort| doc[verdict.place as usize] % 8 == *sort).expect("a start, a text or an end");
                stops[usize::from(table.schema.is_none())][sort] += 1;
            }
        }
    });
    assert!(stops.iter().flatten().all(|count| *count >= 10), "{stops:?}");
}

/// The children and texts of the element that starts at a place: starts and texts one level below it.
fn kids(tokens: &[u32], start: usize) -> usize {
    let (mut depth, mut kids) = (0, 0);
    for token in &tokens[start..] {
        kids += usize::from(depth == 1 && [1, 3].contains(&(token % 8)));
        match token % 8 {
            1 => depth += 1,
            2 => depth -= 1,
            _ => {}
        }
        if depth == 0 {
            break;
        }
    }
    kids
}

/// The start of the element that holds what stands at a place; None for the root.
fn parent(tokens: &[u32], place: usize) -> Option<usize> {
    let mut open = Vec::new();
    for (at, token) in tokens[..place].iter().enumerate() {
        match token % 8 {
            1 => open.push(at),
            2 => drop(open.pop()),
            _ => {}
        }
    }
    open.pop()
}

/// Edits of every operation that looked at no child, at some, and at some in the piece; replaced roots; texts as pieces.
#[test]
fn children_looked_at() {
    let mut by_operation = [[0; 3]; 5];
    let (mut roots, mut texts) = (0, 0);
    each_case(200, CHECKS_AND_EDITS, &mut |case, outcome| {
        let (edit, answer, after) = match (case, &outcome.said, &outcome.after[..]) {
            (Case::Edit { edit, .. }, Said::Answer(answer), [Memory::Tokens(after), ..]) => (edit, answer, after),
            _ => return,
        };
        if answer.number != 0 {
            assert_eq!(answer.children, 0);
            return;
        }
        let place = edit.place as usize;
        let touched = if edit.operation < 4 { parent(after, place) } else { Some(place) };
        let above = touched.map_or(0, |start| kids(after, start));
        let starts = (0..edit.piece.len()).filter(|at| edit.piece[*at] % 8 == 1);
        let inside: usize = starts.map(|at| kids(&edit.piece, at)).sum();
        assert_eq!(answer.children as usize, above + inside);
        assert!(inside <= edit.piece.len());
        let row = &mut by_operation[edit.operation as usize - 1];
        row[0] += usize::from(answer.children == 0);
        row[1] += usize::from(above > 0);
        row[2] += usize::from(inside > 0);
        roots += usize::from(touched.is_none());
        texts += usize::from(edit.piece.len() == 1 && edit.piece[0] % 8 == 3);
    });
    // What is put into an element is a child of it, and only pieces of elements have children inside.
    let can_be = [[false, true, true], [true, true, false], [true, true, true], [true, true, false], [true, true, false]];
    for (row, can_be) in by_operation.iter().zip(can_be) {
        assert!(row.iter().zip(can_be).all(|(count, can_be)| if can_be { *count >= 5 } else { *count == 0 }), "{by_operation:?}");
    }
    assert!(roots >= 20 && texts >= 20, "{roots} {texts}");
}

/// "If the counts were true before, they are true after every edit, done or refused", lists included; a valid check writes true ones.
#[test]
fn true_counts_stay_true() {
    let mut kept = [0; 3];
    each_case(120, CHECKS_AND_EDITS, &mut |case, outcome| {
        let (table, doc, used, counts) = match case {
            Case::Check { table, doc, used, counts } | Case::Edit { table, doc, used, counts, .. } => (table, doc, *used, counts),
            _ => return,
        };
        let (grammar, root) = match (&table.grammar, tree::document(doc, used)) {
            (Some(grammar), Some(root)) => (grammar, root),
            _ => return,
        };
        match (&outcome.said, &outcome.after[..]) {
            (Said::Verdict(verdict), [Memory::Counts(after)]) => {
                assert_eq!(*after, if verdict.number == 0 { fresh(&root, grammar) } else { *counts });
                kept[2] += 1;
            }
            (Said::Answer(answer), [Memory::Tokens(doc), _, Memory::Counts(after)]) if fresh(&root, grammar) == *counts => {
                assert_eq!(*after, fresh(&tree::document(doc, answer.used).expect("shape stays"), grammar));
                assert_ne!(answer.number, 15, "true counts never meet it");
                kept[usize::from(answer.number == 0)] += 1;
            }
            _ => {}
        }
    });
    assert!(kept.iter().all(|count| *count >= 300), "{kept:?}");
}

/// An edit that steps back is done, gives the document before it, and by every operation; whole runs are stepped back.
#[test]
fn steps_back() {
    let mut by_operation = [0; 5];
    let mut longest = 0;
    let runs = each_case(200, CHECKS_AND_EDITS, &mut |case, outcome| {
        if let (Case::Edit { edit, give: Some(tokens), .. }, Said::Answer(answer)) = (case, &outcome.said) {
            assert_eq!((answer.number, answer.used as usize), (0, tokens.len()));
            assert!(matches!(&outcome.after[0], Memory::Tokens(after) if after.starts_with(tokens)));
            by_operation[edit.operation as usize - 1] += 1;
            longest = longest.max(edit.piece.len());
        }
    });
    assert!(by_operation.iter().all(|count| *count >= 50), "{by_operation:?}");
    assert!(longest >= 8_000, "{longest}");
    assert!(runs.len() >= 100 && runs.iter().any(|edits| *edits >= 5), "{runs:?}");
}
