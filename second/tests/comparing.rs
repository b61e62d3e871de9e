//! Lost sequences against lists of all sequences in order; by this program alone.

mod listed;

use listed::{all_runs, runs};
use second::case::Table;
use second::make::{compares, expressions, tables};
use second::paper::compare::{compare, LEAST_ROOM};
use second::paper::expression::Expression::{Choice, Name, Optional, Plus, Sequence, Star};
use second::paper::grammar::{Content, Declaration, Grammar, Model};
use second::paper::table::block_at;
use second::paper::{numbers, schema_file};
use second::random::Random;

fn with(count: usize, content: Content) -> Grammar {
    let mut grammar = Grammar { root: 0, elements: vec![Declaration { content, attributes: vec![] }] };
    grammar.elements.resize_with(count, || Declaration { content: Content::Empty, attributes: vec![] });
    grammar
}

fn model(count: usize, symbols: &[u32]) -> Grammar {
    let expression = second::paper::expression::Expression::of_symbols(symbols).expect("an expression");
    with(count, Content::Model(Model::new(expression)))
}

#[test]
fn answers_in_order() {
    let (star, plus) = (model(3, &[3, 6]), model(3, &[4, 6]));
    let ask = |old: &Grammar, new: &Grammar| compare(Some(old), Some(new), 0, LEAST_ROOM);
    assert_eq!(ask(&star, &plus), Ok(Some(vec![])));
    assert_eq!(ask(&plus, &star), Ok(None));
    assert_eq!(ask(&model(3, &[1, 7, 6]), &model(3, &[5])), Ok(Some(vec![1])));
    assert_eq!(ask(&model(3, &[2, 7]), &model(2, &[2, 6])), Ok(Some(vec![2])));
    assert_eq!(ask(&model(3, &[2, 7]), &with(1, Content::Empty)), Ok(Some(vec![2])));
    assert_eq!(ask(&with(1, Content::Empty), &star), Ok(None));
    assert_eq!(ask(&with(1, Content::Empty), &plus), Ok(Some(vec![])));
    let text = with(2, Content::Text);
    assert_eq!(compare(None, Some(&star), 9, 0), Err(13));
    assert_eq!(compare(Some(&star), None, 9, 0), Err(13));
    assert_eq!(compare(Some(&text), Some(&star), 2, 0), Err(6));
    assert_eq!(compare(Some(&star), Some(&text), 2, 0), Err(6));
    assert_eq!(compare(Some(&text), Some(&star), 0, 0), Err(16));
    assert_eq!(compare(Some(&star), Some(&text), 0, 0), Err(16));
    assert_eq!(compare(Some(&star), Some(&star), 0, LEAST_ROOM - 1), Err(5));
}

#[test]
fn the_first_of_all_sequences() {
    let all = all_runs(3, 5);
    let (mut yes, mut no) = (0, 0);
    for number in 0..1_500 {
        let mut random = Random::new(31, number);
        let leaves = random.within(1, 4);
        let expression = expressions::unambiguous(&mut random, leaves, &[0, 1, 2]);
        let old = with(3, Content::Model(Model::new(expression.clone())));
        let file = numbers::file_of(&schema_file::numbers_of(&old));
        let new = compares::altered(&mut random, &file, 0).grammar.expect("a schema's table");
        let (ones, twos) = match &new.elements[0].content {
            Content::Model(model) if new.elements.len() == 3 => (runs(&expression, 5), runs(&model.expression, 5)),
            _ => continue,
        };
        let first = all.iter().find(|word| ones.contains(*word) && !twos.contains(*word));
        match (compare(Some(&old), Some(&new), 0, LEAST_ROOM), first) {
            (Ok(None), None) => yes += 1,
            (Ok(Some(lost)), None) => assert!(lost.len() > 5, "{expression:?}"),
            (Ok(Some(lost)), Some(first)) => {
                no += 1;
                assert_eq!(lost, first.iter().map(|name| u32::from(*name)).collect::<Vec<u32>>(), "{expression:?}");
            }
            wrong => panic!("{wrong:?}"),
        }
    }
    assert!(yes > 200 && no > 200, "{yes} {no}");
}

#[test]
fn runs_that_no_schema_gives() {
    let mut no = 0;
    for number in 0..3_000 {
        let mut random = Random::new(32, number);
        let one = Table::of_words(tables::proper(&mut random));
        let old = one.grammar.as_ref().expect("a proper table");
        let two = compares::other_runs(&mut random, &one.words, 0);
        let new = two.grammar.as_ref().expect("still proper");
        let (ones, twos) = match (&old.elements[0].content, &new.elements[0].content) {
            (Content::Run(ones), Content::Run(twos)) if old.elements.len() <= 5 => (ones, twos),
            _ => continue,
        };
        let all = all_runs(old.elements.len() as u16, 4);
        let first = all.iter().find(|word| ones.describes(word) && !twos.describes(word));
        match (compare(Some(old), Some(new), 0, LEAST_ROOM), first) {
            (Ok(None), None) => {}
            (Ok(Some(lost)), None) => assert!(lost.len() > 4),
            (Ok(Some(lost)), Some(first)) => {
                no += 1;
                assert_eq!(lost, first.iter().map(|name| u32::from(*name)).collect::<Vec<u32>>());
            }
            wrong => panic!("{wrong:?}"),
        }
    }
    assert!(no > 200, "{no}");
}

/// Sequences of thousands: two cycles of 64 and 63.
#[test]
fn long_sequences() {
    let mut longest = 0;
    for number in 0..300 {
        let (old, new) = compares::cycles(&mut Random::new(33, number));
        let cycle = |table: &Table| table.words[block_at(0) + 6] as usize;
        let refused = (0..64).find(|bit| new.words[block_at(0) + 9] >> bit & 1 == 0).expect("an occurrence that is not last");
        let length = (1..=4_290).find(|length| length % cycle(&old) == 0 && (length - 1) % cycle(&new) == refused);
        let expected = length.map(|length| vec![0; length]);
        assert_eq!(compare(old.grammar.as_ref(), new.grammar.as_ref(), 0, LEAST_ROOM), Ok(expected));
        longest = longest.max(length.unwrap_or(0));
    }
    assert!(longest > 3_500, "{longest}");
}

/// An expression that is wider takes all that it did.
#[test]
fn wider_models() {
    for number in 0..500 {
        let mut random = Random::new(34, number);
        let leaves = *random.pick(&[1, 3, 10, 40]);
        let names: Vec<u16> = (0..random.within(1, 47) as u16).collect();
        let expression = expressions::unambiguous(&mut random, leaves, &names);
        let wider = match random.below(5) {
            0 => Optional(Box::new(expression.clone())),
            1 => Choice(Box::new(expression.clone()), Box::new(Name(47))),
            2 => Sequence(Box::new(expression.clone()), Box::new(Optional(Box::new(Name(47))))),
            3 => Sequence(Box::new(Star(Box::new(Name(47)))), Box::new(expression.clone())),
            _ => expression.clone(),
        };
        let old = with(48, Content::Model(Model::new(expression.clone())));
        let new = with(48, Content::Model(Model::new(wider)));
        assert_eq!(compare(Some(&old), Some(&new), 0, LEAST_ROOM), Ok(None), "{expression:?}");
        let longer = Sequence(Box::new(Plus(Box::new(Name(47)))), Box::new(expression));
        let longer = with(48, Content::Model(Model::new(longer)));
        assert!(matches!(compare(Some(&old), Some(&longer), 0, LEAST_ROOM), Ok(Some(_))));
    }
}
