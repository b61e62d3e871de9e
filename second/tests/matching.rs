//! Derivatives, occurrence sets and ambiguity against the meaning of expressions: the runs that an expression describes are
//! listed, up to a length.

mod listed;

use listed::{all_runs, runs, Runs};
use second::make::expressions;
use second::paper::derivatives::Matcher;
use second::paper::expression::Expression;
use second::paper::grammar::{Content, Declaration, Model};
use second::paper::{occurrences, table};
use second::random::Random;
use std::collections::BTreeSet;

fn drawn(number: u64) -> Expression {
    let mut random = Random::new(11, number);
    let leaves = random.within(1, 5);
    let unary = *random.pick(&[0, 20, 50, 80]);
    expressions::any(&mut random, leaves, &[0, 1, 2], unary)
}

#[test]
fn derivatives_match_what_is_described() {
    let words = all_runs(3, 5);
    for number in 0..600 {
        let expression = drawn(number);
        let described = runs(&expression, 5);
        let mut matcher = Matcher::new(&expression);
        for word in &words {
            assert_eq!(matcher.matches(word), described.contains(word), "{expression:?} {word:?}");
        }
    }
}

/// Content stops where no run that is described begins that way: runs of 6 are enough for 3 occurrences and beginnings of 4.
#[test]
fn content_stops_where_no_run_begins() {
    let words = all_runs(3, 4);
    let mut kinds = [0; 3];
    for number in 0..500 {
        let expression = drawn(number);
        if expression.names().len() > 3 {
            continue;
        }
        let described = runs(&expression, 6);
        let begun: Runs = described.iter().flat_map(|run| (0..=run.len().min(4)).map(move |i| run[..i].to_vec())).collect();
        let declaration = Declaration { content: Content::Model(Model::new(expression.clone())), attributes: vec![] };
        for word in &words {
            let first = (0..word.len()).find(|i| !begun.contains(&word[..=*i]));
            let stop = first.or_else(|| (!described.contains(word)).then_some(word.len()));
            let items: Vec<Option<u16>> = word.iter().map(|name| Some(*name)).collect();
            assert_eq!(declaration.stop(&items), stop, "{expression:?} {word:?}");
            kinds[if first.is_some() { 0 } else { 1 + usize::from(stop.is_some()) }] += 1;
            // A text is a child that nothing fits.
            for at in 0..=word.len() {
                let items = [&items[..at], &[None], &items[at..]].concat();
                assert_eq!(declaration.stop(&items), Some(first.map_or(at, |first| first.min(at))));
            }
        }
    }
    assert!(kinds.iter().all(|count| *count > 500), "{kinds:?}");
}

/// With at most 3 occurrences, every pair of neighbours and every run to a doubtful point stands in some run of 6.
#[test]
fn occurrences_are_those_of_the_runs() {
    let mut ambiguous = 0;
    for number in 0..3_000 {
        let expression = drawn(number);
        if expression.names().len() > 3 {
            continue;
        }
        let names = expression.names();
        let described = runs(&expression.marked(), 6);
        let found = occurrences::of(&expression);
        let bit = |k: Option<&u16>| k.map_or(0, |k| 1u64 << k);
        assert_eq!(found.no_child, described.contains(&vec![]));
        assert_eq!(found.first, described.iter().fold(0, |set, run| set | bit(run.first())));
        assert_eq!(found.last, described.iter().fold(0, |set, run| set | bit(run.last())));
        for k in 0..names.len() {
            let after = described.iter().flat_map(|run| run.windows(2)).filter(|pair| usize::from(pair[0]) == k);
            assert_eq!(found.follow[k], after.fold(0, |set, pair| set | bit(Some(&pair[1]))), "{expression:?}");
        }
        let begun: Runs = described.iter().flat_map(|run| (0..=run.len()).map(move |i| run[..i].to_vec())).collect();
        let twice = begun.iter().any(|run| {
            let next = (0..names.len() as u16).filter(|k| begun.contains(&[&run[..], &[*k]].concat()));
            let next: Vec<u16> = next.map(|k| names[usize::from(k)]).collect();
            next.iter().collect::<BTreeSet<_>>().len() < next.len()
        });
        assert_eq!(found.ambiguous, twice, "{expression:?}");
        ambiguous += usize::from(twice);
    }
    assert!(ambiguous > 100);
}

/// A model that is not ambiguous is also described by running its sets.
#[test]
fn sets_run_as_the_expression() {
    for number in 0..400 {
        let mut random = Random::new(12, number);
        let leaves = *random.pick(&[1, 3, 10, 40, 64]);
        let names: Vec<u16> = (0..random.within(1, 48) as u16).collect();
        let mut expression = expressions::unambiguous(&mut random, leaves, &names);
        if random.chance(30) {
            expression = expressions::at_most_symbols(&mut random, expression);
            assert_eq!(expression.symbols().len(), 255);
        }
        let found = occurrences::of(&expression);
        assert!(!found.ambiguous);
        let run = table::Run { no_child: found.no_child, first: found.first, last: found.last, names: found.names, follow: found.follow };
        let mut matcher = Matcher::new(&expression);
        for _ in 0..30 {
            let word = wandered(&mut random, &mut matcher);
            assert_eq!(matcher.matches(&word), run.describes(&word), "{expression:?} {word:?}");
        }
    }
}

/// A run on the way to a match, with a wrong letter now and then.
fn wandered(random: &mut Random, matcher: &mut Matcher) -> Vec<u16> {
    let mut word = Vec::new();
    let mut state = 0;
    for _ in 0..random.below(90) {
        let letters = matcher.letters(state);
        if letters.is_empty() || (matcher.may_end(state) && random.chance(5)) {
            break;
        }
        let letter = *random.pick(&letters);
        word.push(letter);
        state = matcher.step(state, letter).expect("a letter that can come next");
    }
    if random.chance(20) && !word.is_empty() {
        let at = random.below(word.len());
        word[at] = random.below(48) as u16;
    }
    word
}
