//! The meaning of expressions: the runs that one describes, up to a length, and all runs in order.

use second::paper::expression::Expression::{self, Choice, Name, Optional, Plus, Sequence, Star};
use std::collections::BTreeSet;

pub type Runs = BTreeSet<Vec<u16>>;

/// All runs of at most this many letters that an expression describes.
pub fn runs(expression: &Expression, most: usize) -> Runs {
    match expression {
        Name(name) => Runs::from([vec![*name]]).into_iter().filter(|run| run.len() <= most).collect(),
        Choice(one, two) => runs(one, most).union(&runs(two, most)).cloned().collect(),
        Sequence(one, two) => joined(&runs(one, most), &runs(two, most), most),
        Optional(one) => with_empty(runs(one, most)),
        Star(one) => repeated(&runs(one, most), with_empty(Runs::new()), most),
        Plus(one) => repeated(&runs(one, most), runs(one, most), most),
    }
}

fn with_empty(mut runs: Runs) -> Runs {
    runs.insert(vec![]);
    runs
}

fn joined(ones: &Runs, twos: &Runs, most: usize) -> Runs {
    let pairs = ones.iter().flat_map(|one| twos.iter().map(move |two| [&one[..], &two[..]].concat()));
    pairs.filter(|run| run.len() <= most).collect()
}

/// What is begun, gone on with any number of times.
fn repeated(ones: &Runs, begun: Runs, most: usize) -> Runs {
    let more: Runs = joined(&begun, ones, most).union(&begun).cloned().collect();
    match more == begun {
        true => begun,
        false => repeated(ones, more, most),
    }
}

/// All runs of these letters, the shorter before the longer, of equals the lowest first.
pub fn all_runs(letters: u16, most: usize) -> Vec<Vec<u16>> {
    let mut all = vec![vec![]];
    let mut from = 0;
    for _ in 0..most {
        let to = all.len();
        for i in from..to {
            for letter in 0..letters {
                let longer = [&all[i][..], &[letter]].concat();
                all.push(longer);
            }
        }
        from = to;
    }
    all
}
