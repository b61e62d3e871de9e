//! The occurrences of a model: which can begin, end and follow, and whether the model is ambiguous. All is read from the runs of
//! the marked expression.

use super::derivatives::Matcher;
use super::expression::Expression;

pub struct Occurrences {
    pub names: Vec<u16>,
    pub no_child: bool,
    pub first: u64,
    pub last: u64,
    pub follow: Vec<u64>,
    pub ambiguous: bool,
}

/// The occurrences of an expression of at most 64 names.
pub fn of(expression: &Expression) -> Occurrences {
    let names = expression.names();
    let mut marked = Matcher::new(&expression.marked());
    let mut found = Occurrences { no_child: marked.may_end(0), first: 0, last: 0, follow: vec![0; names.len()], ambiguous: false, names };
    // Each state that some run reaches is visited once, with the last occurrence of such a run; for one state and two
    // occurrences it is visited for each.
    let mut visits: Vec<(Option<u16>, usize)> = vec![(None, 0)];
    let mut at = 0;
    while at < visits.len() {
        let (occurrence, state) = visits[at];
        at += 1;
        let next = marked.letters(state);
        let set = next.iter().fold(0, |set, k| set | 1 << k);
        found.ambiguous |= two_of_one_name(&next, &found.names);
        match occurrence {
            None => found.first = set,
            Some(k) => {
                found.follow[usize::from(k)] |= set;
                if marked.may_end(state) {
                    found.last |= 1 << k;
                }
            }
        }
        for k in next {
            let reached = marked.step(state, k).expect("a letter that can come next");
            let visit = (Some(k), reached);
            if !visits.contains(&visit) {
                visits.push(visit);
            }
        }
    }
    found
}

fn two_of_one_name(occurrences: &[u16], names: &[u16]) -> bool {
    let name = |k: &u16| names[usize::from(*k)];
    occurrences.iter().enumerate().any(|(i, k)| occurrences[..i].iter().any(|j| name(j) == name(k)))
}
