//! Matching by derivatives. What may follow a run of letters is a set of expressions; each letter leads to the next set.
//! Equal expressions are kept once, and each step is worked out once.

use super::expression::Expression;
use std::collections::HashMap;
use std::rc::Rc;

/// A kept expression; `Nothing` matches the empty run only.
#[derive(Clone, Copy, Debug, PartialEq, Eq, Hash)]
enum Node {
    Nothing,
    Letter(u16),
    Sequence(usize, usize),
    Choice(usize, usize),
    Optional(usize),
    Star(usize),
}

const NOTHING: usize = 0;

/// A letter that can come first, and an expression of what can come after it.
type Step = (u16, usize);

#[derive(Debug, Default)]
struct Store {
    nodes: Vec<Node>,
    may_be_empty: Vec<bool>,
    steps: Vec<Option<Rc<Vec<Step>>>>,
    known: HashMap<Node, usize>,
}

impl Store {
    fn keep(&mut self, node: Node) -> usize {
        if let Some(id) = self.known.get(&node) {
            return *id;
        }
        let may_be_empty = match node {
            Node::Letter(_) => false,
            Node::Sequence(one, two) => self.may_be_empty[one] && self.may_be_empty[two],
            Node::Choice(one, two) => self.may_be_empty[one] || self.may_be_empty[two],
            Node::Nothing | Node::Optional(_) | Node::Star(_) => true,
        };
        self.nodes.push(node);
        self.may_be_empty.push(may_be_empty);
        self.steps.push(None);
        self.known.insert(node, self.nodes.len() - 1);
        self.nodes.len() - 1
    }

    /// Sequences lean to the right, so that equal ones are one node.
    fn sequence(&mut self, one: usize, two: usize) -> usize {
        match (self.nodes[one], two) {
            (Node::Nothing, _) => two,
            (_, NOTHING) => one,
            (Node::Sequence(head, tail), _) => {
                let tail = self.sequence(tail, two);
                self.keep(Node::Sequence(head, tail))
            }
            _ => self.keep(Node::Sequence(one, two)),
        }
    }

    fn star(&mut self, one: usize) -> usize {
        match self.nodes[one] {
            Node::Star(_) => one,
            Node::Optional(inner) => self.star(inner),
            _ => self.keep(Node::Star(one)),
        }
    }

    fn optional(&mut self, one: usize) -> usize {
        if self.may_be_empty[one] {
            return one;
        }
        self.keep(Node::Optional(one))
    }

    fn of(&mut self, expression: &Expression) -> usize {
        match expression {
            Expression::Name(name) => self.keep(Node::Letter(*name)),
            Expression::Sequence(one, two) => {
                let (one, two) = (self.of(one), self.of(two));
                self.sequence(one, two)
            }
            Expression::Choice(one, two) => {
                let (one, two) = (self.of(one), self.of(two));
                self.keep(Node::Choice(one, two))
            }
            Expression::Optional(one) => {
                let one = self.of(one);
                self.optional(one)
            }
            Expression::Star(one) => {
                let one = self.of(one);
                self.star(one)
            }
            Expression::Plus(one) => {
                let one = self.of(one);
                let more = self.star(one);
                match one == more {
                    true => one,
                    false => self.sequence(one, more),
                }
            }
        }
    }

    fn steps(&mut self, id: usize) -> Rc<Vec<Step>> {
        if let Some(steps) = &self.steps[id] {
            return Rc::clone(steps);
        }
        let mut steps = Vec::new();
        match self.nodes[id] {
            Node::Nothing => {}
            Node::Letter(letter) => steps.push((letter, NOTHING)),
            Node::Sequence(one, two) => {
                self.steps_then(one, two, &mut steps);
                if self.may_be_empty[one] {
                    steps.extend(self.steps(two).iter());
                }
            }
            Node::Choice(one, two) => {
                steps.extend(self.steps(one).iter());
                steps.extend(self.steps(two).iter());
            }
            Node::Optional(one) => steps.extend(self.steps(one).iter()),
            Node::Star(one) => self.steps_then(one, id, &mut steps),
        }
        steps.sort_unstable();
        steps.dedup();
        let steps = Rc::new(steps);
        self.steps[id] = Some(Rc::clone(&steps));
        steps
    }

    fn steps_then(&mut self, one: usize, then: usize, steps: &mut Vec<Step>) {
        for (letter, rest) in self.steps(one).iter() {
            let rest = self.sequence(*rest, then);
            steps.push((*letter, rest));
        }
    }
}

/// What may follow some run of letters: a set of expressions, one of which must match the rest.
#[derive(Debug)]
struct State {
    set: Vec<usize>,
    may_end: bool,
    next: HashMap<u16, Option<usize>>,
}

/// The states of one expression, made as they are met. State 0 is the begin.
#[derive(Debug)]
pub struct Matcher {
    store: Store,
    states: Vec<State>,
    known: HashMap<Vec<usize>, usize>,
}

impl Matcher {
    pub fn new(expression: &Expression) -> Matcher {
        let mut store = Store::default();
        store.keep(Node::Nothing);
        let whole = store.of(expression);
        let mut matcher = Matcher { store, states: Vec::new(), known: HashMap::new() };
        matcher.state(vec![whole]);
        matcher
    }

    fn state(&mut self, set: Vec<usize>) -> usize {
        if let Some(state) = self.known.get(&set) {
            return *state;
        }
        let may_end = set.iter().any(|id| self.store.may_be_empty[*id]);
        self.known.insert(set.clone(), self.states.len());
        self.states.push(State { set, may_end, next: HashMap::new() });
        self.states.len() - 1
    }

    fn steps(&mut self, state: usize) -> Vec<Step> {
        let store = &mut self.store;
        self.states[state].set.iter().flat_map(|id| store.steps(*id).to_vec()).collect()
    }

    /// The letters that can come next. Every expression matches something, so each is on the way to a full match.
    pub fn letters(&mut self, state: usize) -> Vec<u16> {
        let mut letters: Vec<u16> = self.steps(state).iter().map(|step| step.0).collect();
        letters.sort_unstable();
        letters.dedup();
        letters
    }

    /// The state after one more letter, if any match goes on with it.
    pub fn step(&mut self, state: usize, letter: u16) -> Option<usize> {
        if let Some(next) = self.states[state].next.get(&letter) {
            return *next;
        }
        let mut set: Vec<usize> = self.steps(state).iter().filter(|step| step.0 == letter).map(|step| step.1).collect();
        set.sort_unstable();
        set.dedup();
        let next = match set.is_empty() {
            true => None,
            false => Some(self.state(set)),
        };
        self.states[state].next.insert(letter, next);
        next
    }

    pub fn may_end(&self, state: usize) -> bool {
        self.states[state].may_end
    }

    /// Whether the expression describes this run of letters.
    pub fn matches(&mut self, letters: &[u16]) -> bool {
        let mut state = 0;
        for letter in letters {
            match self.step(state, *letter) {
                Some(next) => state = next,
                None => return false,
            }
        }
        self.may_end(state)
    }
}
