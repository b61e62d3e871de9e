//! Random documents that a grammar describes, wherever it describes one.

use super::keys;
use super::sizes::{self, Sizes};
use crate::paper::expression::Expression;
use crate::paper::grammar::{Content, Grammar, Kind};
use crate::paper::table::{bits, Run};
use crate::paper::tree::{Attribute, Element, Item};
use crate::paper::{DEEPEST, MOST_TOKENS};
use crate::random::Random;

/// How large documents are to be.
#[derive(Clone, Copy, Debug, PartialEq)]
pub enum Scale {
    Tiny,
    Middle,
    Large,
    /// 8,192 tokens or nearly so.
    Full,
}

impl Scale {
    pub fn draw(random: &mut Random) -> Scale {
        match random.below(1_000) {
            0..=99 => Scale::Full,
            100..=249 => Scale::Large,
            250..=599 => Scale::Middle,
            _ => Scale::Tiny,
        }
    }

    fn tokens(self, random: &mut Random) -> usize {
        match self {
            Scale::Tiny => random.within(2, 50),
            Scale::Middle => random.within(2, 400),
            Scale::Large => random.within(400, 3_000),
            Scale::Full => MOST_TOKENS - random.below(2) * random.below(9),
        }
    }
}

/// A grammar and the smallest sizes of its elements.
pub struct Ground<'a> {
    pub grammar: &'a Grammar,
    pub sizes: &'a Sizes,
}

/// A document grown from the root.
pub fn document(random: &mut Random, ground: &Ground, scale: Scale) -> Element {
    let size = scale.tokens(random);
    let mut root = grown(random, ground, ground.grammar.root as u16, size, 1);
    keys::settle(random, &mut root, ground.grammar, &[]);
    if scale == Scale::Full || random.chance(3) {
        keys::stretch(&mut root, ground.grammar, size);
    }
    root
}

/// An element of up to about this many tokens, at this depth, its values not yet given.
pub fn grown(random: &mut Random, ground: &Ground, name: u16, size: usize, depth: usize) -> Element {
    let least = ground.sizes.tokens.get(usize::from(name)).map_or(2, |least| *least);
    let eager = *random.pick(&[20, 50, 80, 97, 100]);
    let mut growth = Growth { ground, budget: size.saturating_sub(least), eager, made: 0, patience: 20_000 };
    growth.element(random, name, depth)
}

struct Growth<'a> {
    ground: &'a Ground<'a>,
    /// The tokens that may be added to the least; what is necessary is paid beforehand.
    budget: usize,
    /// How many of a hundred optional parts are taken.
    eager: usize,
    made: usize,
    /// How many more optional parts are thought about: nested stars have no end of them.
    patience: usize,
}

impl Growth<'_> {
    fn pay(&mut self, tokens: usize) -> bool {
        let enough = tokens <= self.budget;
        if enough {
            self.budget -= tokens;
        }
        enough
    }

    fn element(&mut self, random: &mut Random, name: u16, depth: usize) -> Element {
        let mut element = Element::new(name);
        self.made += 2;
        // What has no end is cut off.
        let declaration = match self.ground.grammar.declaration(name) {
            Some(declaration) if depth <= DEEPEST + 1 && self.made <= MOST_TOKENS + 64 => declaration,
            _ => return element,
        };
        for known in &declaration.attributes {
            if known.required || (random.chance(40) && self.pay(2)) {
                let mut values = vec![0];
                while known.kind == Kind::Idrefs && random.chance(40) && self.pay(1) {
                    values.push(0);
                }
                self.made += 1 + values.len();
                element.attributes.push(Attribute { number: known.number, values });
            }
        }
        let below = DEEPEST.saturating_sub(depth);
        let mut children = Vec::new();
        match &declaration.content {
            Content::Empty => {}
            // No text or one.
            Content::Text => {
                if random.chance(80) && self.pay(1) {
                    self.made += 1;
                    element.content.push(Item::Text(random.short()));
                }
            }
            Content::Model(model) => self.word(random, &model.expression, below, &mut children),
            Content::Run(run) => self.run(random, run, &mut children),
        }
        for child in children {
            element.content.push(Item::Element(self.element(random, child, depth + 1)));
        }
        element
    }

    /// A run of names that the expression describes; `below` levels are left for them.
    fn word(&mut self, random: &mut Random, expression: &Expression, below: usize, names: &mut Vec<u16>) {
        match expression {
            Expression::Name(name) => names.push(*name),
            Expression::Sequence(one, two) => {
                self.word(random, one, below, names);
                self.word(random, two, below, names);
            }
            Expression::Choice(one, two) => {
                let taken = self.choose(random, one, two, below);
                self.word(random, taken, below, names);
            }
            Expression::Optional(one) => {
                if self.takes(random, one, below) {
                    self.word(random, one, below, names);
                }
            }
            Expression::Star(one) => self.repeat(random, one, below, names),
            Expression::Plus(one) => {
                self.word(random, one, below, names);
                self.repeat(random, one, below, names);
            }
        }
    }

    /// One of the two, where the smaller is paid for.
    fn choose<'e>(&mut self, random: &mut Random, one: &'e Expression, two: &'e Expression, below: usize) -> &'e Expression {
        let sizes = self.ground.sizes;
        let (small, large) = match sizes.tokens_of(one) <= sizes.tokens_of(two) {
            true => (one, two),
            false => (two, one),
        };
        let more = sizes.tokens_of(large) - sizes.tokens_of(small);
        let large_fits = sizes.depth_of(large) <= below;
        let small_fits = sizes.depth_of(small) <= below;
        match large_fits && (!small_fits || random.chance(50)) && self.pay(more) {
            true => large,
            false => small,
        }
    }

    /// Whether an optional part is taken, and paid for.
    fn takes(&mut self, random: &mut Random, part: &Expression, below: usize) -> bool {
        if self.patience == 0 {
            return false;
        }
        self.patience -= 1;
        let sizes = self.ground.sizes;
        random.chance(self.eager) && sizes.depth_of(part) <= below && self.pay(sizes.tokens_of(part))
    }

    fn repeat(&mut self, random: &mut Random, part: &Expression, below: usize, names: &mut Vec<u16>) {
        let share = self.budget * random.pick(&[5, 40, 80, 100]) / 100;
        let rest = self.budget - share;
        while self.budget > rest && self.takes(random, part, below) {
            let before = names.len();
            self.word(random, part, below, names);
            if names.len() == before && random.chance(50) {
                return;
            }
        }
    }

    /// A run of a table: from first by follow, to an end if one is met in time.
    fn run(&mut self, random: &mut Random, run: &Run, names: &mut Vec<u16>) {
        let mut may_come = run.first;
        let mut may_end = run.no_child;
        for _ in 0..random.within(1, 12) {
            if may_come == 0 || (may_end && (!random.chance(self.eager) || !self.pay(2))) {
                return;
            }
            let k = *random.pick(&bits(may_come));
            names.push(run.names[k]);
            may_come = run.follow[k];
            may_end = run.last >> k & 1 == 1;
        }
    }
}

/// Elements nested to this depth, each named by the model of the one above where it has one.
pub fn chain(random: &mut Random, grammar: &Grammar, name: u16, depth: usize) -> Element {
    let mut names = vec![name];
    while names.len() < depth {
        let above = names[names.len() - 1];
        names.push(match grammar.declaration(above).map(|declaration| &declaration.content) {
            Some(Content::Model(model)) => *random.pick(&model.expression.names()),
            _ => name,
        });
    }
    let mut inner: Option<Element> = None;
    for name in names.into_iter().rev() {
        let mut element = Element::new(name);
        element.content.extend(inner.map(Item::Element));
        inner = Some(element);
    }
    inner.expect("at least one element")
}

/// The sizes of a grammar for growing. Those of a table's runs are taken as the head alone.
pub fn sizes_of(grammar: &Grammar) -> Sizes {
    let mut sizes = sizes::of(grammar);
    for (e, element) in grammar.elements.iter().enumerate() {
        if let Content::Run(_) = element.content {
            sizes.tokens[e] = 2 + 2 * element.attributes.iter().filter(|attribute| attribute.required).count();
            sizes.depth[e] = 1;
        }
    }
    sizes
}
