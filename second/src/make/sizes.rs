//! The smallest documents of a schema: how many tokens and how deep an element must be.

use crate::paper::expression::Expression;
use crate::paper::grammar::{Content, Grammar};

/// More than any document has.
pub const ENDLESS: usize = 1_000_000;

/// For each element, the fewest tokens and the least depth of a valid one; ENDLESS or more if there is none.
pub struct Sizes {
    pub tokens: Vec<usize>,
    pub depth: Vec<usize>,
}

pub fn of(grammar: &Grammar) -> Sizes {
    let count = grammar.elements.len();
    let mut sizes = Sizes { tokens: vec![ENDLESS; count], depth: vec![ENDLESS; count] };
    // Each round finds all elements that are one level deeper.
    loop {
        let mut better = false;
        for (e, element) in grammar.elements.iter().enumerate() {
            let head = 2 + 2 * element.attributes.iter().filter(|attribute| attribute.required).count();
            let (tokens, depth) = match &element.content {
                Content::Empty | Content::Text => (0, 0),
                Content::Model(model) => (sizes.tokens_of(&model.expression), sizes.depth_of(&model.expression)),
                Content::Run(_) => (ENDLESS, ENDLESS),
            };
            let (tokens, depth) = ((head + tokens).min(ENDLESS), (1 + depth).min(ENDLESS));
            better |= tokens < sizes.tokens[e] || depth < sizes.depth[e];
            sizes.tokens[e] = tokens.min(sizes.tokens[e]);
            sizes.depth[e] = depth.min(sizes.depth[e]);
        }
        if !better {
            return sizes;
        }
    }
}

impl Sizes {
    /// The fewest tokens of a match.
    pub fn tokens_of(&self, expression: &Expression) -> usize {
        least(expression, &self.tokens, |one, two| (one + two).min(ENDLESS))
    }

    /// The least depth of a match.
    pub fn depth_of(&self, expression: &Expression) -> usize {
        least(expression, &self.depth, usize::max)
    }
}

fn least(expression: &Expression, names: &[usize], both: fn(usize, usize) -> usize) -> usize {
    match expression {
        Expression::Sequence(one, two) => both(least(one, names, both), least(two, names, both)),
        Expression::Choice(one, two) => least(one, names, both).min(least(two, names, both)),
        Expression::Optional(_) | Expression::Star(_) => 0,
        Expression::Plus(one) => least(one, names, both),
        Expression::Name(name) => names[usize::from(*name)],
    }
}
