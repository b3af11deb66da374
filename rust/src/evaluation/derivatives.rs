//! Derivatives of an expression (Brzozowski): what is left of it behind a label, as the set of the expressions whose or it is (Antimirov), so
//! that few of them differ.

use super::path::{Expression, Path};
use std::cell::RefCell;
use std::collections::{BTreeSet, HashMap};

/// The words of any of these; none at all, if it is empty.
pub type Rest = BTreeSet<Expression>;

pub fn has_empty_word(expression: &Expression) -> bool {
    match expression {
        Expression::Empty | Expression::Star(_) => true,
        Expression::Label(_) => false,
        Expression::Then(first, second) => has_empty_word(first) && has_empty_word(second),
        Expression::Or(first, second) => has_empty_word(first) || has_empty_word(second),
    }
}

fn then(first: Expression, second: &Expression) -> Expression {
    match first {
        Expression::Empty => second.clone(),
        _ => Expression::Then(Box::new(first), Box::new(second.clone())),
    }
}

/// By a letter that the positions in `holds` match.
pub fn derivative(expression: &Expression, holds: &dyn Fn(usize) -> bool) -> Rest {
    let of = |inner: &Expression| derivative(inner, holds);
    let before = |first: &Expression, second: &Expression| -> Rest {
        of(first).into_iter().map(|left| then(left, second)).collect()
    };
    match expression {
        Expression::Empty => Rest::new(),
        Expression::Label(position) => holds(*position).then_some(Expression::Empty).into_iter().collect(),
        Expression::Or(first, second) => &of(first) | &of(second),
        Expression::Star(inner) => before(inner, expression),
        Expression::Then(first, second) if has_empty_word(first) => &before(first, second) | &of(second),
        Expression::Then(first, second) => before(first, second),
    }
}

/// What is left of a path behind labels. Each rest that came up has a number, and 0 is the whole path; what is left of it behind a label is
/// worked out once.
pub struct Rests<'a> {
    path: &'a Path,
    all: RefCell<Vec<Rest>>,
    known: RefCell<HashMap<(usize, u32), Option<usize>>>,
}

impl<'a> Rests<'a> {
    pub fn of(path: &'a Path) -> Rests<'a> {
        let whole = BTreeSet::from([path.expression.clone()]);
        Rests { path, all: RefCell::new(vec![whole]), known: RefCell::new(HashMap::new()) }
    }

    /// `None` if no word goes on so.
    pub fn after(&self, rest: usize, label: u32) -> Option<usize> {
        if let Some(known) = self.known.borrow().get(&(rest, label)) {
            return *known;
        }
        let holds = |position: usize| self.path.holds(position, label);
        let each = |expression: &Expression| derivative(expression, &holds);
        let left: Rest = self.all.borrow()[rest].iter().flat_map(each).collect();
        let number = (!left.is_empty()).then(|| self.number(left));
        self.known.borrow_mut().insert((rest, label), number);
        number
    }

    fn number(&self, rest: Rest) -> usize {
        let mut all = self.all.borrow_mut();
        let known = all.iter().position(|other| *other == rest);
        known.unwrap_or_else(|| {
            all.push(rest);
            all.len() - 1
        })
    }

    /// What is left behind these labels.
    pub fn behind(&self, labels: &[u32]) -> Option<usize> {
        labels.iter().try_fold(0, |rest, label| self.after(rest, *label))
    }

    /// Whether nothing more need be spelled.
    pub fn may_end(&self, rest: usize) -> bool {
        self.all.borrow()[rest].iter().any(has_empty_word)
    }
}
