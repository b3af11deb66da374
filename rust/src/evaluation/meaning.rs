//! The textbook meaning of an expression, the nodes that walks spelling its words lead to, and the links that walks can step on.

use super::path::{Expression, Path};
use super::relation::Relation;
use std::collections::{BTreeSet, HashSet};

/// The pairs (s, t) such that a walk from s to t spells a word of the expression, over a graph in which the pairs of a position are the
/// links that it holds.
pub fn relation(expression: &Expression, size: usize, links: &[Relation]) -> Relation {
    let of = |inner: &Expression| relation(inner, size, links);
    match expression {
        Expression::Empty => Relation::identity(size),
        Expression::Label(position) => links[position - 1].clone(),
        Expression::Then(first, second) => of(first).then(&of(second)),
        Expression::Or(first, second) => of(first).union(&of(second)),
        Expression::Star(inner) => of(inner).star(),
    }
}

/// Links as label and target, by source.
pub type Links = [Vec<(u32, usize)>];

fn links_of(path: &Path, links: &Links) -> Vec<Relation> {
    let held = |position: usize| {
        let mut relation = Relation::none(links.len());
        for (source, out) in links.iter().enumerate() {
            for (label, target) in out {
                if path.holds(position, *label) {
                    relation.add(source, *target);
                }
            }
        }
        relation
    };
    (1..=path.n()).map(held).collect()
}

/// A link's label and its source's place.
pub type Further = (u32, usize);

/// Which of some further links a walk from the root can step on. Each leads to a node of its own, where every position reads on, whatever
/// labels it holds: so a walk that has stepped on the link ends there just if its positions begin a word of the expression.
pub fn stepped_on_by_relation(path: &Path, links: &Links, root: usize, further: &[Further]) -> Vec<bool> {
    let mut links = links.to_vec();
    let own = links.len()..links.len() + further.len();
    own.clone().zip(further).for_each(|(own, (label, source))| links[*source].push((*label, own)));
    links.extend(further.iter().map(|_| vec![]));
    let mut held = links_of(path, &links);
    held.iter_mut().for_each(|held| own.clone().for_each(|own| held.add(own, own)));
    let meaning = relation(&path.expression, links.len(), &held);
    own.map(|own| meaning.has(root, own)).collect()
}

pub fn listed_by_relation(path: &Path, links: &Links, root: usize) -> BTreeSet<usize> {
    let meaning = relation(&path.expression, links.len(), &links_of(path, links));
    (0..links.len()).filter(|node| meaning.has(root, *node)).collect()
}

/// A search over subexpression, rest and node. A rest is what must be spelled behind the subexpression: an expression and a further rest, or
/// nothing. Each subexpression stands in one place, so it has one rest.
struct Flow<'a> {
    path: &'a Path,
    links: &'a Links,
    seen: HashSet<(*const Expression, usize, usize)>,
    rests: Vec<(Option<&'a Expression>, usize)>,
    stack: Vec<(&'a Expression, usize, usize)>,
    /// Positions that may be read next, by node.
    next: BTreeSet<(usize, usize)>,
    done: BTreeSet<usize>,
}

/// The same list for graphs too large for a relation: every node at which each subexpression may begin, followed until nothing is new.
pub fn listed_by_flow(path: &Path, links: &Links, root: usize) -> BTreeSet<usize> {
    Flow::over(path, links, root).done
}

/// The same links: a position that holds the label may be read next at the source.
pub fn stepped_on_by_flow(path: &Path, links: &Links, root: usize, further: &[Further]) -> Vec<bool> {
    let next = Flow::over(path, links, root).next;
    let steps = |(label, source): &Further| {
        let mut positions = next.range((*source, 0)..(source + 1, 0)).map(|(_, position)| *position);
        positions.any(|position| path.holds(position, *label))
    };
    further.iter().map(steps).collect()
}

impl<'a> Flow<'a> {
    fn over(path: &'a Path, links: &'a Links, root: usize) -> Flow<'a> {
        let mut flow = Flow {
            path,
            links,
            seen: HashSet::new(),
            rests: vec![(None, 0)],
            stack: vec![],
            next: BTreeSet::new(),
            done: BTreeSet::new(),
        };
        flow.begin(&path.expression, 0, root);
        while let Some((expression, rest, node)) = flow.stack.pop() {
            flow.enter(expression, rest, node);
        }
        flow
    }

    fn begin(&mut self, expression: &'a Expression, rest: usize, node: usize) {
        if self.seen.insert((expression as *const Expression, rest, node)) {
            self.stack.push((expression, rest, node));
        }
    }

    /// The rest that is `next` and then `rest`; the same two give the same number.
    fn rest(&mut self, next: &'a Expression, rest: usize) -> usize {
        let same = |r: &(Option<&Expression>, usize)| {
            r.1 == rest && r.0.map_or(false, |expression| std::ptr::eq(expression, next))
        };
        self.rests.iter().position(same).unwrap_or_else(|| {
            self.rests.push((Some(next), rest));
            self.rests.len() - 1
        })
    }

    fn end(&mut self, rest: usize, node: usize) {
        match self.rests[rest] {
            (None, _) => {
                self.done.insert(node);
            }
            (Some(next), after) => self.begin(next, after, node),
        }
    }

    fn enter(&mut self, expression: &'a Expression, rest: usize, node: usize) {
        match expression {
            Expression::Empty => self.end(rest, node),
            Expression::Label(position) => {
                self.next.insert((node, *position));
                let (path, links) = (self.path, self.links);
                for (_, target) in links[node].iter().filter(|link| path.holds(*position, link.0)) {
                    self.end(rest, *target);
                }
            }
            Expression::Then(first, second) => {
                let behind = self.rest(second, rest);
                self.begin(first, behind, node);
            }
            Expression::Or(first, second) => {
                self.begin(first, rest, node);
                self.begin(second, rest, node);
            }
            Expression::Star(inner) => {
                self.end(rest, node);
                let again = self.rest(expression, rest);
                self.begin(inner, again, node);
            }
        }
    }
}

/// So many nodes are few enough for a relation.
const FEW: usize = 200;

/// Which of some further links a walk from the root can step on.
pub fn stepped_on(path: &Path, links: &Links, root: usize, further: &[Further]) -> Vec<bool> {
    if links.len() + further.len() <= FEW {
        stepped_on_by_relation(path, links, root, further)
    } else {
        stepped_on_by_flow(path, links, root, further)
    }
}

/// Demand 2's list, as places in `links`.
pub fn listed(path: &Path, links: &Links, root: usize) -> BTreeSet<usize> {
    if links.len() <= FEW {
        listed_by_relation(path, links, root)
    } else {
        listed_by_flow(path, links, root)
    }
}
