//! The states of a path. Positions themselves are read as letters here, and "may begin", "may follow" and "may end" ask whether some word of
//! the expression over these letters begins, goes on or ends so. A graph for each state lets just such words through.

use super::meaning::relation;
use super::path::Path;
use super::relation::Relation;

pub struct States {
    n: usize,
    /// By q × (n + 1) + p.
    steps: Vec<bool>,
    pub accepts: Vec<bool>,
}

/// What words lead from node to node in the graph of state q. At node 0 anything has been read; at node 1 q was read last (nothing yet, if q
/// is the start); at node 1 + p, position p was read right behind, and then anything.
fn words_around(path: &Path, q: usize) -> Relation {
    let n = path.n();
    let letter = |position: usize| {
        let mut links = Relation::none(n + 2);
        links.add(0, 0);
        if position == q {
            links.add(0, 1);
        }
        links.add(1, 1 + position);
        (2..n + 2).for_each(|node| links.add(node, node));
        links
    };
    let letters: Vec<Relation> = (1..=n).map(letter).collect();
    relation(&path.expression, n + 2, &letters)
}

impl States {
    pub fn of(path: &Path) -> States {
        let n = path.n();
        let (mut steps, mut accepts) = (vec![], vec![]);
        for q in 0..=n {
            let words = words_around(path, q);
            let start = usize::from(q == 0);
            accepts.push(words.has(start, 1));
            steps.push(false);
            steps.extend((1..=n).map(|p| words.has(start, 1 + p)));
        }
        States { n, steps, accepts }
    }

    /// The states to which `q` steps on a label.
    pub fn after<'a>(&'a self, path: &'a Path, q: usize, label: u32) -> impl Iterator<Item = usize> + 'a {
        let may = move |p: &usize| self.steps[q * (self.n + 1) + p];
        (1..=self.n).filter(may).filter(move |p| path.holds(*p, label))
    }
}
