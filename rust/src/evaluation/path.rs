//! Paths: label words, and the expression as a tree.

use super::groups::Groups;
use super::words::*;

/// At most eight operands wait at any word.
pub const MOST_WAITING: usize = 8;

/// `Outside` has all labels but those of the range.
#[derive(Clone, Copy, PartialEq, Eq, Debug)]
pub enum LabelWord {
    Range { low: u32, high: u32 },
    Group(u32),
    Outside { low: u32, high: u32 },
}

impl LabelWord {
    fn holds(&self, groups: &Groups, label: u32) -> bool {
        match *self {
            LabelWord::Range { low, high } => low <= label && label <= high,
            LabelWord::Group(group) => {
                let word = groups[group as usize];
                bits(word, 11, 0) <= label && label <= bits(word, 23, 12)
            }
            LabelWord::Outside { low, high } => label < low || high < label,
        }
    }
}

/// A label stands in the tree as its position: the i-th label word of the file, from 1.
#[derive(Clone, PartialEq, Eq, PartialOrd, Ord, Debug)]
pub enum Expression {
    Empty,
    Label(usize),
    Then(Box<Expression>, Box<Expression>),
    Or(Box<Expression>, Box<Expression>),
    Star(Box<Expression>),
}

impl Expression {
    /// The words behind the header of a path that is read as this: each operator right behind its operands, and for each position the word
    /// that `label` has for it.
    pub fn postfix(&self, label: &dyn Fn(usize) -> u32) -> Vec<u32> {
        let of = |inner: &Expression| inner.postfix(label);
        let operator = |sort: u32| vec![OPERATOR << 28 | sort];
        match self {
            Expression::Empty => operator(0),
            Expression::Label(position) => vec![label(*position)],
            Expression::Then(first, second) => [of(first), of(second), operator(1)].concat(),
            Expression::Or(first, second) => [of(first), of(second), operator(2)].concat(),
            Expression::Star(inner) => [of(inner), operator(3)].concat(),
        }
    }
}

#[derive(Clone, Debug)]
pub struct Path {
    labels: Vec<LabelWord>,
    groups: Groups,
    pub expression: Expression,
}

impl Path {
    pub fn n(&self) -> usize {
        self.labels.len()
    }

    /// The same label words and groups with another expression over them.
    pub fn with(&self, expression: &Expression) -> Path {
        Path { expression: expression.clone(), ..self.clone() }
    }

    /// Whether the label word of a position, 1 to n, holds a label.
    pub fn holds(&self, position: usize, label: u32) -> bool {
        self.labels[position - 1].holds(&self.groups, label)
    }
}

fn read_label(word: u32) -> Result<LabelWord, Refusal> {
    let (high, low) = (bits(word, 23, 12), bits(word, 11, 0));
    match bits(word, 27, 24) {
        0 if low > high => refuse(5, "low end above high"),
        0 => Ok(LabelWord::Range { low, high }),
        1 if bits(word, 23, 3) != 0 => refuse(5, "group zero bit"),
        1 => Ok(LabelWord::Group(bits(word, 2, 0))),
        2 if low > high => refuse(5, "outside: low end above high"),
        2 => Ok(LabelWord::Outside { low, high }),
        _ => refuse(5, "label sort"),
    }
}

fn operator(word: u32, waiting: &mut Vec<Expression>) -> Result<(), Refusal> {
    if bits(word, 27, 2) != 0 {
        return refuse(5, "operator zero bit");
    }
    let mut operand = || match waiting.pop() {
        Some(operand) => Ok(Box::new(operand)),
        None => refuse(9, "operand missing"),
    };
    let made = match bits(word, 1, 0) {
        0 => Expression::Empty,
        3 => Expression::Star(operand()?),
        sort => {
            let second = operand()?;
            let first = operand()?;
            match sort {
                1 => Expression::Then(first, second),
                _ => Expression::Or(first, second),
            }
        }
    };
    waiting.push(made);
    Ok(())
}

/// Whether a word may stand with so many operands waiting before it, and so many after it.
pub type MayStand = fn(usize, usize) -> bool;

/// A path whose group words are read by these groups.
pub fn read_path(bytes: &[u8], groups: &Groups) -> Result<Path, Refusal> {
    read_path_by(bytes, groups, |_, after| after <= MOST_WAITING)
}

/// A path by another rule of how many operands wait, for the mistakes.
pub fn read_path_by(bytes: &[u8], groups: &Groups, may_stand: MayStand) -> Result<Path, Refusal> {
    let (header, words) = single_file(bytes, PATH_LIMIT, PATH)?;
    let mut labels = vec![];
    let mut waiting = vec![];
    for word in words {
        let before = waiting.len();
        match kind(word) {
            LABEL => {
                labels.push(read_label(word)?);
                waiting.push(Expression::Label(labels.len()));
            }
            OPERATOR => operator(word, &mut waiting)?,
            _ => return refuse(5, "neither label nor operator"),
        }
        if !may_stand(before, waiting.len()) {
            return refuse(9, "9 waiting");
        }
    }
    if waiting.len() != 1 {
        return refuse(9, "not one left");
    }
    if labels.len() != header.n as usize {
        return refuse(9, "label words not n");
    }
    Ok(Path { labels, groups: *groups, expression: waiting.remove(0) })
}
