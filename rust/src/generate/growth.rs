//! Random pairs of questions about one plant. The second may have a link more and nodes started, or "that path or another"; or, to see what
//! is needed, a node newly stopped, a link moved, or other operators. Each of the two may have a cut and links that end nowhere of its own.

use super::groups::naming;
use super::path::{joined, path};
use super::plant::{labels_of, some_label};
use super::question::{cut_anew, cut_as_it_was, dear, question, Question};
use crate::evaluation::plant::{Link, Plant};
use crate::random::Random;
use crate::walking::walks;

/// A question, and what it has become.
pub type Two = [Question; 2];

/// Any question, and more often than there one with long replies.
fn some_question(random: &mut Random) -> Question {
    match random.chance(6) {
        true => dear(random),
        false => question(random),
    }
}

/// The question, as it is or cut anew, and the one about this plant and path, cut as it was or anew.
fn two(random: &mut Random, question: &Question, plant: &Plant, path: Vec<u32>) -> Two {
    let before = match random.chance(50) {
        true => question.clone(),
        false => cut_anew(random, question, &question.plant, question.path.clone()),
    };
    let after = cut_as_it_was(question, plant, path.clone());
    match random.chance(40) && after.within_limits() {
        true => [before, after],
        false => [before, cut_anew(random, question, plant, path)],
    }
}

/// The plant with a link more, if it has not got it: mostly of a node that walks come to, and with a label that it has already.
pub fn linked(random: &mut Random, question: &Question) -> Plant {
    let mut plant = question.plant.clone();
    let numbers: Vec<u32> = plant.nodes.keys().copied().collect();
    let mut come_to = walks(question, &question.read_path()).nodes();
    come_to.retain(|node| plant.nodes.contains_key(node));
    let source = if random.chance(70) { random.pick(&come_to) } else { random.pick(&numbers) };
    let (mut links, own) = (plant.links(), random.chance(60));
    links.retain(|link| link.0 == source || !own);
    let label = some_label(random, &labels_of(&links));
    plant.nodes.entry(source).or_default().insert((label, random.pick(&numbers)));
    plant
}

/// The plant with none, some or all of its stopped nodes started.
pub fn started(random: &mut Random, mut plant: Plant) -> Plant {
    let percent = random.pick(&[0, 0, 50, 100]);
    plant.stopped.retain(|_| !random.chance(percent));
    plant
}

/// The plant with one node more that is stopped, if all were not.
pub fn newly_stopped(random: &mut Random, mut plant: Plant) -> Plant {
    let running: Vec<u32> =
        plant.nodes.keys().copied().filter(|node| !plant.stopped.contains(node)).collect();
    plant.stopped.extend((!running.is_empty()).then(|| random.pick(&running)));
    plant
}

/// The plant with one link less between its nodes, if there was any.
pub fn unlinked(random: &mut Random, mut plant: Plant) -> Plant {
    let links: Vec<Link> = plant.left_out().links().into_iter().collect();
    if !links.is_empty() {
        let (source, label, target) = random.pick(&links);
        plant.nodes.entry(source).or_default().remove(&(label, target));
    }
    plant
}

/// What becomes of a question's plant.
pub type Change = fn(&mut Random, &Question) -> Plant;

/// A question, and the one about its plant as it is changed.
pub fn with_another_plant(random: &mut Random, change: Change) -> Two {
    let question = some_question(random);
    let plant = change(random, &question);
    two(random, &question, &plant, question.path.clone())
}

/// Another path over the plant's labels and with the question's groups, of at most so many operands.
fn another_path(random: &mut Random, question: &Question, most: usize) -> Vec<u32> {
    let labels = labels_of(&question.plant.links());
    let operands = random.between(1, most);
    let other = path(random, &labels, operands);
    match question.groups {
        Some(_) => naming(random, other),
        None => other,
    }
}

/// A question, and the one with its path, another and these operators; `None` where no other path was found with which these make one.
pub fn with_another_path(random: &mut Random, operators: &[u32]) -> Option<Two> {
    let question = some_question(random);
    let mut paths = [16, 8, 4, 2, 1].into_iter().filter_map(|most| {
        let other = another_path(random, &question, most);
        joined(&question.path, &other, operators)
    });
    let path = paths.next()?;
    Some(two(random, &question, &question.plant, path))
}
