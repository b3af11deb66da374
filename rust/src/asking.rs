//! Whole questions run by the library, each call of them held to the evaluation, and the old search of their plants.

use crate::beside::Call;
use crate::evaluation::part::Part;
use crate::evaluation::plant::Plant;
use crate::evaluation::words::*;
use crate::evaluation::Outcome;
use crate::generate::plant::node;
use crate::generate::question::Question;
use crate::random::Random;

/// The files of a run, as far as it came.
#[derive(Default)]
pub struct Run {
    /// In the order of the parts.
    pub firsts: Vec<Vec<u32>>,
    pub first_bundle: Vec<u8>,
    /// `None` if the hub was not asked, or refused.
    pub calls: Option<Vec<u32>>,
    /// In the order of the parts.
    pub seconds: Vec<Vec<u32>>,
    pub second_bundle: Vec<u8>,
}

/// The groups and the path that the question's calls are handed.
fn handed(question: &Question) -> (Option<Vec<u8>>, Vec<u8>) {
    (question.groups.map(|groups| bytes_of(&groups)), bytes_of(&question.path))
}

/// The library's outcome in the least buffers, held to the evaluation's.
pub fn made(random: &mut Random, call: Call) -> Outcome {
    let room = call.least_room();
    call.check(random, room)
}

/// The files, each once, in any order.
fn bundle(random: &mut Random, files: &[Vec<u32>]) -> Vec<u8> {
    let mut order: Vec<&Vec<u32>> = files.iter().collect();
    random.shuffle(&mut order);
    order.into_iter().flat_map(|file| bytes_of(file)).collect()
}

impl Run {
    /// The joined list, or the refusal that ended the run.
    fn ask(&mut self, random: &mut Random, question: &Question) -> Outcome {
        let (groups, path) = handed(question);
        let parts: Vec<Vec<u8>> = question.parts.iter().map(|part| bytes_of(&part.words())).collect();
        for part in &parts {
            let (part, groups, path) = (part.clone(), groups.clone(), path.clone());
            self.firsts.push(made(random, Call::FirstReply { part, groups, path })?);
        }
        self.first_bundle = bundle(random, &self.firsts);
        let list = made(random, Call::CallList { bundle: self.first_bundle.clone() })?;
        let calls = bytes_of(&list);
        self.calls = Some(list);
        for part in parts {
            let (groups, path, calls) = (groups.clone(), path.clone(), calls.clone());
            self.seconds.push(made(random, Call::SecondReply { part, groups, path, calls })?);
        }
        self.second_bundle = bundle(random, &self.seconds);
        made(random, Call::Join { bundle: self.second_bundle.clone() })
    }
}

/// A run of the question: its files, and the joined list or the refusal that ended it.
pub fn run(random: &mut Random, question: &Question) -> (Run, Outcome) {
    let mut run = Run::default();
    let outcome = run.ask(random, question);
    (run, outcome)
}

/// The plant as one file, if it fits.
pub fn one_file(plant: &Plant) -> Option<Vec<u32>> {
    let nodes = plant.nodes.keys().map(|number| node(plant, *number, false));
    let whole = Part { site: 0, nodes: nodes.collect() };
    Some(whole.words()).filter(|words| words.len() <= FILE_LIMIT)
}

/// The old search of a whole, with the question's groups and path.
pub fn old_search(random: &mut Random, question: &Question, whole: &[u32]) -> Outcome {
    let (groups, path) = handed(question);
    made(random, Call::OldSearch { whole: bytes_of(whole), groups, path })
}
