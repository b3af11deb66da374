//! A plant, file or no file, demand 2's list for it, and the givens of demand 3: a true cut, and links that end nowhere and are not walked;
//! and a plant with a link more (request 12).

use super::hub::final_list;
use super::meaning::{listed, stepped_on};
use super::part::Part;
use super::path::Path;
use std::collections::{BTreeMap, BTreeSet};

/// A node, a label, and a target, which may be no node of the plant: then the link ends nowhere.
pub type Link = (u32, u32, u32);

#[derive(Clone, Debug)]
pub struct Plant {
    pub root: u32,
    /// Label and target, by node.
    pub nodes: BTreeMap<u32, BTreeSet<(u32, u32)>>,
    /// Some of the nodes.
    pub stopped: BTreeSet<u32>,
}

/// The running nodes, and by their places the links between them.
struct Running {
    numbers: Vec<u32>,
    links: Vec<Vec<(u32, usize)>>,
}

impl Running {
    fn place(&self, node: u32) -> Option<usize> {
        self.numbers.binary_search(&node).ok()
    }
}

/// The links of the parts as they stand.
pub fn links_of(parts: &[Part]) -> BTreeSet<Link> {
    let nodes = parts.iter().flat_map(|part| &part.nodes);
    nodes.flat_map(|node| node.edges.iter().map(|edge| (node.number, edge.0, edge.1))).collect()
}

impl Plant {
    pub fn of(whole: &Part) -> Plant {
        let root = whole.root().expect("a whole has a root").number;
        let nodes = whole.nodes.iter().map(|node| (node.number, node.edges.iter().copied().collect()));
        let stopped = whole.nodes.iter().filter(|node| node.stopped).map(|node| node.number);
        Plant { root, nodes: nodes.collect(), stopped: stopped.collect() }
    }

    pub fn links(&self) -> BTreeSet<Link> {
        let nodes = self.nodes.iter();
        nodes.flat_map(|(node, out)| out.iter().map(move |link| (*node, link.0, link.1))).collect()
    }

    pub fn ends_nowhere(&self, link: &Link) -> bool {
        !self.nodes.contains_key(&link.2)
    }

    /// The plant without the links that end nowhere.
    pub fn left_out(&self) -> Plant {
        let mut plant = self.clone();
        plant.nodes.values_mut().for_each(|out| out.retain(|link| self.nodes.contains_key(&link.1)));
        plant
    }

    /// Every node of a walk is a running one, so its links are those between running nodes.
    fn running(&self) -> Running {
        let numbers = self.nodes.keys().copied().filter(|node| !self.stopped.contains(node)).collect();
        let mut running = Running { numbers, links: vec![] };
        let place = |link: &(u32, u32)| running.place(link.1).map(|place| (link.0, place));
        let links = running.numbers.iter().map(|node| self.nodes[node].iter().filter_map(place).collect());
        running.links = links.collect();
        running
    }

    /// Demand 2's list.
    pub fn search(&self, path: &Path) -> Vec<u32> {
        let running = self.running();
        let listed = running.place(self.root).map(|root| listed(path, &running.links, root));
        final_list(&listed.into_iter().flatten().map(|at| running.numbers[at]).collect())
    }

    /// Those of some links that are walked: some walk from the root comes to their node in a state that steps on their label, whether or not
    /// anything can be accepted from there.
    pub fn walked(&self, path: &Path, links: &BTreeSet<Link>) -> BTreeSet<Link> {
        let running = self.running();
        let root = match running.place(self.root) {
            Some(root) => root,
            None => return BTreeSet::new(),
        };
        let placed = links.iter().filter_map(|link| running.place(link.0).map(|place| (link, place)));
        let (links, further): (Vec<&Link>, Vec<_>) =
            placed.map(|(link, place)| (link, (link.1, place))).unzip();
        let stepped = stepped_on(path, &running.links, root, &further);
        links.into_iter().zip(stepped).filter(|(_, stepped)| *stepped).map(|(link, _)| *link).collect()
    }

    /// Whether the other plant is this one with a link more between two of its nodes, or none: none is missing there, no node is newly
    /// stopped, and some may have been started. Links that end nowhere are left out, as no walk has one in it.
    pub fn grows_into(&self, other: &Plant) -> bool {
        let [links, others] = [self, other].map(|plant| plant.left_out().links());
        self.root == other.root
            && self.nodes.keys().eq(other.nodes.keys())
            && links.is_subset(&others)
            && others.len() <= links.len() + 1
            && other.stopped.is_subset(&self.stopped)
    }

    /// A true cut: links that end nowhere are left out, in the plant and in the parts.
    pub fn is_cut_into(&self, parts: &[Part]) -> bool {
        let sites: BTreeSet<u32> = parts.iter().map(|part| part.site).collect();
        let all = || parts.iter().flat_map(|part| &part.nodes);
        let numbers: BTreeSet<u32> = all().map(|node| node.number).collect();
        let mut links = links_of(parts);
        links.retain(|link| !self.ends_nowhere(link));
        let crossed: BTreeSet<u32> = parts.iter().flat_map(Part::outside_targets).collect();
        sites.len() == parts.len()
            && all().count() == numbers.len()
            && numbers.iter().eq(self.nodes.keys())
            && links == self.left_out().links()
            && all().all(|node| node.root == (node.number == self.root))
            && all().all(|node| node.stopped == self.stopped.contains(&node.number))
            && all().all(|node| node.door || !crossed.contains(&node.number))
    }
}
