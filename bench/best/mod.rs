//! Better algorithms where one is known: what there is to be gained. Checks, automaton and buffers are those of the plain versions.
mod call_list;
mod check_walk;
mod first_reply;
mod from_triples;
mod graph;
mod walk;

pub use call_list::call_list;
pub use check_walk::check_walk;
pub use first_reply::first_reply;
pub use from_triples::from_triples;
pub use graph::{old_search, second_reply};
pub use walk::walk;
