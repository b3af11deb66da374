//! Random files, counts, states, triples, visits, desks, walks, whole questions and damage.

pub mod alike;
pub mod bundle;
pub mod calls;
pub mod counts;
pub mod damage;
pub mod desks;
pub mod groups;
pub mod growth;
pub mod makers;
pub mod path;
pub mod plant;
pub mod question;
pub mod sources;
pub mod triples;
pub mod visits;
pub mod walks;
