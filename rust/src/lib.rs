//! The proved library beside an evaluation of document 01 that shares nothing with it.
pub mod asking;
pub mod beside;
pub mod calls;
pub mod evaluation;
pub mod finding;
pub mod generate;
pub mod meeting;
pub mod mistakes;
pub mod random;
pub mod walking;
pub mod written;
