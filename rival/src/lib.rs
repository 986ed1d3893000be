//! A search engine, Nelder-Mead or multidirectional, that proposes trials and takes readings, written from documents 01 and 02 alone.
#![forbid(unsafe_code)]
#![warn(missing_docs)]

mod building;
mod calls;
mod damage;
mod iteration;
mod moves;
mod multidirectional;
mod opening;
mod parts;
mod probing;
pub mod replay;
mod search;
mod simplex;
mod stopping;
mod text;
pub mod tune;
mod types;

pub use search::Search;
pub use types::{Axis, Coefficients, Method, Refusal, Rule, Trial, Vertex};

/// The usual coefficients, under the name of the crate too.
pub const USUAL: Coefficients = Coefficients::USUAL;

#[cfg(test)]
mod tests;
