//! Second implementation of the Hydra node core and of the replay of a site.
//!
//! It follows `docs/specification.md` and Algorithm 1 of the Hydra paper,
//! and is the oracle that the first implementation is compared with; the two
//! share no code. It is written to be read, and to be fast enough that a time
//! beside it says something: a site keeps its nodes in place, every step
//! changes them there, and a refused step changes nothing.
//!
//! The layers, from the lowest up: [`schedule`], [`allotment`], [`node`], [`site`],
//! [`group`], [`script`], [`reduce`]. [`wire`] holds the layouts on the air, [`random`] makes
//! event lists and scripts for comparisons.

#![forbid(unsafe_code)]

pub mod allotment;
pub mod group;
pub mod node;
pub mod random;
pub mod reduce;
pub mod refusal;
pub mod schedule;
pub mod script;
pub mod set;
pub mod settings;
pub mod site;
pub mod tally;
pub mod windows;
pub mod wire;
