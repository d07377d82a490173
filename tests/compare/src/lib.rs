//! Compares the C calls of the node, `hydra_replay` and the program `replay`
//! with the second implementation: the same inputs go to both, and answers
//! and all lent bytes have to be the same afterwards.
//!
//! [`calls`] holds the first implementation, behind its C interface, and
//! [`oracle`] the second one behind the same interface. [`plain`] has a box in
//! plain C behind it too, and the run of a script. [`trial`] and [`twin`] run a call in several of
//! them, [`group`] whole rounds of them. The rest makes inputs and measures.
//!
//! The archives and the program have to be there first:
//!
//! ```text
//! make programs archives
//! cargo test --release
//! ```

#![deny(unsafe_op_in_unsafe_fn)]
#![deny(unsafe_code)]

pub mod area;
pub mod call;
#[allow(unsafe_code)]
pub mod calls;
pub mod desk;
pub mod group;
pub mod inputs;
pub mod lent;
pub mod measure;
pub mod oracle;
#[allow(unsafe_code)]
pub mod plain;
pub mod scripts;
pub mod tally;
pub mod trial;
pub mod twin;
pub mod windows;
