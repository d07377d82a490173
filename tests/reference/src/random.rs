//! Random sites, event lists and scripts, the same ones for the same seed.

mod damage;
mod prng;
mod scenario;

pub use damage::damage;
pub use prng::Random;
pub use scenario::{random_scenario, Scenario};

/// What kind of script is wanted.
#[derive(Clone, Copy, Debug, PartialEq, Eq)]
pub enum Flavour {
    /// Mostly rounds as a site runs them, so that versions move.
    Plausible,
    /// Mostly events in no order, of small sites: losses, late and repeated
    /// hearings, groups that do not hear each other, many crashes.
    Chaotic,
    /// A plausible script whose bytes or lines were damaged.
    Damaged,
}

impl Flavour {
    pub const ALL: [Flavour; 3] = [Flavour::Plausible, Flavour::Chaotic, Flavour::Damaged];
}

/// A script for the replay. Only a damaged one can be refused before its
/// events.
pub fn random_script(seed: u64, flavour: Flavour) -> Vec<u8> {
    let script = random_scenario(seed, flavour).script();
    match flavour {
        Flavour::Plausible | Flavour::Chaotic => script,
        Flavour::Damaged => damage(script, &mut Random::new(!seed)),
    }
}
