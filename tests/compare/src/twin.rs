//! One node in several implementations: a value in the second, an area of bytes
//! in each other. After each call the areas have to hold the bytes of the
//! value.

use reference::node::Node;

use crate::call::{Call, Run};
use crate::lent::Lent;
use crate::tally::Tally;
use crate::{area, oracle};

pub struct Twin {
    node: Node,
    /// Of each other implementation, its area.
    others: Vec<(Run, Lent)>,
}

impl Twin {
    /// A node that `call` begins or restarts, in areas that held `garbage`.
    pub fn new(call: Call, garbage: &[u8], others: &[Run], tally: &mut Tally) -> Twin {
        let node = oracle::first(call).expect("numbers in range");
        let mut twin = Twin {
            node,
            others: others
                .iter()
                .map(|&run| (run, Lent::new(garbage)))
                .collect(),
        };
        for (run, area) in &mut twin.others {
            let answer = run(call, area.contents_mut(), &[], &mut []);
            assert_eq!(answer, 0, "{call:?}");
        }
        tally.add(call, 0);
        twin.check(call);
        twin
    }

    pub fn node(&self) -> &Node {
        &self.node
    }

    /// Makes a call and returns the answer; `output` gets what is written.
    pub fn call(&mut self, call: Call, input: &[u8], output: &mut [u8], tally: &mut Tally) -> u32 {
        let lent_output = Lent::new(output);
        let expected = match oracle::step(&mut self.node, call, input, output) {
            Ok(()) => 0,
            Err(refusal) => oracle::number(refusal),
        };
        for index in 0..self.others.len() {
            let (run, area) = &mut self.others[index];
            let lent_input = Lent::new(input);
            let mut lent_output = lent_output.clone();
            let answer = run(
                call,
                area.contents_mut(),
                lent_input.contents(),
                lent_output.contents_mut(),
            );
            assert_eq!(answer, expected, "{call:?} with {input:?} on {self:?}");
            assert!(lent_input.is(input), "the input of {call:?} changed");
            assert!(lent_output.is(output), "{call:?}: output of {self:?}");
        }
        self.check(call);
        tally.add(call, expected);
        expected
    }

    fn check(&self, call: Call) {
        let bytes = area::encode(&self.node);
        for (_, area) in &self.others {
            assert!(area.is(&bytes), "after {call:?}: {self:?}");
        }
    }
}

impl std::fmt::Debug for Twin {
    fn fmt(&self, f: &mut std::fmt::Formatter<'_>) -> std::fmt::Result {
        write!(f, "{:?}", self.node)?;
        for (_, area) in &self.others {
            write!(f, ", area {:?}", area.contents())?;
        }
        Ok(())
    }
}
