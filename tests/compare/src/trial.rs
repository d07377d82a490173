//! One call on given bytes, in the second implementation and in others.

use reference::random::Random;

use crate::call::{Call, Run};
use crate::lent::Lent;
use crate::{area, calls, inputs, oracle, plain};

/// What is held against the second implementation: the library alone, or the
/// box in plain C too.
pub const LIBRARY: &[Run] = &[calls::run];
pub const LIBRARY_AND_PLAIN: &[Run] = &[calls::run, plain::run];

/// A call, and what the lent slices hold before it.
#[derive(Clone, Debug)]
pub struct Trial {
    pub call: Call,
    pub area: Vec<u8>,
    pub input: Vec<u8>,
    pub output: Vec<u8>,
}

/// Random ones.
impl Trial {
    /// A call on a node within its ranges, with an input that suits it.
    pub fn good(random: &mut Random) -> Trial {
        let node = inputs::node(random);
        let call = inputs::call(random);
        Trial {
            call,
            area: area::encode(&node).to_vec(),
            input: inputs::input(random, call, &node),
            output: inputs::output(random),
        }
    }

    /// As [`Trial::good`], but half of the areas and all inputs may be spoilt.
    pub fn spoilt(random: &mut Random) -> Trial {
        let mut trial = Trial::good(random);
        if random.chance(50) {
            trial.area = inputs::spoilt(random, trial.area);
        }
        trial.input = inputs::spoilt(random, trial.input);
        trial
    }
}

impl Trial {
    /// Makes the call in the second implementation and in each of `others`,
    /// and returns the answer. Panics at a difference.
    pub fn run(&self, others: &[Run]) -> u32 {
        let (mut area, mut output) = (self.area.clone(), self.output.clone());
        let expected = oracle::run(self.call, &mut area, &self.input, &mut output);
        for (number, &other) in others.iter().enumerate() {
            self.compare(number, other, expected, &area, &output);
        }
        expected
    }

    /// Makes the call in another implementation, on slices with guard bytes:
    /// the answer and every byte have to be those expected.
    fn compare(&self, number: usize, other: Run, expected: u32, area: &[u8], output: &[u8]) {
        let mut lent_area = Lent::new(&self.area);
        let lent_input = Lent::new(&self.input);
        let mut lent_output = Lent::new(&self.output);
        let answer = other(
            self.call,
            lent_area.contents_mut(),
            lent_input.contents(),
            lent_output.contents_mut(),
        );
        let of = || format!("implementation {number}, {self:?}");
        assert_eq!(answer, expected, "the answers differ: {}", of());
        let area_now = lent_area.contents();
        assert!(lent_area.is(area), "area {area_now:?}: {}", of());
        assert!(lent_input.is(&self.input), "the input changed: {}", of());
        let output_now = lent_output.contents();
        assert!(lent_output.is(output), "output {output_now:?}: {}", of());
    }
}
