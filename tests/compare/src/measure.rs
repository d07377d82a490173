//! Time per operation of several implementations, side by side.

use std::time::{Duration, Instant};

/// Each sample lasts about this long: far longer than the clock's own cost,
/// and short enough to be left alone by the machine's other work now and then.
const SAMPLE: Duration = Duration::from_millis(1);

const SAMPLES: usize = 101;

/// Nanoseconds for one operation in each of some implementations, of which
/// each makes a pass of `operations` operations. Samples alternate, so that
/// all meet the same load of the machine, and the fastest one counts: it is the
/// one that was disturbed least.
pub fn measure<const COUNT: usize>(
    operations: usize,
    mut implementations: [&mut dyn FnMut(); COUNT],
) -> [f64; COUNT] {
    let passes = implementations.each_mut().map(|pass| passes(*pass));
    let mut fastest = [f64::MAX; COUNT];
    for _ in 0..SAMPLES {
        for (index, pass) in implementations.iter_mut().enumerate() {
            fastest[index] = fastest[index].min(sample(*pass, passes[index]));
        }
    }
    fastest.map(|nanoseconds| nanoseconds / operations as f64)
}

/// How many passes last as long as one sample should.
fn passes(pass: &mut dyn FnMut()) -> u32 {
    let start = Instant::now();
    let mut passes = 0;
    while start.elapsed() < SAMPLE {
        pass();
        passes += 1;
    }
    passes
}

/// Nanoseconds for one pass.
fn sample(pass: &mut dyn FnMut(), passes: u32) -> f64 {
    let start = Instant::now();
    for _ in 0..passes {
        pass();
    }
    start.elapsed().as_secs_f64() * 1e9 / f64::from(passes)
}
