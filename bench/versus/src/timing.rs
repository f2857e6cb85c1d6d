//! Times of two functions that do the same work in the same areas, measured in turn.

use std::time::{Duration, Instant};

/// How long a batch of calls takes, about.
const BATCH: Duration = Duration::from_micros(250);
/// How long both functions are measured, about.
const MEASURED: Duration = Duration::from_millis(1_000);
/// Fewest and most batches of each function.
const FEWEST_BATCHES: u128 = 31;
const MOST_BATCHES: u128 = 1_001;

/// Medians of the time of a call, in nanoseconds.
#[derive(Clone, Copy)]
pub struct Times {
    pub rattle: f64,
    pub rust: f64,
}

impl Times {
    pub fn ratio(&self) -> f64 {
        self.rattle / self.rust
    }
}

/// A function that is called in batches.
struct Timed<F> {
    call: F,
    calls: u32,
    /// Nanoseconds of a call, one entry for each batch.
    samples: Vec<f64>,
}

impl<F> Timed<F> {
    /// Calls the function until a batch takes long enough.
    fn new<A>(call: F, areas: &mut A) -> Timed<F>
    where
        F: FnMut(&mut A),
    {
        let mut timed = Timed { call, calls: 1, samples: Vec::new() };
        while timed.batch(areas) < BATCH {
            timed.calls *= 2;
        }
        timed
    }

    fn batch<A>(&mut self, areas: &mut A) -> Duration
    where
        F: FnMut(&mut A),
    {
        let start = Instant::now();
        for _ in 0..self.calls {
            (self.call)(areas);
        }
        let time = start.elapsed();
        self.samples.push(time.as_nanos() as f64 / f64::from(self.calls));
        time
    }

    fn median(mut self) -> f64 {
        self.samples.sort_by(f64::total_cmp);
        self.samples[self.samples.len() / 2]
    }
}

/// Calls both functions in short batches that alternate.
pub fn measure<A>(areas: &mut A, rattle: impl FnMut(&mut A), rust: impl FnMut(&mut A)) -> Times {
    let (mut rattle, mut rust) = (Timed::new(rattle, areas), Timed::new(rust, areas));
    let both = rattle.batch(areas) + rust.batch(areas);
    rattle.samples.clear();
    rust.samples.clear();
    let batches = MEASURED.as_nanos() / both.as_nanos();
    for _ in 0..batches.clamp(FEWEST_BATCHES, MOST_BATCHES) {
        rattle.batch(areas);
        rust.batch(areas);
    }
    Times { rattle: rattle.median(), rust: rust.median() }
}
