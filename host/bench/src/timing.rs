//! The one way in which everything is timed: the best of many runs.

use std::time::{Duration, Instant};

pub type Work = Box<dyn FnMut()>;

const ROUNDS: usize = 60;
/// In each round a work runs again and again for so long, and at least twice.
const SPELL: Duration = Duration::from_millis(10);

/// The best time of each work, in nanoseconds. They take turns, so that other load meets all alike.
pub fn best_of(works: &mut [Work]) -> Vec<f64> {
    let mut best = vec![f64::INFINITY; works.len()];
    for _ in 0..ROUNDS {
        for (best, work) in best.iter_mut().zip(works.iter_mut()) {
            *best = best.min(spell(work));
        }
    }
    best
}

/// The best time of one spell; the first run warms the buffers and does not count.
fn spell(work: &mut Work) -> f64 {
    work();
    let end = Instant::now() + SPELL;
    let mut best = f64::INFINITY;
    loop {
        let start = Instant::now();
        work();
        let stop = Instant::now();
        best = best.min((stop - start).as_nanos() as f64);
        if stop > end {
            return best;
        }
    }
}
