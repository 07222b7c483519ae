// What a piece of work costs.
use std::time::Instant;

// The seconds of the fastest turn of each job. The turns alternate, so that all meet the same machine.
pub fn fastest<const N: usize>(turns: usize, mut jobs: [&mut dyn FnMut(); N]) -> [f64; N] {
    let mut best = [f64::MAX; N];
    for _ in 0..turns {
        for (job, best) in jobs.iter_mut().zip(&mut best) {
            let start = Instant::now();
            job();
            *best = best.min(start.elapsed().as_secs_f64());
        }
    }
    best
}
