//! Jobs timed beside each other.

use std::time::{Duration, Instant};

/// In each round every job has one sample.
const ROUNDS: usize = 41;

/// A sample is at least as long: far above the clock's grain, and short enough
/// for most samples to be left alone by the machine's other work.
const SAMPLE: Duration = Duration::from_millis(2);

/// Something to do, and how many bytes or keys that is.
pub struct Job<'a> {
    work: Box<dyn FnMut() + 'a>,
    units: usize,
    /// How often it is done in a sample.
    times: usize,
}

impl<'a> Job<'a> {
    pub fn new(units: usize, work: impl FnMut() + 'a) -> Job<'a> {
        Job {
            work: Box::new(work),
            units,
            times: 1,
        }
    }

    /// Done until a sample is long enough, and not by chance.
    fn warm_up(&mut self) {
        while (0..3).any(|_| self.sample() < SAMPLE) {
            self.times *= 2;
        }
    }

    fn sample(&mut self) -> Duration {
        let start = Instant::now();
        for _ in 0..self.times {
            (self.work)();
        }
        start.elapsed()
    }

    /// In ns for each byte or key.
    fn cost(&mut self) -> f64 {
        let units = self.times * self.units;
        self.sample().as_nanos() as f64 / units as f64
    }
}

/// What each job cost in each round.
pub struct Costs(Vec<Vec<f64>>);

/// The jobs alternate, and each round starts with another one.
pub fn beside(jobs: &mut [Job]) -> Costs {
    for job in jobs.iter_mut() {
        job.warm_up();
    }
    let mut costs = vec![Vec::new(); jobs.len()];
    for round in 0..ROUNDS {
        for turn in 0..jobs.len() {
            let job = (round + turn) % jobs.len();
            costs[job].push(jobs[job].cost());
        }
    }
    Costs(costs)
}

impl Costs {
    /// The median over the rounds.
    pub fn of(&self, job: usize) -> f64 {
        median(self.0[job].clone())
    }

    /// How many times as much a job costs as another: the median over the
    /// rounds, each of which has its own ratio.
    pub fn ratio(&self, job: usize, other: usize) -> f64 {
        let rounds = self.0[job].iter().zip(&self.0[other]);
        median(rounds.map(|(cost, other)| cost / other).collect())
    }
}

fn median(mut values: Vec<f64>) -> f64 {
    values.sort_by(f64::total_cmp);
    values[values.len() / 2]
}
