// Times of tasks in turn, so that what else the machine does falls on all of them.
use std::time::Instant;

const SAMPLES: usize = 41;
const SAMPLE_SECONDS: f64 = 0.02;

// The least and the middle time of one run of a task, in seconds.
#[derive(Clone, Copy)]
pub struct Times {
    pub least: f64,
    pub middle: f64,
}

pub fn in_turn<T, const N: usize>(on: &mut T, tasks: [fn(&mut T); N]) -> [Times; N] {
    let runs = 1 + (SAMPLE_SECONDS / sample(on, tasks[0], 1)) as usize;
    let mut seconds = [const { Vec::new() }; N];
    for _ in 0..SAMPLES {
        for (task, seconds) in tasks.iter().zip(&mut seconds) {
            seconds.push(sample(on, *task, runs));
        }
    }
    seconds.map(times)
}

// Short tasks are run many times in a row.
fn sample<T>(on: &mut T, task: fn(&mut T), runs: usize) -> f64 {
    let start = Instant::now();
    for _ in 0..runs {
        task(on);
    }
    start.elapsed().as_secs_f64() / runs as f64
}

fn times(mut seconds: Vec<f64>) -> Times {
    seconds.sort_by(f64::total_cmp);
    Times { least: seconds[0], middle: seconds[seconds.len() / 2] }
}
