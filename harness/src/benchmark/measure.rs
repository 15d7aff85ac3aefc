//! How much is measured, and how: all are called in turn, model by model, and the median is taken.

use std::hint::black_box;
use std::time::Instant;

use harness::Answer;

/// How much is measured.
#[derive(Clone, Copy)]
pub struct Effort {
    /// Random models of each row. How well the processor foresees the query's branches differs from model to model and
    /// from one placement of the code to the next, so that one model alone shows chance.
    pub models: u64,
    /// The same for a row of more than a million queries a model.
    pub large_models: u64,
    /// Of each row; their median is printed.
    pub samples: usize,
    /// That a sample takes at the least, by repeating the calls.
    pub seconds: f64,
    /// Of a model; larger ones are left out.
    pub most_queries: u64,
}

pub const FULL: Effort =
    Effort { models: 10, large_models: 3, samples: 11, seconds: 0.05, most_queries: 20_000_000 };
pub const QUICK: Effort =
    Effort { models: 3, large_models: 1, samples: 5, seconds: 0.005, most_queries: 500_000 };

/// The median time of one judgement, in seconds, and the median of the engine's time as a multiple of it; by judge.
pub struct Times {
    pub seconds: Vec<f64>,
    pub ratios: Vec<f64>,
}

pub fn median(mut times: Vec<f64>) -> f64 {
    times.sort_by(f64::total_cmp);
    times[times.len() / 2]
}

/// The seconds that so many judgements of a model take.
pub fn timed<T>(calls: usize, model: &T, judge: &dyn Fn(&T) -> Answer) -> f64 {
    let start = Instant::now();
    for _ in 0..calls {
        black_box(judge(model));
    }
    start.elapsed().as_secs_f64()
}

/// Calls all in turn, model by model, so that a machine that slows down for a while slows all. What takes long is repeated
/// less, but five times at the least.
pub fn measure<T>(effort: Effort, models: &[T], judges: &[&dyn Fn(&T) -> Answer]) -> Times {
    let once = |judge| models.iter().map(|model| timed(1, model, judge)).sum::<f64>();
    let calls: Vec<usize> =
        judges.iter().map(|&judge| (effort.seconds / once(judge)).ceil() as usize).collect();
    let samples = if judges.iter().any(|&judge| once(judge) > 0.05) { 5 } else { effort.samples };
    let (mut seconds, mut ratios) = (vec![Vec::new(); judges.len()], vec![Vec::new(); judges.len()]);
    for sample in 0..samples {
        let mut times = vec![0.0; judges.len()];
        for (i, model) in models.iter().enumerate() {
            // Another one first every time.
            for turn in 0..judges.len() {
                let at = (sample + i + turn) % judges.len();
                times[at] += timed(calls[at], model, judges[at]) / (calls[at] * models.len()) as f64;
            }
        }
        for at in 0..judges.len() {
            seconds[at].push(times[at]);
            ratios[at].push(times[0] / times[at]);
        }
    }
    let medians = |times: Vec<Vec<f64>>| times.into_iter().map(median).collect();
    Times { seconds: medians(seconds), ratios: medians(ratios) }
}

pub fn time(seconds: f64) -> String {
    let (value, unit) = match seconds {
        s if s < 1e-3 => (s * 1e6, "us"),
        s if s < 1.0 => (s * 1e3, "ms"),
        s => (s, "s "),
    };
    let digits = if value < 10.0 {
        2
    } else if value < 100.0 {
        1
    } else {
        0
    };
    format!("{value:.digits$} {unit}")
}
