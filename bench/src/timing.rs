//! Times of several contenders on one job, taken in turn so that whatever else the machine does meets all of them alike.

use std::time::{Duration, Instant};

/// How often the contenders take turns, and how long one turn should last at least.
#[derive(Clone, Copy)]
pub struct Effort {
    pub turns: usize,
    pub turn: Duration,
}

/// What one call of a contender took: most are called many times a turn, some time their own call.
pub enum Contender<'a> {
    Called(&'a mut dyn FnMut()),
    Timed(&'a mut dyn FnMut() -> Duration),
}

impl Contender<'_> {
    fn turn(&mut self, calls: u32) -> Duration {
        match self {
            Contender::Called(call) => {
                let start = Instant::now();
                for _ in 0..calls {
                    call();
                }
                start.elapsed() / calls
            }
            Contender::Timed(call) => (0..calls).map(|_| call()).sum::<Duration>() / calls,
        }
    }
}

/// The median time of one call for each contender, in microseconds.
pub fn medians(effort: Effort, contenders: &mut [Contender]) -> Vec<f64> {
    let calls: Vec<u32> = contenders
        .iter_mut()
        .map(|contender| {
            let once = contender.turn(3).max(Duration::from_nanos(1));
            (effort.turn.as_nanos() / once.as_nanos()).clamp(1, 1_000_000) as u32
        })
        .collect();
    let mut times = vec![Vec::with_capacity(effort.turns); contenders.len()];
    for _ in 0..effort.turns {
        for (nth, contender) in contenders.iter_mut().enumerate() {
            times[nth].push(contender.turn(calls[nth]).as_secs_f64() * 1e6);
        }
    }
    times.into_iter().map(median).collect()
}

fn median(mut times: Vec<f64>) -> f64 {
    times.sort_by(f64::total_cmp);
    times[times.len() / 2]
}
