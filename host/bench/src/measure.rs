//! Times several ways of doing the same in turn, so that what else the machine does falls on all of them.

use std::time::{Duration, Instant};

/// How long one measurement of one way takes, about.
const PIECE: Duration = Duration::from_micros(200);

/// Something to be done so many times over.
pub type Way<'a> = &'a mut dyn FnMut(usize);

/// Nanoseconds for each way: the median over the rounds.
pub struct Times<const N: usize> {
    pub ns: [f64; N],
    /// How many times each way's time the first way takes: the median of the rounds' ratios.
    pub ratios: [f64; N],
}

pub fn in_turn<const N: usize>(rounds: usize, mut ways: [Way; N]) -> Times<N> {
    let turns: [usize; N] = std::array::from_fn(|way| turns_of(ways[way]));
    let mut samples: Vec<[f64; N]> = Vec::with_capacity(rounds);
    for round in 0..rounds {
        let mut sample = [0.0; N];
        for step in 0..N {
            let way = (round + step) % N;
            let start = Instant::now();
            ways[way](turns[way]);
            sample[way] = start.elapsed().as_secs_f64() * 1e9 / turns[way] as f64;
        }
        samples.push(sample);
    }
    let over = |of: &dyn Fn(&[f64; N]) -> f64| median(samples.iter().map(of).collect());
    Times {
        ns: std::array::from_fn(|way| over(&|sample| sample[way])),
        ratios: std::array::from_fn(|way| over(&|sample| sample[0] / sample[way])),
    }
}

/// How often a way is to be done in one piece. It also warms it up.
fn turns_of(way: Way) -> usize {
    let mut turns = 1;
    loop {
        let start = Instant::now();
        way(turns);
        if start.elapsed() >= PIECE || turns > 1 << 20 {
            return turns;
        }
        turns *= 2;
    }
}

fn median(mut numbers: Vec<f64>) -> f64 {
    numbers.sort_by(f64::total_cmp);
    numbers[numbers.len() / 2]
}
