//! How long a call takes: the least processor time of many samples, the two sides by turns.
use crate::rows::{Size, ROWS};
use crate::sides::{perform, Input, Lent, Side, PLAIN, PROVED};
use std::hint::black_box;

extern "C" {
    fn clock_gettime(clock: i32, time: *mut [i64; 2]) -> i32;
}

const SAMPLE: f64 = 1e5; // a sample takes so many nanoseconds at least
const ROUNDS: usize = 5;
const SPENT: f64 = 2e8; // and a row so many for each size, in each pass

/// The processor time of this thread so far, in nanoseconds: other work on the machine does not count.
fn now() -> f64 {
    let mut time = [0; 2];
    unsafe { clock_gettime(3, &mut time) };
    time[0] as f64 * 1e9 + time[1] as f64
}

/// The time of so many calls by one side.
fn sample(side: &Side, input: &Input, lent: &mut Lent, calls: usize) -> f64 {
    let start = now();
    for _ in 0..calls {
        black_box(perform(side, black_box(input), lent));
    }
    now() - start
}

/// How many calls make a sample.
fn calls_for(side: &Side, input: &Input, lent: &mut Lent) -> usize {
    let mut calls = 1;
    while sample(side, input, lent, calls) < SAMPLE {
        calls *= 2;
    }
    calls
}

/// The least time of one call, proved and plain.
pub fn measure(row: usize, size: Size) -> [f64; 2] {
    let input = (ROWS[row].input)(size);
    let mut lent = Lent::new(&input);
    let sides = [&PROVED, &PLAIN];
    let calls = sides.map(|side| calls_for(side, &input, &mut lent));
    let (mut least, mut rounds, start) = ([f64::MAX; 2], 0, now());
    while rounds < ROUNDS || now() - start < SPENT {
        for i in 0..2 {
            least[i] = least[i].min(sample(sides[i], &input, &mut lent, calls[i]) / calls[i] as f64);
        }
        rounds += 1;
    }
    least
}
