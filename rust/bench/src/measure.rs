//! Compares the sides, and times them in turn.

use std::array::from_fn;

use judge::{Judge, Source};

use crate::cases::Case;
use crate::pool::{Kept, Pool, Timed};
use crate::sides::{Side, SIDES};

/// A row of the table, with a place for each side.
pub struct Row {
    /// Nanoseconds for each call: the median of the repetitions.
    pub times: [f64; SIDES.len()],
    /// Ours to each side: the quarters of the ratios, one ratio for each repetition. The second is the median.
    pub ratios: [[f64; 3]; SIDES.len()],
}

/// Runs a side beside `plain` on random calls, damaged pools among them.
pub fn judge(side: Side, calls: u64) -> Result<(), String> {
    Judge::new(side).run(&mut Source::new(calls), calls)
}

/// Runs a case so many times on each side. The sides take turns, another goes first each time, and the first time is not
/// counted. There is no row where an answer or a place of the memory differs.
pub fn measure(case: &Case, repetitions: usize) -> Result<Row, String> {
    let mut pools = SIDES.map(|side| case.pool(side));
    let mut answers = SIDES.map(|_| Vec::new());
    for (pool, answers) in pools.iter_mut().zip(&mut answers) {
        let mut kept = Kept::default();
        case.run(pool, &mut kept);
        *answers = kept.0;
    }
    let mut times = SIDES.map(|_| Vec::new());
    for side in 1..SIDES.len() {
        if answers[side] != answers[0] {
            return Err(format!("the answers of {} differ", SIDES[side].name));
        }
    }
    for repetition in 0..=repetitions {
        for turn in 0..SIDES.len() {
            let side = (repetition + turn) % SIDES.len();
            let start = processor_time();
            case.run(&mut pools[side], &mut Timed);
            let time = processor_time() - start;
            if repetition > 0 {
                times[side].push(time / case.calls() as f64);
            }
        }
        same(&pools)?;
    }
    let ratios = |side: &Vec<f64>| {
        let ratios: Vec<f64> = times[0].iter().zip(side).map(|(ours, theirs)| ours / theirs).collect();
        [0.25, 0.5, 0.75].map(|part| below(&ratios, part))
    };
    Ok(Row { times: from_fn(|side| below(&times[side], 0.5)), ratios: from_fn(|side| ratios(&times[side])) })
}

/// The time that this thread has run, in nanoseconds: the waiting for a processor that others use is no part of it.
fn processor_time() -> f64 {
    const CLOCK_THREAD_CPUTIME_ID: i32 = 3; // of Linux
    extern "C" {
        fn clock_gettime(clock: i32, seconds_and_nanoseconds: *mut [i64; 2]) -> i32;
    }
    let mut time = [0; 2];
    // SAFETY: on 64-bit Linux the answer is two numbers of 64 bits.
    assert_eq!(unsafe { clock_gettime(CLOCK_THREAD_CPUTIME_ID, &mut time) }, 0, "there is no such clock");
    time[0] as f64 * 1e9 + time[1] as f64
}

fn same(pools: &[Pool]) -> Result<(), String> {
    for (pool, side) in pools.iter().zip(SIDES) {
        if (pool.setup, &pool.list, &pool.runs) != (pools[0].setup, &pools[0].list, &pools[0].runs)
            || pool.tables != pools[0].tables
            || pool.second != pools[0].second
        {
            return Err(format!("the memory of {} differs", side.name));
        }
    }
    Ok(())
}

/// The number below which this part of the numbers lies.
fn below(numbers: &[f64], part: f64) -> f64 {
    let mut sorted = numbers.to_vec();
    sorted.sort_by(f64::total_cmp);
    sorted[((sorted.len() - 1) as f64 * part).round() as usize]
}
