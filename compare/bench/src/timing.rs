//! Medians of repeated calls, printed as rows of a table.

use std::cell::RefCell;
use std::hint::black_box;
use std::time::{Duration, Instant};

/// The time of one call; its result is dropped afterwards.
pub fn timed<R>(call: impl FnOnce() -> R) -> Duration {
    let start = Instant::now();
    let result = black_box(call());
    let time = start.elapsed();
    drop(result);
    time
}

/// What a row is about: the call, its input, and so many units of it.
pub struct Row<'a> {
    pub call: &'a str,
    pub input: &'a str,
    pub units: usize,
    pub unit: &'a str,
}

/// Both sides are called in turn until this is spent, at least `LEAST` times and at most `MOST` times.
const BUDGET: Duration = Duration::from_millis(1_200);
const LEAST: usize = 3;
const MOST: usize = 1_001;

/// A pair of calls that takes longer is made once.
const SLOW: Duration = Duration::from_secs(3);

/// The most that ours / Rust may be: the calls whose names begin so, by what they are counted in, from so many of it on.
const GOALS: [(&str, &str, usize, f64); 7] = [
    ("read, pool half full", "an address", 0, 3.0),
    ("read, pool full", "an address", 0, 10.0),
    ("read", "a bone", 0, 0.33),
    ("write", "a bone", 0, 0.33),
    ("tags", "a bone", 0, 0.25),
    ("indices", "a bone", 65_535, 0.005),
    ("matrices", "a bone", 0, 0.9),
];

fn goal(row: &Row) -> Option<f64> {
    let is = |call: &str, unit: &str, least: usize| row.call.starts_with(call) && row.unit == unit && row.units >= least;
    GOALS.iter().find(|(call, unit, least, _)| is(call, unit, *least)).map(|&(.., most)| most)
}

/// The table printed so far; it keeps the rows that are above their goals.
pub struct Table(RefCell<Vec<String>>);

impl Table {
    /// Prints the head.
    pub fn begin() -> Table {
        println!("| call | input | ns for | ours | Rust | ours / Rust | of the least | goal | calls |");
        println!("|---|---|---|---:|---:|---:|---:|---:|---:|");
        Table(RefCell::default())
    }

    /// Prints the rows that are above their goals.
    pub fn end(self) {
        let above = self.0.into_inner();
        println!("\nAbove the goal: {}.", if above.is_empty() { "none".into() } else { above.join("; ") });
    }

    /// Times both sides and prints their row; each closure gives the time of one call.
    pub fn both(&self, row: &Row, mut ours: impl FnMut() -> Duration, mut rust: impl FnMut() -> Duration) {
        let times = repeated(|| (ours(), rust()), |&(a, b)| a + b);
        let ours = sorted(times.iter().map(|t| t.0));
        let rust = sorted(times.iter().map(|t| t.1));
        let ratios = [median(&ours) / median(&rust), ours[0] / rust[0]];
        self.print(row, median(&ours), Some((median(&rust), ratios)), times.len());
    }

    /// As `both`, where ours gives two times, of a call and of what it makes that the Rust's call does not: the row is of the
    /// medians' difference, and of the least times' difference.
    pub fn rest(&self, row: &Row, mut ours: impl FnMut() -> (Duration, Duration), mut rust: impl FnMut() -> Duration) {
        let times = repeated(|| (ours(), rust()), |&((a, b), c)| a + b + c);
        let (whole, aside) = (sorted(times.iter().map(|t| t.0 .0)), sorted(times.iter().map(|t| t.0 .1)));
        let rust = sorted(times.iter().map(|t| t.1));
        let [ours, least] = [median(&whole) - median(&aside), whole[0] - aside[0]];
        let ratios = [ours / median(&rust), least / rust[0]];
        self.print(row, ours, Some((median(&rust), ratios)), times.len());
    }

    /// Times our side alone and prints its row; gives the median of one call.
    pub fn alone(&self, row: &Row, ours: impl FnMut() -> Duration) -> Duration {
        let times = sorted(repeated(ours, |&t| t).into_iter());
        self.print(row, median(&times), None, times.len());
        Duration::from_nanos(median(&times) as u64)
    }

    /// The Rust's time, with the ratio and that of the least times, where it was called.
    fn print(&self, row: &Row, ours: f64, rust: Option<(f64, [f64; 2])>, calls: usize) {
        let Row { call, input, units, unit } = row;
        let nanoseconds = |time: f64| format!("{:.1}", time / *units as f64);
        let none = || "–".to_string();
        let [time, ratio, least] = match rust {
            Some((time, [ratio, least])) => [nanoseconds(time), shown(ratio), shown(least)],
            None => [none(), none(), none()],
        };
        let goal = goal(row).filter(|_| rust.is_some());
        let met = goal.zip(rust).is_none_or(|(goal, (_, [ratio, _]))| ratio <= goal);
        if !met {
            self.0.borrow_mut().push(format!("{call}, {input} ({ratio})"));
        }
        let goal = goal.map_or_else(none, |goal| if met { format!("{goal}") } else { format!("{goal}, above") });
        println!("| {call} | {input} | {unit} | {} | {time} | {ratio} | {least} | {goal} | {calls} |", nanoseconds(ours));
    }
}

fn repeated<T>(mut call: impl FnMut() -> T, time: impl Fn(&T) -> Duration) -> Vec<T> {
    let (mut times, mut spent) = (Vec::new(), Duration::ZERO);
    while times.len() < MOST && (spent < BUDGET || times.len() < LEAST) && (times.len() != 1 || spent < SLOW) {
        let one = call();
        spent += time(&one);
        times.push(one);
    }
    times
}

/// In nanoseconds, rising.
fn sorted(times: impl Iterator<Item = Duration>) -> Vec<f64> {
    let mut times: Vec<f64> = times.map(|t| t.as_nanos() as f64).collect();
    times.sort_by(f64::total_cmp);
    times
}

fn median(sorted: &[f64]) -> f64 {
    sorted[sorted.len() / 2]
}

fn shown(ratio: f64) -> String {
    let digits = if ratio < 0.1 { 4 } else { 2 };
    format!("{ratio:.digits$}")
}
