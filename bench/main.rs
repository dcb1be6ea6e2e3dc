//! Both sides in one program, on the same numbers. measure.py runs it.
//!
//!   bench check OP BORDER F N               a call of each, by bank two; what they give is compared, bit for bit
//!   bench count SIDE OP BORDER F N TIMES    that many calls and nothing printed
//!   bench time SIDE OP BORDER F N           nanoseconds a call, the best of several timings
mod our_side;
mod rust_side;
mod work;

use oracle::made::Made;
use our_side::Ours;
use rust_side::Returned;
use std::time::Instant;
use work::{BORDERS, Case, OPS, Work, repeated};

fn stop(why: &str) -> ! {
    eprintln!("bench: {why}");
    std::process::exit(2)
}

fn number(text: &str) -> usize {
    text.parse().unwrap_or_else(|_| stop("a number was expected"))
}

fn case(op: &str, border: &str, f: &str, n: &str) -> Case {
    let wide = op.strip_suffix("-f32");
    let (op, narrow) = (wide.unwrap_or(op), wide.is_some());
    let op = OPS.iter().find(|(name, _)| *name == op).map_or_else(|| stop("no such operation"), |(_, op)| *op);
    let border = BORDERS.iter().position(|name| *name == border).unwrap_or_else(|| stop("no such border"));
    Case { op, narrow, border, f: number(f), n: number(n) }
}

/// Makes a case, hands its call to what runs it, and gives what the call's caller is given, as bits.
fn with_calls(side: &str, case: Case, run: impl FnOnce(&mut dyn FnMut(usize))) -> Vec<u64> {
    if case.narrow { with_calls_of::<f32>(side, case, run) } else { with_calls_of::<f64>(side, case, run) }
}

fn with_calls_of<T: Made + Ours>(side: &str, case: Case, run: impl FnOnce(&mut dyn FnMut(usize))) -> Vec<u64> {
    let mut w = Work::<T>::new(case);
    let mut returned = Returned::default();
    match side {
        "rust" => run(&mut *repeated(rust_side::call(case, &mut w, &mut returned))),
        "ours" => run(&mut *T::calls(case, &mut w)),
        _ => stop("a side is rust or ours"),
    }
    returned.put(&mut w);
    w.given(case.op)
}

fn check(case: Case) {
    // by bank it is the second call that is counted
    let times = if case.by_bank() { 2 } else { 1 };
    let [x, y] = ["rust", "ours"].map(|side| with_calls(side, case, |calls| calls(times)));
    let differ = x.len().abs_diff(y.len()) + x.iter().zip(&y).filter(|(x, y)| x != y).count();
    println!("{} {differ}", x.len());
}

fn count(side: &str, case: Case, times: usize) {
    with_calls(side, case, |calls| calls(times));
}

const TIMINGS: usize = 9;
const SAMPLES_A_TIMING: usize = 1 << 17;

/// Nanoseconds, the best of several timings.
fn best(mut timed: impl FnMut()) -> f64 {
    let timing = |_| {
        let start = Instant::now();
        timed();
        start.elapsed().as_secs_f64() * 1e9
    };
    (0..=TIMINGS).map(timing).fold(f64::INFINITY, f64::min)
}

fn time(side: &str, case: Case) {
    // so often that the clock's own step does not show
    let runs = (SAMPLES_A_TIMING / case.samples()).max(1);
    with_calls(side, case, |calls| println!("{:.1}", best(|| (0..runs).for_each(|_| calls(1))) / runs as f64));
}

fn main() {
    let words: Vec<String> = std::env::args().skip(1).collect();
    let words: Vec<&str> = words.iter().map(String::as_str).collect();
    match words[..] {
        ["check", op, border, f, n] => check(case(op, border, f, n)),
        ["count", side, op, border, f, n, times] => count(side, case(op, border, f, n), number(times)),
        ["time", side, op, border, f, n] => time(side, case(op, border, f, n)),
        _ => stop("check OP BORDER F N, count SIDE OP BORDER F N TIMES, or time SIDE OP BORDER F N"),
    }
}
