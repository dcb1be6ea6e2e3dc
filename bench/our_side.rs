//! This library: its exports as include/isferghul.h declares them, taps told in each call; and its entries by bank, which crates/banked calls.
use crate::work::{Calls, Case, DIVISOR, FARTHEST, Float, LEVELS, Op, Work, repeated};

unsafe extern "C" {
    fn isferghul_analyse_levels(
        border: usize, low: *const f64, lows: usize, high: *const f64, highs: usize, line: *const f64, samples: usize, levels: usize,
        packed: *mut f64, packeds: usize, scratch: *mut f64, scratches: usize, carried: *mut usize,
    ) -> u64;
    fn isferghul_restore_levels(
        low: *const f64, lows: usize, high: *const f64, highs: usize, packed: *const f64, packeds: usize, n: usize, levels: usize,
        first: *mut f64, firsts: usize, second: *mut f64, seconds: usize, carried: *mut usize,
    ) -> u64;
    fn isferghul_restore_divided(
        low: *const f64, lows: usize, high: *const f64, highs: usize, s: f64, packed: *const f64, packeds: usize, n: usize, levels: usize,
        first: *mut f64, firsts: usize, second: *mut f64, seconds: usize, carried: *mut usize,
    ) -> u64;
    fn isferghul_analyse_plane(
        border: usize, low: *const f64, lows: usize, high: *const f64, highs: usize, plane: *const f64, planes: usize,
        width: usize, height: usize, ll: *mut f64, lls: usize, lh: *mut f64, lhs: usize, hl: *mut f64, hls: usize,
        hh: *mut f64, hhs: usize, scratch: *mut f64, scratches: usize, carried: *mut usize,
    ) -> u64;
    fn isferghul_synthesise_plane(
        low: *const f64, lows: usize, high: *const f64, highs: usize, ll: *const f64, lls: usize, lh: *const f64, lhs: usize,
        hl: *const f64, hls: usize, hh: *const f64, hhs: usize, width: usize, height: usize, plane: *mut f64, planes: usize,
        scratch: *mut f64, scratches: usize, carried: *mut usize,
    ) -> u64;
    fn isferghul_analyse_directly(
        border: usize, low: *const f64, lows: usize, high: *const f64, highs: usize, line: *const f64, samples: usize,
        approx: *mut f64, approxes: usize, detail: *mut f64, details: usize, carried: *mut usize,
    ) -> u64;
    fn isferghul_synthesise_directly(
        low: *const f64, lows: usize, high: *const f64, highs: usize, approx: *const f64, approxes: usize,
        detail: *const f64, details: usize, out: *mut f64, outs: usize, carried: *mut usize,
    ) -> u64;
    fn banked_analyse(
        twice: bool, border: usize, low: *const f64, lows: usize, high: *const f64, highs: usize, line: *const f64, samples: usize,
        approx: *mut f64, approxes: usize, detail: *mut f64, details: usize, scratch: *mut f64, scratches: usize,
    ) -> u64;
    fn banked_synthesise(
        twice: bool, border: usize, low: *const f64, lows: usize, high: *const f64, highs: usize, approx: *const f64, approxes: usize,
        detail: *const f64, details: usize, out: *mut f64, outs: usize,
    ) -> u64;
}

fn done(answer: u64) {
    assert!(answer == 0, "this library answers {answer}");
}

/// A line shorter than the taps.
fn refused(answer: u64) {
    assert!(answer == 1, "this library answers {answer}");
}

/// A bank is made for one call or for two.
fn twice(times: usize) -> bool {
    assert!((1..=2).contains(&times), "by bank once or twice");
    times == 2
}

/// What a call is lent. Each pointer goes with its list's length, and no list that is written overlaps another: that is what the header asks.
struct Lent<T> {
    low: *const T,
    high: *const T,
    line: (*const T, usize),
    /// The bands, of one length.
    bands: ([*mut T; 4], usize),
    packed: (*mut T, usize),
    out: (*mut T, usize),
    second: (*mut T, usize),
    scratch: (*mut T, usize),
}

fn list<T>(of: &mut Vec<T>) -> (*mut T, usize) {
    (of.as_mut_ptr(), of.len())
}

impl<T: Float> Lent<T> {
    fn new(w: &mut Work<T>) -> Lent<T> {
        let m = w.bands.first().map_or(0, Vec::len);
        let mut bands = w.bands.iter_mut().map(Vec::as_mut_ptr);
        Lent {
            low: w.low.as_ptr(),
            high: w.high.as_ptr(),
            line: (w.line.as_ptr(), w.line.len()),
            bands: (std::array::from_fn(|_| bands.next().unwrap_or(std::ptr::null_mut())), m),
            packed: list(&mut w.packed),
            out: list(&mut w.out),
            second: list(&mut w.second),
            scratch: list(&mut w.scratch),
        }
    }
}

macro_rules! calls {
    ($export:ident($($argument:expr),*)) => { calls!(done, $export($($argument),*)) };
    ($answered:ident, $export:ident($($argument:expr),*)) => {{
        let mut carried = [0usize; 2];
        repeated(Box::new(move || $answered(unsafe { $export($($argument),*, carried.as_mut_ptr()) })))
    }};
}

macro_rules! calls_by_bank {
    ($export:ident($($argument:expr),*)) => { Box::new(move |times| done(unsafe { $export(twice(times), $($argument),*) })) };
}

/// A width that this library has.
pub trait Ours: Float {
    /// The call of a case.
    fn calls(case: Case, w: &mut Work<Self>) -> Calls<'static>;
}

/// Lines of one width: its exports, and their calls. Any other operation is called by the function that is named last.
macro_rules! lines {
    ($float:ty: $analyse:ident, $synthesise:ident, $convolve:ident, $others:ident) => {
        unsafe extern "C" {
            fn $analyse(
                border: usize, low: *const $float, lows: usize, high: *const $float, highs: usize, line: *const $float, samples: usize,
                approx: *mut $float, approxes: usize, detail: *mut $float, details: usize, scratch: *mut $float, scratches: usize, carried: *mut usize,
            ) -> u64;
            fn $synthesise(
                low: *const $float, lows: usize, high: *const $float, highs: usize, approx: *const $float, approxes: usize,
                detail: *const $float, details: usize, out: *mut $float, outs: usize, carried: *mut usize,
            ) -> u64;
            fn $convolve(
                border: usize, line: *const $float, samples: usize, out: *mut $float, outs: usize, scratch: *mut $float, scratches: usize,
                kernel: *const $float, taps: usize, centre: i64, carried: *mut usize,
            ) -> u64;
        }

        impl Ours for $float {
            fn calls(case: Case, w: &mut Work<$float>) -> Calls<'static> {
                let Case { op, border, f, .. } = case;
                let lent = Lent::new(w);
                let Lent { low, high, line: (line, samples), bands: ([a, b, ..], m), out: (out, outs), scratch: (scratch, scratches), .. } = lent;
                match op {
                    Op::Analysis => calls!($analyse(border, low, f, high, f, line, samples, a, m, b, m, scratch, scratches)),
                    Op::Synthesis => calls!($synthesise(low, f, high, f, a, m, b, m, out, outs)),
                    Op::Convolution => calls!($convolve(border, line, samples, out, outs, scratch, scratches, low, f, 0)),
                    Op::LongestLeft => calls!($convolve(border, line, samples, out, outs, scratch, scratches, low, f, -FARTHEST)),
                    Op::LongestRight => calls!($convolve(border, line, samples, out, outs, scratch, scratches, low, f, FARTHEST)),
                    _ => $others(case, lent),
                }
            }
        }
    };
}

lines!(f64: isferghul_analyse, isferghul_synthesise, isferghul_convolve, wide);
lines!(f32: isferghul_analyse_f32, isferghul_synthesise_f32, isferghul_convolve_f32, narrow);

/// By bank, without a padded line, over levels and of planes.
fn wide(case: Case, lent: Lent<f64>) -> Calls<'static> {
    let Case { op, border, f, n, .. } = case;
    let Lent { low, high, line: (line, samples), bands: ([a, b, c, d], m), .. } = lent;
    let Lent { packed: (packed, packeds), out: (out, outs), second: (second, seconds), scratch: (scratch, scratches), .. } = lent;
    match op {
        Op::AnalysisByBank => calls_by_bank!(banked_analyse(border, low, f, high, f, line, samples, a, m, b, m, scratch, scratches)),
        Op::SynthesisByBank => calls_by_bank!(banked_synthesise(border, low, f, high, f, a, m, b, m, out, outs)),
        Op::AnalysisDirect => calls!(isferghul_analyse_directly(border, low, f, high, f, line, samples, a, m, b, m)),
        Op::SynthesisDirect => calls!(isferghul_synthesise_directly(low, f, high, f, a, m, b, m, out, outs)),
        Op::Refused => calls!(refused, isferghul_analyse(border, low, f, high, f, line, samples, a, m, b, m, scratch, scratches)),
        Op::RefusedDirect => calls!(refused, isferghul_analyse_directly(border, low, f, high, f, line, samples, a, m, b, m)),
        Op::Levels => calls!(isferghul_analyse_levels(border, low, f, high, f, line, samples, LEVELS, packed, packeds, scratch, scratches)),
        Op::Restoring => calls!(isferghul_restore_levels(low, f, high, f, packed, packeds, n, LEVELS, out, outs, second, seconds)),
        Op::RestoringDivided => calls!(isferghul_restore_divided(low, f, high, f, DIVISOR, packed, packeds, n, LEVELS, out, outs, second, seconds)),
        Op::PlaneAnalysis => calls!(isferghul_analyse_plane(border, low, f, high, f, line, samples, n, n, a, m, b, m, c, m, d, m, scratch, scratches)),
        Op::PlaneSynthesis => calls!(isferghul_synthesise_plane(low, f, high, f, a, m, b, m, c, m, d, m, n, n, out, outs, scratch, scratches)),
        _ => unreachable!("a line's operation"),
    }
}

/// There are lines alone, by tap lists.
fn narrow(_: Case, _: Lent<f32>) -> Calls<'static> {
    panic!("this operation has no 32-bit floats here")
}
