//! The Rust: its public calls with the bank in hand, lent what they take and allocating what they allocate.
use crate::work::{Call, Case, FARTHEST, Float, LEVELS, Op, Work, half};
use oracle::made::Made;
use oracle::{BorderMode, FilterBank2D, MultiDwt, MultiLevelDwtRef};

/// In the order of their numbers. It has no mirror: for each stands the border that gives the same numbers while a pad is short.
const BORDERS: [BorderMode; 7] = [
    BorderMode::Clamp,
    BorderMode::Wrap,
    BorderMode::Reflect,
    BorderMode::Zeros,
    BorderMode::Reflect101,
    // Mirror, up to n places past the line
    BorderMode::Reflect,
    // Mirror101, up to n - 2 places past it
    BorderMode::Reflect101,
];
const DONE: &str = "the Rust is done";

/// What calls over levels return; it is dropped when the next call is made.
#[derive(Default)]
pub struct Returned<T> {
    made: Option<MultiDwt<T>>,
    restored: Option<Vec<T>>,
}

impl<T: Float> Returned<T> {
    /// Puts what was returned where the other side writes it.
    pub fn put(self, w: &mut Work<T>) {
        if let Some(made) = &self.made {
            let parts = made.to_ref();
            w.packed = [parts.details.concat(), parts.approximations.to_vec()].concat();
        }
        if let Some(restored) = self.restored {
            w.out = restored;
        }
    }
}

/// A packed buffer's parts, which the Rust takes one by one.
fn parts<T>(packed: &[T], mut n: usize, f: usize) -> MultiLevelDwtRef<'_, T> {
    let (mut left, mut details) = (packed, vec![]);
    for _ in 0..LEVELS {
        n = half(n, f);
        let (part, rest) = left.split_at(n);
        details.push(part);
        left = rest;
    }
    MultiLevelDwtRef { approximations: left, details }
}

/// The call of a case.
pub fn call<'a, T: Float + Made>(case: Case, w: &'a mut Work<T>, returned: &'a mut Returned<T>) -> Call<'a> {
    let (n, border) = (case.n, BORDERS[case.border]);
    let bank = T::bank(border, &w.low, &w.high);
    let (low, line, packed) = (&w.low[..], &w.line[..], &w.packed[..]);
    let (bands, out, scratch) = (&mut w.bands[..], &mut w.out[..], &mut w.scratch[..]);
    match case.op {
        Op::Analysis | Op::AnalysisByBank | Op::AnalysisDirect => {
            let [approx, detail] = bands else { unreachable!() };
            Box::new(move || bank.execute_forward_with_scratch(line, approx, detail, scratch).expect(DONE))
        }
        Op::Synthesis | Op::SynthesisByBank | Op::SynthesisDirect => {
            let [approx, detail] = bands else { unreachable!() };
            Box::new(move || bank.execute_inverse(approx, detail, out).expect(DONE))
        }
        Op::Refused | Op::RefusedDirect => panic!("what the Rust does to refuse is not asked"),
        Op::RestoringDivided => panic!("the Rust does not divide"),
        Op::Convolution => {
            let convolve = T::convolution(border);
            Box::new(move || convolve(line, out, scratch, low, 0).expect(DONE))
        }
        Op::LongestLeft => {
            let convolve = T::convolution(border);
            Box::new(move || convolve(line, out, scratch, low, -FARTHEST as isize).expect(DONE))
        }
        Op::LongestRight => {
            let convolve = T::convolution(border);
            Box::new(move || convolve(line, out, scratch, low, FARTHEST as isize).expect(DONE))
        }
        Op::Levels => Box::new(move || {
            returned.made = None;
            returned.made = Some(bank.multi_dwt(line, LEVELS).expect(DONE));
        }),
        Op::Restoring => {
            let parts = parts(packed, n, low.len());
            Box::new(move || {
                returned.restored = None;
                returned.restored = Some(bank.multi_idwt(&parts).expect(DONE));
            })
        }
        Op::PlaneAnalysis => {
            let plane = T::plane(bank);
            let [ll, lh, hl, hh] = bands else { unreachable!() };
            Box::new(move || plane.execute_forward(line, n, n, ll, lh, hl, hh, scratch).expect(DONE))
        }
        Op::PlaneSynthesis => {
            let plane = T::plane(bank);
            let [ll_band, lh_band, hl_band, hh_band] = bands else { unreachable!() };
            let bands = FilterBank2D { ll_band, lh_band, hl_band, hh_band };
            let added_onto = plane.required_scratch_size(n, n) / 2;
            Box::new(move || {
                // it adds onto the plane and the front half of the scratch; its `idwt` clears all of both
                out.fill(T::default());
                scratch[..added_onto].fill(T::default());
                plane.execute_inverse(out, &bands, n, n, scratch).expect(DONE)
            })
        }
    }
}
