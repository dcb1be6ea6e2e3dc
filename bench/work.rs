//! What one case reads and writes: the same numbers and the same buffers for both sides, made before anything is counted.

#[derive(Clone, Copy)]
pub enum Op {
    Analysis,
    AnalysisByBank,
    /// By the engine that pads no line.
    AnalysisDirect,
    Synthesis,
    SynthesisByBank,
    SynthesisDirect,
    /// An analysis of a line that is shorter than the taps.
    Refused,
    RefusedDirect,
    Convolution,
    /// A convolution with the longest pad on one side, and none on the other.
    LongestLeft,
    LongestRight,
    Levels,
    Restoring,
    /// Each joined line divided.
    RestoringDivided,
    PlaneAnalysis,
    PlaneSynthesis,
}

/// The names that measure.py uses.
pub const OPS: [(&str, Op); 16] = [
    ("analysis", Op::Analysis),
    ("analysis-by-bank", Op::AnalysisByBank),
    ("analysis-direct", Op::AnalysisDirect),
    ("synthesis", Op::Synthesis),
    ("synthesis-by-bank", Op::SynthesisByBank),
    ("synthesis-direct", Op::SynthesisDirect),
    ("refused", Op::Refused),
    ("refused-direct", Op::RefusedDirect),
    ("convolution", Op::Convolution),
    ("longest-left", Op::LongestLeft),
    ("longest-right", Op::LongestRight),
    ("levels", Op::Levels),
    ("restoring", Op::Restoring),
    ("restoring-divided", Op::RestoringDivided),
    ("plane-analysis", Op::PlaneAnalysis),
    ("plane-synthesis", Op::PlaneSynthesis),
];

/// In the order of their numbers.
pub const BORDERS: [&str; 7] = ["Clamp", "Wrap", "Reflect", "Zeros", "Reflect101", "Mirror", "Mirror101"];

pub const LEVELS: usize = 5;

/// What each joined line is divided by.
pub const DIVISOR: f64 = 50.0;

/// The centre that is farthest from 0, of 64 taps.
pub const FARTHEST: i64 = 63;

#[derive(Clone, Copy)]
pub struct Case {
    pub op: Op,
    /// Whether its numbers have 32 bits.
    pub narrow: bool,
    /// The border's number.
    pub border: usize,
    /// Taps of either list, or of the kernel.
    pub f: usize,
    /// Samples of the line, or of a side of the plane.
    pub n: usize,
}

impl Case {
    pub fn samples(self) -> usize {
        match self.op {
            Op::PlaneAnalysis | Op::PlaneSynthesis => self.n * self.n,
            _ => self.n,
        }
    }

    /// Whether this library makes a bank before the calls.
    pub fn by_bank(self) -> bool {
        matches!(self.op, Op::AnalysisByBank | Op::SynthesisByBank)
    }
}

pub type Call<'a> = Box<dyn FnMut() + 'a>;
/// A case's call, made as often as it is told.
pub type Calls<'a> = Box<dyn FnMut(usize) + 'a>;

/// Not inlined, so that nothing of a call is done once for all.
#[inline(never)]
pub fn repeated(mut call: Call<'_>) -> Calls<'_> {
    Box::new(move |times| (0..times).for_each(|_| call()))
}

/// A width of numbers.
pub trait Float: Copy + Default {
    /// The nearest number of this width.
    fn nearest(number: f64) -> Self;
    fn bits(self) -> u64;
}

impl Float for f64 {
    fn nearest(number: f64) -> f64 {
        number
    }

    fn bits(self) -> u64 {
        self.to_bits()
    }
}

impl Float for f32 {
    fn nearest(number: f64) -> f32 {
        number as f32
    }

    fn bits(self) -> u64 {
        self.to_bits().into()
    }
}

#[derive(Default)]
pub struct Work<T> {
    pub low: Vec<T>,
    pub high: Vec<T>,
    /// The line or the plane that is split or convolved.
    pub line: Vec<T>,
    /// The two bands of a line, or the four of a plane.
    pub bands: Vec<Vec<T>>,
    /// Details level by level, then the last approximations.
    pub packed: Vec<T>,
    /// What is joined or convolved; restoring's first buffer.
    pub out: Vec<T>,
    /// Restoring's second buffer.
    pub second: Vec<T>,
    pub scratch: Vec<T>,
}

/// Numbers from -1/2 to 1/2, one after another.
struct Numbers(u64);

impl Numbers {
    fn next(&mut self) -> f64 {
        self.0 = self.0.wrapping_mul(6364136223846793005).wrapping_add(1442695040888963407);
        // a number from 1 to below 2 has these upper bits
        f64::from_bits(0x3FF << 52 | self.0 >> 12) - 1.5
    }

    fn list<T: Float>(&mut self, count: usize) -> Vec<T> {
        (0..count).map(|_| T::nearest(self.next())).collect()
    }
}

/// A buffer to be written. It holds something already, so that a place left out or added onto shows.
fn held<T: Float>(count: usize) -> Vec<T> {
    vec![T::nearest(0.25); count]
}

/// How long a band of n samples by f taps is.
pub fn half(n: usize, f: usize) -> usize {
    (n + f - 1) / 2
}

fn padded(n: usize, f: usize) -> usize {
    2 * half(n, f) + f - 2
}

fn plane_scratch(n: usize, f: usize) -> usize {
    4 * half(n, f) * n + padded(n, f)
}

fn packed(n: usize, f: usize) -> usize {
    let lengths = std::iter::successors(Some(half(n, f)), |m| Some(half(*m, f))).take(LEVELS);
    let (whole, last) = lengths.fold((0, 0), |(whole, _), m| (whole + m, m));
    whole + last
}

impl<T: Float> Work<T> {
    pub fn new(case: Case) -> Work<T> {
        let Case { op, f, n, .. } = case;
        let mut numbers = Numbers(1);
        let mut w = Work { low: numbers.list(f), high: numbers.list(f), ..Work::default() };
        let m = half(n, f);
        let mut list = |count| numbers.list(count);
        match op {
            Op::Analysis | Op::AnalysisByBank | Op::AnalysisDirect | Op::Refused | Op::RefusedDirect => (w.line, w.bands, w.scratch) = (list(n), vec![held(m); 2], held(padded(n, f))),
            Op::Synthesis | Op::SynthesisByBank | Op::SynthesisDirect => (w.bands, w.out) = (vec![list(m), list(m)], held(n)),
            Op::Convolution | Op::LongestRight => (w.line, w.out, w.scratch) = (list(n), held(n), held(n + f)),
            Op::LongestLeft => (w.line, w.out, w.scratch) = (list(n), held(n), held(n + f / 2 - 1 + FARTHEST as usize)),
            Op::Levels => (w.line, w.packed, w.scratch) = (list(n), held(packed(n, f)), held(padded(n, f) + 2 * m)),
            Op::Restoring | Op::RestoringDivided => (w.packed, w.out, w.second) = (list(packed(n, f)), held(n), held(n)),
            Op::PlaneAnalysis => (w.line, w.bands, w.scratch) = (list(n * n), vec![held(m * m); 4], held(plane_scratch(n, f))),
            Op::PlaneSynthesis => (w.bands, w.out, w.scratch) = ((0..4).map(|_| list(m * m)).collect(), held(n * n), held(plane_scratch(n, f))),
        }
        w
    }

    /// All that the case's caller is given, as bits.
    pub fn given(self, op: Op) -> Vec<u64> {
        let given = match op {
            Op::Analysis | Op::AnalysisByBank | Op::AnalysisDirect | Op::Refused | Op::RefusedDirect | Op::PlaneAnalysis => self.bands.concat(),
            Op::Levels => self.packed,
            _ => self.out,
        };
        given.into_iter().map(T::bits).collect()
    }
}
