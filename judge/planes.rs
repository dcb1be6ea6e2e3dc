//! The Rust's planes. `execute_inverse` adds onto what scratch and target hold; it is lent cleared ones, as `idwt` does.
use crate::operations::{PLANE_BAND_HEIGHT, PLANE_BAND_LENGTH, PLANE_BAND_WIDTH};
use crate::{Answer, MOST_TAPS, NO_COUNTERPART, border, caught, length, numbered, parted};
use oracle::{BorderMode, Dwt2DExecutor, FilterBank2D, OscletError, dwt_length, oracle as rust};
use std::sync::Arc;

pub type Plane = Arc<dyn Dwt2DExecutor<f64> + Send + Sync>;

pub fn plane(b: BorderMode, low: &[f64], high: &[f64]) -> Plane {
    rust::plane(rust::bank(b, low, high))
}

pub fn analyse(b: u64, [width, height]: [usize; 2], low: &[f64], high: &[f64], samples: &[f64], lent: &mut [Vec<f64>]) -> Answer {
    let Some(b) = border(b) else { return NO_COUNTERPART };
    if low.len() != high.len() {
        return NO_COUNTERPART;
    }
    let [ll, lh, hl, hh, scratch] = lent else { unreachable!() };
    caught(|| numbered(plane(b, low, high).execute_forward(samples, width, height, ll, lh, hl, hh, scratch)))
}

/// The four bands of a case.
pub fn bank_of(bands: &[Vec<f64>; 4]) -> FilterBank2D<'_, f64> {
    let [ll_band, lh_band, hl_band, hh_band] = bands;
    FilterBank2D { ll_band, lh_band, hl_band, hh_band }
}

/// What was written onto zeros, into a buffer that held something else.
fn put_written(buffer: &mut [f64], cleared: &[f64]) {
    for (place, written) in buffer.iter_mut().zip(cleared).filter(|(_, written)| written.to_bits() != 0) {
        *place = *written;
    }
}

/// The answer, and how many places of the target become another number where neither it nor the scratch is cleared.
pub fn synthesise([width, height]: [usize; 2], low: &[f64], high: &[f64], bands: &[Vec<f64>; 4], lent: &mut [Vec<f64>]) -> (Answer, usize) {
    if low.len() != high.len() {
        return (NO_COUNTERPART, 0);
    }
    let mut dirty = lent.to_vec();
    let mut cleared: Vec<Vec<f64>> = lent.iter().map(|buffer| vec![0.0; buffer.len()]).collect();
    let bank = bank_of(bands);
    // synthesis looks at no border
    let join = |buffers: &mut [Vec<f64>]| -> Result<(), OscletError> {
        let [target, scratch] = buffers else { unreachable!() };
        plane(BorderMode::Clamp, low, high).execute_inverse(target, &bank, width, height, scratch)
    };
    let answer = caught(|| numbered(join(&mut cleared)));
    put_written(&mut lent[1], &cleared[1]);
    if answer.0 != 0 {
        put_written(&mut lent[0], &cleared[0]);
        return (answer, 0);
    }
    let by_itself = plane(BorderMode::Clamp, low, high).idwt(&bank, width, height).expect("idwt is done too");
    assert!(parted(&by_itself, &cleared[0]) == 0, "idwt is not execute_inverse onto zeros");
    join(&mut dirty).expect("what a buffer holds is not tested");
    let differ = parted(&dirty[0], &cleared[0]);
    lent[0] = cleared.swap_remove(0);
    (answer, differ)
}

/// The questions of sizes: a band's width, its height, its length, the scratch.
pub fn asked(op: u64, width: usize, height: usize, f: usize) -> Answer {
    match op {
        PLANE_BAND_WIDTH => length(|| dwt_length(width, f)),
        PLANE_BAND_HEIGHT => length(|| dwt_length(height, f)),
        PLANE_BAND_LENGTH => length(|| dwt_length(width, f) * dwt_length(height, f)),
        _ if f > MOST_TAPS => NO_COUNTERPART,
        _ => length(|| plane(BorderMode::Clamp, &vec![0.0; f], &vec![0.0; f]).required_scratch_size(width, height)),
    }
}
