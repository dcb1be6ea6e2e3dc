//! Planes of many numbers there and back: a block fills the plane over and over, and digests tell its bands and the plane that they are joined to.
use crate::planes::{Plane, plane};
use crate::{Answer, NO_COUNTERPART, border, caught, numbered, one_nan};
use oracle::OscletError;

/// Of a list's bits, in their order, every NaN as one; below the exponent of a NaN.
fn digest(list: &[f64]) -> f64 {
    let mixed = list.iter().fold(0u64, |mixed, x| {
        let next = (mixed ^ one_nan(*x)).wrapping_mul(0x9E37_79B9_7F4A_7C15);
        next ^ next >> 32
    });
    f64::from_bits(mixed >> 2)
}

/// The bands of the plane, and the plane that they are joined to.
fn there_and_back(plane: &Plane, samples: &[f64], width: usize, height: usize, digests: &mut [f64]) -> Result<(), OscletError> {
    let made = plane.dwt(samples, width, height)?;
    let joined = plane.idwt(&made.to_filter_bank(), width, height)?;
    digests.copy_from_slice(&[made.ll_band, made.lh_band, made.hl_band, made.hh_band, joined].map(|list| digest(&list)));
    Ok(())
}

pub fn run(b: u64, [width, height]: [usize; 2], low: &[f64], high: &[f64], block: &[f64], digests: &mut [f64]) -> Answer {
    let Some(b) = border(b) else { return NO_COUNTERPART };
    let samples: Vec<f64> = block.iter().cycle().take(width * height).copied().collect();
    caught(|| numbered(there_and_back(&plane(b, low, high), &samples, width, height, digests)))
}
