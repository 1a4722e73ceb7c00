// A fraction as it is sent to the proved libraries and comes back: its sign, and its sizes in halves.
use crate::fractions::Frac;

#[repr(C)]
#[derive(Clone, Copy, PartialEq, Debug)]
pub struct Parts {
    negative: bool,
    num_high: u64,
    num_low: u64,
    den_high: u64,
    den_low: u64,
}

pub fn parts(x: &Frac) -> Parts {
    let size = x.num.unsigned_abs();
    Parts {
        negative: x.num < 0,
        num_high: (size >> 64) as u64,
        num_low: size as u64,
        den_high: (x.den >> 64) as u64,
        den_low: x.den as u64,
    }
}

#[allow(dead_code)]
pub fn frac(parts: &Parts) -> Frac {
    let size = ((parts.num_high as u128) << 64 | parts.num_low as u128) as i128;
    Frac {
        num: if parts.negative { -size } else { size },
        den: ((parts.den_high as u128) << 64 | parts.den_low as u128) as i128,
    }
}
