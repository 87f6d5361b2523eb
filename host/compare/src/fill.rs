//! What lent slices of floats hold before a call, as bits. The contracts know one NaN, so that the very same one comes back is seen here.
use crate::rng::Rng;

const SIGN: u64 = 1 << 63;
const EXPONENT: u64 = 0x7ff << 52;
const QUIET: u64 = 1 << 51;

/// The bits of a NaN, quiet or signalling and with any payload and sign, in more than half of the cases; of a zero, an infinity, a
/// subnormal or any other number in the rest.
fn float(rng: &mut Rng) -> u64 {
    let x = rng.next();
    let sign = x & SIGN;
    let payload = x & (QUIET - 1);
    match rng.below(10) {
        0..=2 => sign | EXPONENT | QUIET | payload,
        // a payload of 0 would be an infinity
        3..=5 => sign | EXPONENT | payload.max(1),
        6 => sign,
        7 => sign | EXPONENT,
        8 => sign | payload,
        _ => x,
    }
}

pub fn floats(rng: &mut Rng, n: usize) -> Vec<u64> {
    (0..n).map(|_| float(rng)).collect()
}

/// The same memory as floats.
pub fn as_floats(bits: &mut [u64]) -> &mut [f64] {
    // both have eight bytes and the same alignment, and any bits are a float
    unsafe { std::slice::from_raw_parts_mut(bits.as_mut_ptr().cast(), bits.len()) }
}
