// The check by its published definition: the polynomials of its lengths, the remainder that they leave,
// and the sequence that they must divide.

use crate::limits::leading_ones;

/// The powers of D in the check polynomial of length r (3GPP TS 38.212, clause 5.1).
pub fn polynomial(r: usize) -> Option<&'static [usize]> {
    match r {
        0 => Some(&[0]),
        6 => Some(&[6, 5, 0]),
        11 => Some(&[11, 10, 9, 5, 0]),
        _ => None,
    }
}

/// The remainder, r bits, of a sequence whose first bit stands at the highest power,
/// by schoolbook long division.
pub fn remainder(sequence: &[bool], r: usize) -> Vec<bool> {
    let powers = polynomial(r).expect("a check length of the scope");
    let mut left = sequence.to_vec();
    let quotient_bits = left.len().saturating_sub(r);
    for t in 0..quotient_bits {
        if left[t] {
            for power in powers {
                left[t + r - power] ^= true;
            }
        }
    }
    left.split_off(quotient_bits)
}

/// The sequence that the check polynomial must divide: r ones, then the K free bits.
pub fn checked_sequence(free_bits: &[bool], r: usize) -> Vec<bool> {
    let mut sequence = vec![true; leading_ones(r)];
    sequence.extend(free_bits);
    sequence
}
