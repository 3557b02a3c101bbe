//! Arithmetic modulo 2^61 - 1.

/// The modulus.
pub const P: u64 = (1 << 61) - 1;

/// The residue of a number below twice the modulus.
pub fn reduced_once(x: u64) -> u64 {
    if x >= P { x - P } else { x }
}

pub fn of(x: u64) -> u64 {
    reduced_once((x & P) + (x >> 61))
}

/// The residue of a number whose absolute value is below the modulus.
pub fn of_signed(x: i64) -> u64 {
    if x < 0 { P - x.unsigned_abs() } else { x as u64 }
}

pub fn plus(a: u64, b: u64) -> u64 {
    reduced_once(a + b)
}

pub fn minus(a: u64, b: u64) -> u64 {
    reduced_once(a + (P - b))
}

pub fn times(a: u64, b: u64) -> u64 {
    reduced_once(folded_times(a, b))
}

/// A number below 2^64 with the residue of the product of a number and a residue. It is longer than the first factor by less than
/// 2^61, so that seven residues may be multiplied so.
pub fn folded_times(a: u64, b: u64) -> u64 {
    folded_eighth(u128::from(a) * u128::from(8 * b))
}

/// The same for eight times a number, which has the bits above its lowest 61 in a word of their own: no bits of two words are to be
/// put together.
pub fn folded_eighth(eightfold: u128) -> u64 {
    (eightfold >> 64) as u64 + (eightfold as u64 >> 3)
}

/// The same for any number below 2^125.
pub fn folded(product: u128) -> u64 {
    (product as u64 & P) + (product >> 61) as u64
}

/// A number just above 2^61 at most, with the same residue.
pub fn folded_once(x: u64) -> i64 {
    ((x & P) + (x >> 61)) as i64
}

/// The residue of a number of 128 bits.
pub fn of_wide_unsigned(sum: u128) -> u64 {
    let (low, middle, high) = (sum as u64 & P, (sum >> 61) as u64 & P, (sum >> 122) as u64);
    of(low + middle + high)
}

/// The residue of a sum whose absolute value is below 2^120.
pub fn of_wide(sum: i128) -> u64 {
    of_wide_unsigned((sum + (i128::from(P) << 64)) as u128)
}
