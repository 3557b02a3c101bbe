//! The two forms of a sum of products, and of the fold of a pair: by the field's own calls, and with products that are reduced in
//! part.

use super::field::{P, folded, minus, of, plus, reduced_once, times};

/// A sum of products, and the arithmetic of the numbers that it is made of. They are residues, reduced as far as the form wants.
pub trait Products: Default {
    /// u + r·(w - u).
    fn fold(r: u64, u: u64, w: u64) -> u64;

    fn scale(factor: u64, u: u64) -> u64;

    fn difference(w: u64, u: u64) -> u64;

    fn add(&mut self, a: u64, b: u64);

    /// A number as the field's own calls want it.
    fn reduced(u: u64) -> u64;

    /// The sum as an element.
    fn total(&self) -> u64;
}

/// Reduced after each call.
#[derive(Default)]
pub struct Reduced(u64);

impl Products for Reduced {
    #[inline]
    fn fold(r: u64, u: u64, w: u64) -> u64 {
        plus(u, times(r, minus(w, u)))
    }

    #[inline]
    fn scale(factor: u64, u: u64) -> u64 {
        times(factor, u)
    }

    #[inline]
    fn difference(w: u64, u: u64) -> u64 {
        minus(w, u)
    }

    #[inline]
    fn add(&mut self, a: u64, b: u64) {
        self.0 = plus(self.0, times(a, b));
    }

    #[inline]
    fn reduced(u: u64) -> u64 {
        u
    }

    fn total(&self) -> u64 {
        self.0
    }
}

/// Folded numbers and scaled ones are at most P + 7, differences of two of them below 2^63, and the sum below 2^127.
#[derive(Default)]
pub struct Lazy(u128);

/// At most P + 7, for a number below 2^126.
#[inline]
fn nearly_reduced(product: u128) -> u64 {
    let once = folded(product);
    (once & P) + (once >> 61)
}

impl Products for Lazy {
    #[inline]
    fn fold(r: u64, u: u64, w: u64) -> u64 {
        nearly_reduced(u128::from(r) * u128::from(Lazy::difference(w, u)) + u128::from(u))
    }

    #[inline]
    fn scale(factor: u64, u: u64) -> u64 {
        nearly_reduced(u128::from(factor) * u128::from(u))
    }

    #[inline]
    fn difference(w: u64, u: u64) -> u64 {
        w + 2 * P - u
    }

    #[inline]
    fn add(&mut self, a: u64, b: u64) {
        self.0 += u128::from(a) * u128::from(b);
        // Of products so large two fit, and of most far more.
        if self.0 >> 127 != 0 {
            self.0 = (self.0 & u128::from(P)) + (self.0 >> 61);
        }
    }

    #[inline]
    fn reduced(u: u64) -> u64 {
        reduced_once(u)
    }

    fn total(&self) -> u64 {
        let (low, middle, high) = (self.0 as u64 & P, (self.0 >> 61) as u64 & P, (self.0 >> 122) as u64);
        of(of(low + middle) + high)
    }
}
