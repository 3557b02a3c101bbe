//! Both ends of a frequency moment: the claim and the polynomials, and their check.
//!
//! With S_j the sum of u^(k-j)·w^j over the pairs (u, w) of a level, coefficient m is C(k, m) times the m-th difference of S_0, .., S_k.
//! An entry whose neighbour is 0 counts in S_0 or S_k alone, and S_0 and S_k add up to what both ends expect, so that S_k needs no
//! products. A level is folded and the sums of the next are made in one pass; those of the first are in plain integers.

use super::field::{minus, of_signed, plus, times};
use super::products::Products;
use super::sums::{Level, Spot, fold_dense, if_even};
use super::vector::Entry;
use Level::{Dense, Whole};

pub const MOST_DEGREE: usize = 8;

/// The coefficients of a round polynomial, from c0 on; those above the degree are 0.
pub type Poly = [u64; MOST_DEGREE + 1];

pub fn value_at(poly: &[u64], x: u64) -> u64 {
    poly.iter().rev().fold(0, |value, &coefficient| plus(times(value, x), coefficient))
}

pub fn sum_of_ends(poly: &[u64]) -> u64 {
    poly.iter().fold(poly[0], |sum, &coefficient| plus(sum, coefficient))
}

/// The first powers of a number, from 1 on.
#[inline]
fn powers<S: Products, const K: usize>(x: u64) -> [u64; K] {
    // Eight times a factor has to fit in a word.
    let x = S::reduced(x);
    let mut powers = [1; K];
    for degree in 1..K {
        powers[degree] = if degree == 1 { x } else { times(powers[degree - 1], x) };
    }
    powers
}

/// S_0 to S_(K-1).
struct Sums<S, const K: usize>([S; K]);

impl<S: Products, const K: usize> Sums<S, K> {
    fn new() -> Sums<S, K> {
        Sums(std::array::from_fn(|_| S::default()))
    }

    #[inline]
    fn add_alone(&mut self, u: u64) {
        self.0[0].add(powers::<S, K>(u)[K - 1], u);
    }

    /// What a pair counts in all but S_0.
    #[inline]
    fn add_crosses(&mut self, u: u64, w: u64) {
        let (left, right) = (powers::<S, K>(u), powers::<S, K>(w));
        for (place, sum) in self.0.iter_mut().enumerate().skip(1) {
            sum.add(left[K - place], right[place]);
        }
    }

    #[inline]
    fn add_pair(&mut self, u: u64, w: u64) {
        self.add_alone(u);
        self.add_crosses(u, w);
    }

    fn poly(&self, expected: u64) -> Poly {
        poly_of(expected, self.0.each_ref().map(S::total))
    }
}

/// The polynomial of S_0 to S_(K-1).
fn poly_of<const K: usize>(expected: u64, sums: [u64; K]) -> Poly {
    let mut poly = [0; MOST_DEGREE + 1];
    poly[..K].copy_from_slice(&sums);
    poly[K] = minus(expected, sums[0]);
    for row in 1..=K {
        for place in (row..=K).rev() {
            poly[place] = minus(poly[place], poly[place - 1]);
        }
    }
    let mut binomial = 1;
    for (place, coefficient) in poly[..=K].iter_mut().enumerate() {
        *coefficient = times(binomial, *coefficient);
        binomial = binomial * (K - place) as u64 / (place + 1) as u64;
    }
    poly
}

/// What is kept of a moment that is proved.
pub struct Prover<'a> {
    /// How many places a level has.
    places: u64,
    degree: usize,
    poly: Poly,
    level: Level<'a>,
}

/// The moment, and the polynomial of a vector's own list. The moment is below 2^60, and so is each of these sums.
fn first_round<const K: usize>(list: &[Entry]) -> (i64, Poly) {
    let (mut claim, mut sums) = (0, [0; K]);
    let mut last = Entry { index: u64::MAX, value: 0 };
    for entry in list {
        let power = entry.value.pow(K as u32);
        claim += power;
        sums[0] += power & ((entry.index & 1) as i64 - 1);
        if last.index ^ 1 == entry.index {
            for (place, sum) in sums.iter_mut().enumerate().skip(1) {
                *sum += last.value.pow((K - place) as u32) * entry.value.pow(place as u32);
            }
        }
        last = *entry;
    }
    (claim, poly_of(of_signed(claim), sums.map(of_signed)))
}

/// Folds a level, and answers its polynomial.
fn fold<S: Products, const K: usize>(level: &mut Level, places: u64, r: u64, expected: u64) -> Poly {
    let mut sums = Sums::<S, K>::new();
    if let Dense(values) = level {
        fold_dense::<S>(values, r, |_, u, w| sums.add_pair(u, w));
    } else {
        let mut last = Spot { index: u64::MAX, value: 0 };
        let is_dense = level.len() as u64 > places / 2;
        level.fold_into::<S>(places, is_dense, r, |spot| {
            sums.add_alone(if_even(spot.index, spot.value));
            if last.index ^ 1 == spot.index {
                sums.add_crosses(last.value, spot.value);
            }
            last = spot;
        });
    }
    sums.poly(expected)
}

/// Calls a function of the degree, which is a constant in it.
macro_rules! with_degree {
    ($degree:expr, $function:ident::<$($design:ident)?>($($argument:expr),*)) => {
        match $degree {
            3 => $function::<$($design,)? 3>($($argument),*),
            4 => $function::<$($design,)? 4>($($argument),*),
            5 => $function::<$($design,)? 5>($($argument),*),
            6 => $function::<$($design,)? 6>($($argument),*),
            7 => $function::<$($design,)? 7>($($argument),*),
            _ => $function::<$($design,)? 8>($($argument),*),
        }
    };
}

impl<'a> Prover<'a> {
    /// The moment of a degree from 3 to 8, and what proves it. The list's weight to this power is below 2^60.
    pub fn new(depth: u32, list: &'a [Entry], degree: usize) -> (i64, Prover<'a>) {
        let (claim, poly) = with_degree!(degree, first_round::<>(list));
        (claim, Prover { places: 1 << depth, degree, poly, level: Whole(list) })
    }

    /// The polynomial of the present round.
    pub fn poly(&self) -> &[u64] {
        &self.poly[..=self.degree]
    }

    /// The same with zeros above the degree.
    pub fn padded_poly(&self) -> Poly {
        self.poly
    }

    /// Goes to the next round, of which there has to be one.
    pub fn learn<S: Products>(&mut self, r: u64) {
        let expected = value_at(self.poly(), r);
        self.places /= 2;
        self.poly = with_degree!(self.degree, fold::<S>(&mut self.level, self.places, r, expected));
    }
}

/// The check of a moment.
pub struct Check {
    expected: u64,
}

impl Check {
    pub fn new(claim: i64) -> Check {
        Check { expected: of_signed(claim) }
    }

    /// Whether a polynomial adds up to what is expected; its value at the challenge is expected next.
    pub fn round(&mut self, poly: &[u64], r: u64) -> bool {
        let adds_up = sum_of_ends(poly) == self.expected;
        self.expected = value_at(poly, r);
        adds_up
    }

    /// Whether the last value is the power of the extension.
    pub fn finish(self, extension: u64, degree: usize) -> bool {
        self.expected == (0..degree).fold(1, |power, _| times(power, extension))
    }
}
