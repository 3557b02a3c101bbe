//! The honest side of a sum: the claim, and the polynomial of each round. A level is folded and the next polynomial is made in one pass
//! over it. The first level is the vector's own list; a further one is a list of what is not 0, until it is a quarter full.
//!
//! The values of a polynomial at 0 and 1 add up to what is expected, which both ends know, so that c1 needs no products.

use super::field::{minus, of, of_signed, plus, times};
use super::interval::Interval;
use super::products::Products;
use super::vector::Entry;
use std::cell::Cell;
use std::ops::Range;

/// The coefficients of a round polynomial, from c0 on.
pub type Poly = [u64; 3];

pub fn value_at(poly: &Poly, x: u64) -> u64 {
    plus(poly[0], times(x, plus(poly[1], times(x, poly[2]))))
}

pub fn sum_of_ends(poly: &Poly) -> u64 {
    plus(plus(poly[0], poly[0]), plus(poly[1], poly[2]))
}

fn poly_of(expected: u64, c0: u64, c2: u64) -> Poly {
    [c0, minus(minus(expected, plus(c0, c0)), c2), c2]
}

/// A place of a level and what is there.
#[derive(Clone, Copy, Default)]
pub struct Spot {
    pub index: u64,
    pub value: u64,
}

impl From<Entry> for Spot {
    fn from(entry: Entry) -> Spot {
        Spot { index: entry.index, value: of_signed(entry.value) }
    }
}

/// A number for the even places, and 0 for the odd ones.
pub fn if_even(index: u64, value: u64) -> u64 {
    value & (index & 1).wrapping_sub(1)
}

/// Gives the spots of the next level, one after the other.
#[inline]
fn fold_spots<S: Products>(count: usize, spot: impl Fn(usize) -> Spot, r: u64, mut give: impl FnMut(Spot)) {
    let factors = [minus(1, r), r];
    let mut at = 0;
    while at < count {
        let Spot { index, value } = spot(at);
        at += 1;
        let has_other = index & 1 == 0 && at < count && spot(at).index == index + 1;
        let folded = if has_other {
            at += 1;
            S::fold(r, value, spot(at - 1).value)
        } else {
            S::scale(factors[(index & 1) as usize], value)
        };
        give(Spot { index: index >> 1, value: folded });
    }
}

/// One list, as far as it is folded.
pub enum Level<'a> {
    Whole(&'a [Entry]),
    Sparse(Vec<Spot>),
    Dense(Vec<u64>),
}

use Level::{Dense, Sparse, Whole};

impl Level<'_> {
    pub fn len(&self) -> usize {
        match self {
            Whole(list) => list.len(),
            Sparse(spots) => spots.len(),
            Dense(values) => values.len(),
        }
    }

    fn spot(&self, at: usize) -> Spot {
        match self {
            Whole(list) => list[at].into(),
            Sparse(spots) => spots[at],
            Dense(values) => Spot { index: at as u64, value: values[at] },
        }
    }

    /// The element at an index.
    fn at(&self, index: u64) -> u64 {
        match self {
            Whole(list) => list.binary_search_by_key(&index, |entry| entry.index).map_or(0, |at| of_signed(list[at].value)),
            Sparse(spots) => spots.binary_search_by_key(&index, |spot| spot.index).map_or(0, |at| of(spots[at].value)),
            Dense(values) => of(values[index as usize]),
        }
    }

    /// Folds a level that is not dense, into one of so many places that is dense or not, and gives its spots.
    pub fn fold_into<S: Products>(&mut self, places: u64, is_dense: bool, r: u64, mut each: impl FnMut(Spot)) {
        if is_dense {
            let mut values = vec![0; places as usize];
            let give = |spot: Spot| {
                values[spot.index as usize] = spot.value;
                each(spot);
            };
            match self {
                Whole(list) => fold_spots::<S>(list.len(), |at| list[at].into(), r, give),
                Sparse(spots) => fold_spots::<S>(spots.len(), |at| spots[at], r, give),
                Dense(_) => {}
            }
            *self = Dense(values);
            return;
        }
        match self {
            Whole(list) => {
                let mut spots = Vec::with_capacity(list.len());
                let give = |spot| {
                    spots.push(spot);
                    each(spot);
                };
                fold_spots::<S>(list.len(), |at| list[at].into(), r, give);
                *self = Sparse(spots);
            }
            Sparse(spots) => {
                let mut count = 0;
                let cells = Cell::from_mut(&mut spots[..]).as_slice_of_cells();
                let give = |spot| {
                    cells[count].set(spot);
                    count += 1;
                    each(spot);
                };
                fold_spots::<S>(cells.len(), |at| cells[at].get(), r, give);
                spots.truncate(count);
            }
            Dense(_) => {}
        }
    }
}

/// Folds a dense level, and gives each pair of the next one.
#[inline]
pub fn fold_dense<S: Products>(values: &mut Vec<u64>, r: u64, mut each: impl FnMut(u64, u64, u64)) {
    let pairs = values.len() / 4;
    for pair in 0..pairs {
        let [a, b, c, d] = *values[4 * pair..].first_chunk().unwrap();
        let (u, w) = (S::fold(r, a, b), S::fold(r, c, d));
        values[2 * pair] = u;
        values[2 * pair + 1] = w;
        each(pair as u64, u, w);
    }
    values.truncate(2 * pairs);
}

/// The same of two levels of one length.
#[inline]
fn fold_both<S: Products>(first: &mut Vec<u64>, second: &mut Vec<u64>, r: u64, mut each: impl FnMut([u64; 2], [u64; 2])) {
    let pairs = first.len() / 4;
    let folded = |values: &mut [u64], pair: usize| {
        let [a, b, c, d] = *values[4 * pair..].first_chunk().unwrap();
        let (u, w) = (S::fold(r, a, b), S::fold(r, c, d));
        values[2 * pair] = u;
        values[2 * pair + 1] = w;
        [u, w]
    };
    for pair in 0..pairs {
        each(folded(first, pair), folded(second, pair));
    }
    first.truncate(2 * pairs);
    second.truncate(2 * pairs);
}

/// Gives the pairs of neighbours that two rising lists both have something in.
#[inline]
fn join<V: Copy + Default>(
    counts: [usize; 2],
    first: impl Fn(usize) -> (u64, V),
    second: impl Fn(usize) -> (u64, V),
    mut each: impl FnMut([V; 2], [V; 2]),
) {
    fn pair<V: Copy + Default>(at: &mut usize, count: usize, get: &impl Fn(usize) -> (u64, V)) -> [V; 2] {
        let mut pair = [V::default(); 2];
        let place = get(*at).0 >> 1;
        while *at < count && get(*at).0 >> 1 == place {
            let (index, value) = get(*at);
            pair[(index & 1) as usize] = value;
            *at += 1;
        }
        pair
    }
    let (mut i, mut j) = (0, 0);
    while i < counts[0] && j < counts[1] {
        let (a, b) = (first(i).0 >> 1, second(j).0 >> 1);
        if a == b {
            each(pair(&mut i, counts[0], &first), pair(&mut j, counts[1], &second));
        } else {
            // Which of them is behind is as good as random, so there is no branch on it.
            i += usize::from(a < b);
            j += usize::from(b < a);
        }
    }
}

/// The second list.
enum Second<'a> {
    Same,
    Other(Level<'a>),
    Within(Interval),
}

use Second::{Other, Same, Within};

/// What is kept of a sum that is proved.
pub struct Prover<'a> {
    /// How many places a level has, and what the next polynomial's values at 0 and 1 add up to.
    places: u64,
    poly: Poly,
    first: Level<'a>,
    second: Second<'a>,
}

fn squares(list: &[Entry]) -> (i64, Poly) {
    let (mut claim, mut even, mut cross) = (0, 0, 0);
    let mut last = Entry { index: u64::MAX, value: 0 };
    for entry in list {
        let square = entry.value * entry.value;
        claim += square;
        even += square & ((entry.index & 1) as i64 - 1);
        if last.index ^ 1 == entry.index {
            cross += last.value * entry.value;
        }
        last = *entry;
    }
    (claim, poly_of(of_signed(claim), of_signed(even), element_of(i128::from(claim) - 2 * i128::from(cross))))
}

/// The element of a number whose absolute value is below 2^63.
fn element_of(number: i128) -> u64 {
    let size = of(number.unsigned_abs() as u64);
    if number < 0 { minus(0, size) } else { size }
}

fn products(first: &[Entry], second: &[Entry]) -> (i64, Poly) {
    let (mut claim, mut even, mut differences) = (0, 0, 0);
    let of_list = |list: &[Entry], at: usize| (list[at].index, list[at].value);
    join([first.len(), second.len()], |at| of_list(first, at), |at| of_list(second, at), |[u, w]: [i64; 2], [v, x]| {
        claim += u * v + w * x;
        even += u * v;
        differences += (w - u) * (x - v);
    });
    (claim, poly_of(of_signed(claim), of_signed(even), element_of(i128::from(differences))))
}

/// The pairs that lie within an interval and have no end of it.
fn inner_pairs(interval: &Interval) -> Range<u64> {
    (interval.lo >> 1) + 1..interval.hi >> 1
}

/// The polynomial of a level and an interval, of the sum of what is at the even places within its inner pairs.
fn within(expected: u64, inner: u64, level: &Level, interval: &Interval) -> Poly {
    let (mut c0, mut c2) = (inner, 0);
    let (lo, hi) = (interval.lo >> 1, interval.hi >> 1);
    let mut add = |pair: u64| {
        let ([v, x], [u, w]) = (interval.pair(pair), [2 * pair, 2 * pair + 1].map(|place| of(level.at(place))));
        c0 = plus(c0, times(u, v));
        c2 = plus(c2, times(minus(w, u), minus(x, v)));
    };
    add(lo);
    if hi > lo {
        add(hi);
    }
    poly_of(expected, c0, c2)
}

fn within_whole(list: &[Entry], interval: &Interval) -> (i64, Poly) {
    let from = list.partition_point(|entry| entry.index < interval.lo);
    let to = list.partition_point(|entry| entry.index <= interval.hi);
    let pairs = inner_pairs(interval);
    let (mut claim, mut even) = (0, 0);
    for entry in &list[from..to] {
        claim += entry.value;
        let is_even = pairs.contains(&(entry.index >> 1)) & (entry.index & 1 == 0);
        even += entry.value & -i64::from(is_even);
    }
    (claim, within(of_signed(claim), of_signed(even), &Whole(list), interval))
}

impl<'a> Prover<'a> {
    fn begin(depth: u32, list: &'a [Entry], second: Second<'a>, poly: Poly) -> Prover<'a> {
        Prover { places: 1 << depth, poly, first: Whole(list), second }
    }

    /// The sum of squares, and what proves it.
    pub fn squares(depth: u32, list: &'a [Entry]) -> (i64, Prover<'a>) {
        let (claim, poly) = squares(list);
        (claim, Prover::begin(depth, list, Same, poly))
    }

    pub fn products(depth: u32, first: &'a [Entry], second: &'a [Entry]) -> (i64, Prover<'a>) {
        let (claim, poly) = products(first, second);
        (claim, Prover::begin(depth, first, Other(Whole(second)), poly))
    }

    pub fn range(depth: u32, list: &'a [Entry], lo: u64, hi: u64) -> (i64, Prover<'a>) {
        let interval = Interval::new(lo, hi);
        let (claim, poly) = within_whole(list, &interval);
        (claim, Prover::begin(depth, list, Within(interval), poly))
    }

    /// The polynomial of the present round.
    pub fn poly(&self) -> &Poly {
        &self.poly
    }

    /// Goes to the next round, of which there has to be one.
    pub fn learn<S: Products>(&mut self, r: u64) {
        let expected = value_at(&self.poly, r);
        self.places /= 2;
        let places = self.places;
        self.poly = match &mut self.second {
            Same => fold_squares::<S>(&mut self.first, places, r, expected),
            Other(second) => fold_products::<S>(&mut self.first, second, places, r, expected),
            Within(interval) => {
                interval.fold(r);
                fold_within::<S>(&mut self.first, interval, places, r, expected)
            }
        };
    }
}

/// c0 is the sum of squares at even places. All squares together are what is expected, and c2 is that less twice the products of
/// neighbours.
fn fold_squares<S: Products>(level: &mut Level, places: u64, r: u64, expected: u64) -> Poly {
    let (mut even, mut cross) = (S::default(), S::default());
    if let Dense(values) = level {
        fold_dense::<S>(values, r, |_, u, w| {
            even.add(u, u);
            cross.add(u, w);
        });
    } else {
        let mut last = Spot { index: u64::MAX, value: 0 };
        let is_dense = level.len() as u64 > places / 2;
        level.fold_into::<S>(places, is_dense, r, |spot| {
            even.add(if_even(spot.index, spot.value), spot.value);
            if last.index ^ 1 == spot.index {
                cross.add(last.value, spot.value);
            }
            last = spot;
        });
    }
    let cross = cross.total();
    poly_of(expected, even.total(), minus(expected, plus(cross, cross)))
}

/// Two lists become dense together, where together they fill a quarter. Until then few pairs have something in both, and a pass of
/// its own finds them faster.
fn fold_products<S: Products>(first: &mut Level, second: &mut Level, places: u64, r: u64, expected: u64) -> Poly {
    let (mut even, mut differences) = (S::default(), S::default());
    let mut add = |[u, w]: [u64; 2], [v, x]: [u64; 2]| {
        even.add(u, v);
        differences.add(S::difference(w, u), S::difference(x, v));
    };
    if let (Dense(first), Dense(second)) = (&mut *first, &mut *second) {
        fold_both::<S>(first, second, r, add);
    } else {
        let is_dense = (first.len() + second.len()) as u64 > places;
        first.fold_into::<S>(places, is_dense, r, |_| ());
        second.fold_into::<S>(places, is_dense, r, |_| ());
        match (&*first, &*second) {
            (Dense(first), Dense(second)) => {
                for (a, b) in first.chunks_exact(2).zip(second.chunks_exact(2)) {
                    add([a[0], a[1]], [b[0], b[1]]);
                }
            }
            (first, second) => {
                let get = |level: &Level, at| {
                    let spot = level.spot(at);
                    (spot.index, spot.value)
                };
                join([first.len(), second.len()], |at| get(first, at), |at| get(second, at), add);
            }
        }
    }
    poly_of(expected, even.total(), differences.total())
}

/// Within the inner pairs the second list is 1, so that c0 is a sum and c2 is 0.
fn fold_within<S: Products>(level: &mut Level, interval: &Interval, places: u64, r: u64, expected: u64) -> Poly {
    let pairs = inner_pairs(interval);
    let mut even = 0u128;
    if let Dense(values) = level {
        fold_dense::<S>(values, r, |pair, u, _| {
            if pairs.contains(&pair) {
                even += u128::from(u);
            }
        });
    } else {
        let is_dense = level.len() as u64 > places / 2;
        level.fold_into::<S>(places, is_dense, r, |spot| {
            if pairs.contains(&(spot.index >> 1)) {
                even += u128::from(if_even(spot.index, spot.value));
            }
        });
    }
    within(expected, (even % u128::from(super::field::P)) as u64, level, interval)
}
