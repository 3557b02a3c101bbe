//! Running numbers, one or several, that are fed with the same blocks, each with challenges of its own. Their tables are kept from
//! block to block.

use super::blocks::{self, BYTE, ENTRIES, Seat, Step, StepTable, Table, product_table, step_table, with_count};
use super::field::{folded_eighth, minus, of, of_wide_unsigned, plus, times};
use super::streams::Update;

/// Numbers of one kind.
pub trait Many {
    /// Those of zeros, one for each seat.
    fn of(seats: Vec<Seat>) -> Self
    where
        Self: Sized;

    /// Gives a block of updates to each of them.
    fn update_all(&mut self, block: &[Update]);

    fn values(&self) -> &[u64];
}

/// Which number it is.
pub trait Kind {
    type Table;

    fn tables(seat: &[u64]) -> Vec<Self::Table>;

    /// The number after a block.
    fn after(tables: &[Self::Table], value: u64, block: &[Update]) -> u64;
}

pub struct Root;

impl Kind for Root {
    type Table = Table;

    fn tables(seat: &[u64]) -> Vec<Table> {
        blocks::product_tables(seat, true)
    }

    fn after(tables: &[Table], value: u64, block: &[Update]) -> u64 {
        blocks::product_sum(tables, value, block)
    }
}

pub struct Point;

impl Kind for Point {
    type Table = Table;

    fn tables(seat: &[u64]) -> Vec<Table> {
        blocks::product_tables(seat, false)
    }

    fn after(tables: &[Table], value: u64, block: &[Update]) -> u64 {
        blocks::product_sum(tables, value, block)
    }
}

pub struct AugRoot;

impl Kind for AugRoot {
    type Table = StepTable;

    fn tables(seat: &[u64]) -> Vec<StepTable> {
        blocks::step_tables(seat)
    }

    fn after(tables: &[StepTable], value: u64, block: &[Update]) -> u64 {
        blocks::hash_sum(tables, value, block)
    }
}

/// The numbers by the field's own `times` and `plus`.
pub struct Kept<K: Kind> {
    tables: Vec<Vec<K::Table>>,
    values: Vec<u64>,
}

impl<K: Kind> Many for Kept<K> {
    fn of(seats: Vec<Seat>) -> Self {
        Kept { values: vec![0; seats.len()], tables: seats.iter().map(|seat| K::tables(seat)).collect() }
    }

    fn update_all(&mut self, block: &[Update]) {
        for (tables, value) in self.tables.iter().zip(&mut self.values) {
            *value = K::after(tables, *value, block);
        }
    }

    fn values(&self) -> &[u64] {
        &self.values
    }
}

/// Roots, or extensions, with products that are reduced in part. The factors in their tables are eight times as large, which spares
/// each product a shift.
pub struct LazyProducts<const IS_TREE: bool> {
    tables: Vec<Vec<Table>>,
    values: Vec<u64>,
}

/// The sum of products of 64 by 64 bits, as two sums of 64 bits each.
#[derive(Default)]
struct Sum {
    low: u128,
    high: u128,
    /// The sum of the weights: each was taken 2^63 times too often.
    weights: u128,
}

impl Sum {
    #[inline(always)]
    fn add(&mut self, weight: u64, delta: i64) {
        let product = u128::from(weight) * u128::from(delta as u64 ^ 1 << 63);
        self.low += product & u128::from(u64::MAX);
        self.high += product >> 64;
        self.weights += u128::from(weight);
    }

    /// 2^64 is 8 modulo 2^61 - 1, and 2^63 is 4.
    fn total(&self) -> u64 {
        let raised = plus(of_wide_unsigned(self.low), times(8, of_wide_unsigned(self.high)));
        minus(raised, times(4, of_wide_unsigned(self.weights)))
    }
}

fn product_sum<const COUNT: usize>(tables: &[Table], block: &[Update]) -> u64 {
    let tables: &[Table; COUNT] = tables.try_into().unwrap();
    let mut sum = Sum::default();
    for update in block {
        let bytes = update.item.to_le_bytes();
        let mut weight = tables[0][usize::from(bytes[0])] / 8;
        for group in 1..COUNT {
            weight = folded_eighth(u128::from(weight) * u128::from(tables[group][usize::from(bytes[group])]));
        }
        sum.add(weight, update.delta);
    }
    sum.total()
}

impl<const IS_TREE: bool> Many for LazyProducts<IS_TREE> {
    fn of(seats: Vec<Seat>) -> Self {
        let table = |challenges: &[u64]| product_table(challenges, IS_TREE).map(|entry| 8 * entry);
        let tables = |seat: &Seat| seat.chunks(BYTE).map(table).collect();
        LazyProducts { tables: seats.iter().map(tables).collect(), values: vec![0; seats.len()] }
    }

    fn update_all(&mut self, block: &[Update]) {
        for (tables, value) in self.tables.iter().zip(&mut self.values) {
            *value = plus(*value, with_count!(tables, product_sum(tables, block)));
        }
    }

    fn values(&self) -> &[u64] {
        &self.values
    }
}

/// The same for augmented roots: a step's scale is eight times as large.
pub struct LazySteps {
    tables: Vec<Vec<StepTable>>,
    values: Vec<u64>,
}

fn scaled(table: StepTable) -> StepTable {
    table.map(|step| Step { scale: 8 * step.scale, shift: step.shift })
}

fn step_sum<const COUNT: usize>(tables: &[[Step; ENTRIES]], block: &[Update]) -> u64 {
    let tables: &[StepTable; COUNT] = tables.try_into().unwrap();
    let mut sum = Sum::default();
    for update in block {
        let bytes = update.item.to_le_bytes();
        let mut weight = tables[0][usize::from(bytes[0])].shift;
        for group in 1..COUNT {
            // Each step makes the weight longer by less than 2^62: 64 bits have room for three of them.
            if group == 4 {
                weight = of(weight);
            }
            let step = tables[group][usize::from(bytes[group])];
            weight = folded_eighth(u128::from(weight) * u128::from(step.scale)) + step.shift;
        }
        sum.add(weight, update.delta);
    }
    sum.total()
}

impl Many for LazySteps {
    fn of(seats: Vec<Seat>) -> Self {
        // The hash below the first table is 1, and below the others nothing is known of it.
        let table = |(group, challenges): (usize, &[u64])| scaled(step_table(challenges, u64::from(group == 0)));
        let tables = |seat: &Seat| seat.chunks(BYTE).enumerate().map(table).collect();
        LazySteps { tables: seats.iter().map(tables).collect(), values: vec![0; seats.len()] }
    }

    fn update_all(&mut self, block: &[Update]) {
        for (tables, value) in self.tables.iter().zip(&mut self.values) {
            *value = plus(*value, with_count!(tables, step_sum(tables, block)));
        }
    }

    fn values(&self) -> &[u64] {
        &self.values
    }
}
