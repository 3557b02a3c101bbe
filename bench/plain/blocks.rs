//! Running numbers, fed by blocks of updates: tables of the products of eight challenges each, which are kept, and an update is then
//! one look-up and one product for each of them, and one product with its delta.

use super::field::{minus, of_signed, plus, times};
use super::streams::Update;

/// The challenges of a query, the lowest level's first.
pub type Seat = Vec<u64>;

/// How many challenges a table is made of: its entries are chosen by the bytes of an item.
pub const BYTE: usize = 8;
pub const ENTRIES: usize = 1 << BYTE;

pub type Table = [u64; ENTRIES];

/// The table of up to eight challenges. A bit that is 1 gives its challenge, and a bit that is 0 gives 1, or 1 less its challenge.
pub fn product_table(challenges: &[u64], is_tree: bool) -> Table {
    let mut table = [0; ENTRIES];
    table[0] = 1;
    for (level, &r) in challenges.iter().enumerate() {
        let (left, right) = table.split_at_mut(1 << level);
        for (zero, one) in left.iter_mut().zip(right) {
            *one = times(*zero, r);
            if !is_tree {
                *zero = minus(*zero, *one);
            }
        }
    }
    table
}

/// The tables of a seat.
pub fn product_tables(seat: &[u64], is_tree: bool) -> Vec<Table> {
    seat.chunks(BYTE).map(|challenges| product_table(challenges, is_tree)).collect()
}

/// Calls a function of a number of tables, which is a constant in it.
macro_rules! with_count {
    ($tables:expr, $function:ident($($argument:expr),*)) => {
        match $tables.len() {
            1 => $function::<1>($($argument),*),
            2 => $function::<2>($($argument),*),
            3 => $function::<3>($($argument),*),
            4 => $function::<4>($($argument),*),
            5 => $function::<5>($($argument),*),
            _ => $function::<6>($($argument),*),
        }
    };
}

pub(crate) use with_count;

fn sum<const COUNT: usize>(tables: &[Table], value: u64, block: &[Update]) -> u64 {
    let tables: &[Table; COUNT] = tables.try_into().unwrap();
    block.iter().fold(value, |sum, update| {
        let bytes = update.item.to_le_bytes();
        let start = of_signed(update.delta);
        plus(sum, (0..COUNT).fold(start, |product, group| times(product, tables[group][usize::from(bytes[group])])))
    })
}

/// A root or an extension after a block.
pub fn product_sum(tables: &[Table], value: u64, block: &[Update]) -> u64 {
    with_count!(tables, sum(tables, value, block))
}

/// What some levels make of a hash h: `scale * h + shift`.
#[derive(Clone, Copy)]
pub struct Step {
    pub scale: u64,
    pub shift: u64,
}

pub type StepTable = [Step; ENTRIES];

/// The table of up to eight challenges for the augmented tree, of a shift to begin with. A level makes a hash h + r on the left, and
/// (h + r)·r² on the right.
pub fn step_table(challenges: &[u64], start: u64) -> StepTable {
    let mut table = [Step { scale: 1, shift: start }; ENTRIES];
    for (level, &r) in challenges.iter().enumerate() {
        let square = times(r, r);
        let (left, right) = table.split_at_mut(1 << level);
        for (zero, one) in left.iter_mut().zip(right) {
            zero.shift = plus(zero.shift, r);
            *one = Step { scale: times(zero.scale, square), shift: times(zero.shift, square) };
        }
    }
    table
}

/// The tables of a seat. The hash below the first table is 1, and below the others nothing is known of it.
pub fn step_tables(seat: &[u64]) -> Vec<StepTable> {
    seat.chunks(BYTE).enumerate().map(|(group, challenges)| step_table(challenges, u64::from(group == 0))).collect()
}

fn hash<const COUNT: usize>(tables: &[StepTable], value: u64, block: &[Update]) -> u64 {
    let tables: &[StepTable; COUNT] = tables.try_into().unwrap();
    let mut sum = value;
    for update in block {
        let bytes = update.item.to_le_bytes();
        let mut weight = tables[0][usize::from(bytes[0])].shift;
        for group in 1..COUNT {
            let step = tables[group][usize::from(bytes[group])];
            weight = plus(times(weight, step.scale), step.shift);
        }
        sum = plus(sum, times(weight, of_signed(update.delta)));
    }
    sum
}

/// The hash of an augmented root after a block.
pub fn hash_sum(tables: &[StepTable], value: u64, block: &[Update]) -> u64 {
    with_count!(tables, hash(tables, value, block))
}
