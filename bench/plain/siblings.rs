//! Nodes of a level as sums over the entries below them. Over all levels of a query each entry is used at most once.

use super::field::{folded_once, folded_times, of_signed, of_wide, plus, times};
use super::vector::Entry;

/// How many challenges a table is made of at most.
const GROUP: usize = 11;
const ENTRIES: usize = 1 << GROUP;

/// The products of the challenges that are revealed, by the bits of an index.
#[derive(Default)]
pub struct Tables {
    products: Vec<Vec<u64>>,
    height: usize,
}

impl Tables {
    /// The next challenge doubles the last table.
    pub fn learn(&mut self, r: u64) {
        if self.height % GROUP == 0 {
            self.products.push(Vec::with_capacity(ENTRIES));
            self.products[self.height / GROUP].push(1);
        }
        let table = &mut self.products[self.height / GROUP];
        for at in 0..table.len() {
            table.push(times(table[at], r));
        }
        self.height += 1;
    }

    /// The sum of these entries, each times the product of the challenges at the bits of its index that are 1.
    pub fn weighed(&self, entries: &[Entry]) -> u64 {
        let mut sum = 0;
        for entry in entries {
            let mut product = of_signed(entry.value);
            for (group, table) in self.products.iter().enumerate() {
                product = times(product, table[(entry.index >> (GROUP * group)) as usize & (table.len() - 1)]);
            }
            sum = plus(sum, product);
        }
        sum
    }

    /// The same with products that are reduced in part, and one reduction for the sum.
    pub fn lazy_weighed(&self, entries: &[Entry]) -> u64 {
        match &self.products[..] {
            [] => of_wide(entries.iter().map(|entry| i128::from(entry.value)).sum()),
            [a] => lazy_sum([a], entries),
            [a, b] => lazy_sum([a, b], entries),
            [a, b, c] => lazy_sum([a, b, c], entries),
            [a, b, c, d] => lazy_sum([a, b, c, d], entries),
            [a, b, c, d, e, ..] => lazy_sum([a, b, c, d, e], entries),
        }
    }

    /// The entries below a node of the level that the revealed challenges lead to.
    pub fn stretch<'a>(&self, list: &'a [Entry], index: u64) -> &'a [Entry] {
        let first = index << self.height;
        let last = first + ((1 << self.height) - 1);
        let from = list.partition_point(|entry| entry.index < first);
        let to = list.partition_point(|entry| entry.index <= last);
        &list[from..to]
    }
}

fn lazy_sum<const COUNT: usize>(tables: [&Vec<u64>; COUNT], entries: &[Entry]) -> u64 {
    let product = |table: &Vec<u64>, group: usize, index: u64| table[(index >> (GROUP * group)) as usize & (table.len() - 1)];
    let mut sum = 0;
    for entry in entries {
        let mut weight = product(tables[0], 0, entry.index);
        for group in 1..COUNT {
            weight = folded_times(weight, product(tables[group], group, entry.index));
        }
        sum += i128::from(folded_once(weight)) * i128::from(entry.value);
    }
    of_wide(sum)
}
