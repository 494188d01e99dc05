//! The average net price of an executed order, with its remainder (M-102).
//!
//! "The sum of price × units divided by units, rounded toward minus infinity, and the remainder,
//! from 0 to units less 1."

use crate::execution::Fill;

/// An order's average over some fills.
///
/// No list of fills is too much for an `i128`: a price × units, 32 bits each, is less than 2^63
/// from zero, and no list has 2^63 places.
#[derive(Clone, Copy, PartialEq, Eq, Debug)]
pub struct Average {
    pub order: u32,
    /// Of price × units.
    pub sum: i128,
    /// Above 0.
    pub units: i128,
}

impl Average {
    pub fn quotient(&self) -> i128 {
        self.sum.div_euclid(self.units)
    }

    pub fn remainder(&self) -> i128 {
        self.sum.rem_euclid(self.units)
    }
}

/// The average of an order "over the records that name it as order"; without units in them it has
/// none.
pub fn average(order: u32, fills: &[Fill]) -> Option<Average> {
    let (mut sum, mut units) = (0, 0);
    for fill in fills.iter().filter(|fill| fill.order == order) {
        sum += i128::from(fill.price) * i128::from(fill.units);
        units += i128::from(fill.units);
    }
    (units > 0).then_some(Average { order, sum, units })
}

/// The averages of a message's fills, "for each id in their order column, by first record".
pub fn averages(fills: &[Fill]) -> Vec<Average> {
    let mut orders = Vec::new();
    for fill in fills {
        if !orders.contains(&fill.order) {
            orders.push(fill.order);
        }
    }
    let found = orders.iter().filter_map(|&order| average(order, fills));
    found.collect()
}
