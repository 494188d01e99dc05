//! "Prices": local and national quotes, the derived prices, and the filter.

use crate::strategy::{Cents, OpenLeg, Side, Strategy};
use std::ops::RangeInclusive;

/// The two sides of a leg's quote.
#[derive(Clone, Copy, PartialEq, Eq, Debug, Default)]
pub struct Quote<T> {
    pub bid: T,
    pub ask: T,
}

impl<T: Copy> Quote<T> {
    /// "The derived ask uses asks of B legs and bids of S legs; the derived bid the opposite
    /// sides." An order to buy meets the derived ask, an order to sell the derived bid.
    pub fn used_by(&self, order: Side, leg: &OpenLeg) -> T {
        if leg.side == order {
            self.ask
        } else {
            self.bid
        }
    }

    pub fn used_by_mut(&mut self, order: Side, leg: &OpenLeg) -> &mut T {
        if leg.side == order {
            &mut self.ask
        } else {
            &mut self.bid
        }
    }
}

/// "Local sides are price 1 to 999,999 with size 1 to 999,999, or both 0 for absent."
#[derive(Clone, Copy, PartialEq, Eq, Debug, Default)]
pub struct LocalSide {
    pub price: Cents,
    pub size: u32,
}

impl LocalSide {
    pub const PRICE: RangeInclusive<Cents> = 1..=999_999;
    pub const SIZE: RangeInclusive<u32> = 1..=999_999;
    const ABSENT: LocalSide = LocalSide { price: 0, size: 0 };

    pub fn is_absent(&self) -> bool {
        *self == LocalSide::ABSENT
    }

    pub fn fits(&self) -> bool {
        self.is_absent()
            || (LocalSide::PRICE.contains(&self.price) && LocalSide::SIZE.contains(&self.size))
    }

    /// "Filling legs lowers those sizes by ratio × units; a side at size 0 becomes absent."
    fn lower(&mut self, contracts: u32) {
        self.size -= contracts;
        if self.size == 0 {
            *self = LocalSide::ABSENT;
        }
    }
}

/// "National sides are prices 1 to 999,999 alone, 0 for absent, and may lock or cross."
pub fn national_side_fits(price: Cents) -> bool {
    const PRICE: RangeInclusive<Cents> = 1..=999_999;
    price == 0 || PRICE.contains(&price)
}

/// A local derived price and its units.
#[derive(Clone, Copy, PartialEq, Eq, Debug)]
pub struct Derived {
    pub price: Cents,
    pub units: u32,
}

/// What the filter measures an order by.
#[derive(Clone, Copy, PartialEq, Eq, Debug)]
pub struct Filter {
    /// The national contra price.
    pub contra: Cents,
    /// The leg whose price used in it is the smallest, the earlier on a tie.
    pub smallest_leg: usize,
    /// "The amount set for that leg's MPV."
    pub amount: Cents,
    pub smallest_ratio: Cents,
}

impl Filter {
    /// "Refuse if the limit is beyond the contra price by more than amount × smallest ratio."
    pub fn refuses(&self, side: Side, limit: Cents) -> bool {
        let beyond = -side.miss(limit, self.contra);
        beyond > self.amount * self.smallest_ratio
    }
}

#[derive(Clone, Debug, Default)]
pub struct Market {
    pub local: [Quote<LocalSide>; Strategy::MOST_LEGS],
    pub national: [Quote<Cents>; Strategy::MOST_LEGS],
}

/// "Buying a unit costs the sum of ratio × price over B legs less the same over S legs."
pub fn part_of_net(leg: &OpenLeg, price: Cents) -> Cents {
    let amount = Cents::from(leg.ratio) * price;
    match leg.side {
        Side::Buy => amount,
        Side::Sell => -amount,
    }
}

impl Market {
    /// The derived price an order of this side meets: the derived ask for a buyer, the derived bid
    /// for a seller. "A local derived price exists only where each leg side used shows at least
    /// ratio contracts; its units are the least of size divided by ratio, rounded down."
    pub fn derived_contra(&self, strategy: &Strategy, order: Side) -> Option<Derived> {
        let mut derived = Derived {
            price: 0,
            units: u32::MAX,
        };
        for (leg, quote) in strategy.legs.iter().zip(&self.local) {
            let side = quote.used_by(order, leg);
            let ratio = u32::from(leg.ratio);
            if side.size < ratio {
                return None;
            }
            derived.price += part_of_net(leg, side.price);
            derived.units = derived.units.min(side.size / ratio);
        }
        Some(derived)
    }

    /// An order of this side takes units from the legs.
    pub fn take(&mut self, strategy: &Strategy, order: Side, units: u32) {
        for (leg, quote) in strategy.legs.iter().zip(&mut self.local) {
            let contracts = u32::from(leg.ratio) * units;
            quote.used_by_mut(order, leg).lower(contracts);
        }
    }

    /// "Only if every leg has a national bid and ask. Take the national contra price. Of the legs'
    /// prices used in it find the smallest, the earlier leg on a tie."
    pub fn filter(&self, strategy: &Strategy, order: Side) -> Option<Filter> {
        let mut contra = 0;
        let mut smallest_leg = 0;
        let mut smallest_price = Cents::MAX;
        for (at, (leg, quote)) in strategy.legs.iter().zip(&self.national).enumerate() {
            if quote.bid == 0 || quote.ask == 0 {
                return None;
            }
            let price = quote.used_by(order, leg);
            contra += part_of_net(leg, price);
            if price < smallest_price {
                smallest_leg = at;
                smallest_price = price;
            }
        }
        Some(Filter {
            contra,
            smallest_leg,
            amount: strategy.legs[smallest_leg].amount,
            smallest_ratio: strategy.smallest_ratio(),
        })
    }
}
