//! The price of each leg in a fill (M-106).
//!
//! "For each fill against an order or response we now give a price per leg, inside that leg's local
//! bid and ask as they stood just before the fill, ends included, whose net is exactly the fill's
//! price." The prices are found by trying them.

use crate::market::{part_of_net, Market};
use crate::strategy::{Cents, OpenLeg, Side, Strategy};
use std::fmt;
use std::ops::RangeInclusive;

/// One price for each leg, by the strategy's legs.
#[derive(Clone, Copy, PartialEq, Eq, Debug)]
pub struct LegPrices {
    prices: [Cents; Strategy::MOST_LEGS],
    legs: usize,
}

impl LegPrices {
    /// "No leg prices" is said where "a leg's ask is more than 50 cents above its bid".
    pub const MOST_APART: Cents = 50;

    /// At most four prices.
    pub fn of(prices: &[Cents]) -> LegPrices {
        let mut each = [0; Strategy::MOST_LEGS];
        each[..prices.len()].copy_from_slice(prices);
        LegPrices {
            prices: each,
            legs: prices.len(),
        }
    }

    pub fn each(&self) -> &[Cents] {
        &self.prices[..self.legs]
    }
}

/// The prices, with a blank between them.
impl fmt::Display for LegPrices {
    fn fmt(&self, f: &mut fmt::Formatter) -> fmt::Result {
        let words: Vec<String> = self.each().iter().map(Cents::to_string).collect();
        f.write_str(&words.join(" "))
    }
}

/// The leg prices of a fill against an order or response, with the quotes as they stand before it.
/// There are none "exactly if a leg lacks a side, a leg's ask is more than 50 cents above its bid,
/// or no such prices exist".
pub fn leg_prices(strategy: &Strategy, market: &Market, net: Cents) -> Option<LegPrices> {
    let mut quoted = Vec::new();
    for (leg, quote) in strategy.legs.iter().zip(&market.local) {
        if quote.bid.is_absent() || quote.ask.is_absent() {
            return None;
        }
        let (bid, ask) = (quote.bid.price, quote.ask.price);
        if ask - bid > LegPrices::MOST_APART {
            return None;
        }
        quoted.push(Quoted { leg, bid, ask });
    }
    first_prices(&quoted, net).map(|prices| LegPrices::of(&prices))
}

/// "Fills against legs show the prices taken": by an order of this side, with the quotes as they
/// stand before it.
pub fn prices_taken(strategy: &Strategy, market: &Market, order: Side) -> LegPrices {
    let quotes = strategy.legs.iter().zip(&market.local);
    let prices: Vec<Cents> = quotes
        .map(|(leg, quote)| quote.used_by(order, leg).price)
        .collect();
    LegPrices::of(&prices)
}

/// A leg with its local bid and ask.
struct Quoted<'a> {
    leg: &'a OpenLeg,
    bid: Cents,
    ask: Cents,
}

/// "The lowest price on leg 0 is taken, then on leg 1, and so on": each leg's prices are tried from
/// its bid up, and the first that the later legs can complete to the net is taken.
fn first_prices(legs: &[Quoted], net: Cents) -> Option<Vec<Cents>> {
    if !reach(legs).contains(&net) {
        return None;
    }
    // Without legs the net in reach is 0.
    let Some((first, later)) = legs.split_first() else {
        return Some(Vec::new());
    };
    (first.bid..=first.ask).find_map(|price| {
        let rest = first_prices(later, net - part_of_net(first.leg, price))?;
        Some([&[price], &rest[..]].concat())
    })
}

/// From the least to the greatest net of the legs' prices. Not every net between has prices.
fn reach(legs: &[Quoted]) -> RangeInclusive<Cents> {
    let (mut least, mut greatest) = (0, 0);
    for Quoted { leg, bid, ask } in legs {
        let (at_bid, at_ask) = (part_of_net(leg, *bid), part_of_net(leg, *ask));
        least += at_bid.min(at_ask);
        greatest += at_bid.max(at_ask);
    }
    least..=greatest
}
