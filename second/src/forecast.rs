//! Forecast: the answers from the card only, by closed formulas.

use crate::card::{Card, Condition, Form};
use crate::field::{ceil_log2, floor_log2};
use crate::refusal::Refusal;
use crate::report::{cost, Depth, Report};

/// Gates, products, squares and depth of one condition.
#[derive(Clone, Copy, Debug)]
pub(crate) struct Share {
    pub gates: u32,
    pub products: u32,
    pub squares: u32,
    pub depth: u32,
}

/// Forecast: Build's answers, without 11.
pub fn forecast(card: &[u8]) -> Result<Report, Refusal> {
    Ok(card_report(&Card::read(card)?))
}

/// "Gates: per order condition .., per equality condition ..", and those that
/// join the conditions. No card has more than 7114 gates.
pub fn card_report(card: &Card) -> Report {
    joined_report(card, |n| order_share(u32::from(card.p), n))
}

/// The answers for a card whose order conditions of n digits, but for a last
/// FLIP, have such shares. All counts fit a u16.
pub(crate) fn joined_report(card: &Card, order_share: impl Fn(u32) -> Share) -> Report {
    let (mut gates, mut products) = joining(card);
    let mut squares = 0;
    let mut powers = 0;
    let mut deepest = 0;
    for condition in &card.conditions {
        let share = share(card.p, condition, &order_share);
        gates += share.gates;
        products += share.products;
        squares += share.squares;
        powers += 1 << share.depth;
        deepest = deepest.max(share.depth);
    }
    let depth = match card.form {
        Form::Plain | Form::Shared => tree_depth(powers),
        // "Its depth is D plus the largest ceil(log2 n)."
        Form::Score => deepest,
    };
    let (products, squares) = (products as u16, squares as u16);
    Report {
        gates: gates as u16,
        products,
        squares,
        cost: cost(card.weight, products, squares),
        depth: Depth(depth as u16),
    }
}

/// The gates that join the conditions, and the products among them. A plain or
/// shared card has c-1, all of them products. A score card has c SCALEs and c-1
/// ADDs, and no product.
fn joining(card: &Card) -> (u32, u32) {
    let count = card.conditions.len() as u32;
    match card.form {
        Form::Plain | Form::Shared => (count - 1, count - 1),
        Form::Score => (2 * count - 1, 0),
    }
}

/// The depth of a product tree that joins the least deep first: the least d
/// with 2^d not below the sum of the powers 2^depth of its factors.
fn tree_depth(powers: u32) -> u32 {
    ceil_log2(powers)
}

fn share(p: u8, condition: &Condition, order_share: &impl Fn(u32) -> Share) -> Share {
    let n = condition.digits as u32;
    let mut share = if condition.relation.is_order() {
        order_share(n)
    } else {
        equality_share(u32::from(p), n)
    };
    if condition.relation.ends_with_flip() {
        share.gates += 1;
    }
    share
}

/// n(p+4+(p-3)/2+floor((p-1)/4)) + 4(n-1) - flog(n) gates.
///
/// A digit's products are the odd powers from 3 to p-2, its squares the even
/// powers up to (p-1)/2 and p-1. A join has one product, and a second one
/// unless its run has digit 0; flog(n) runs of two or more have it. Power i is
/// ceil(log2(i)) deep, so L and E of a digit are both D deep, and halving adds
/// ceil(log2(n)).
fn order_share(p: u32, n: u32) -> Share {
    let odd_powers = (p - 3) / 2;
    let even_powers = (p - 1) / 4;
    Share {
        gates: n * (p + 4 + odd_powers + even_powers) + 4 * (n - 1) - floor_log2(n),
        products: n * odd_powers + 2 * (n - 1) - floor_log2(n),
        squares: n * (even_powers + 1),
        depth: ceil_log2(p - 1) + ceil_log2(n),
    }
}

/// n(3+flog(t)+ones(t)) + n-1 gates, with t = p-1; "flog(t) squares and
/// ones(t)-1 products" a digit.
///
/// The running power of bit k is k deep, a collected product of top bit k is
/// one more, so a digit is D deep; n equal depths join in ceil(log2(n)) levels.
fn equality_share(p: u32, n: u32) -> Share {
    let t = p - 1;
    let ones = t.count_ones();
    Share {
        gates: n * (3 + floor_log2(t) + ones) + n - 1,
        products: n * (ones - 1) + n - 1,
        squares: n * floor_log2(t),
        depth: ceil_log2(t) + ceil_log2(n),
    }
}
