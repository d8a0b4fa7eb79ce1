//! `second steps`: what step sizes save, as Markdown tables.

use crate::card::{card_bytes, Card};
use crate::field::PRIMES;
use crate::forecast::card_report;
use crate::report::Report;
use crate::step_count::{best_choice, Choice};
use std::fmt::Write;

/// The primes of the second table.
const SOME_PRIMES: [u8; 5] = [29, 43, 61, 101, 131];

/// One "<" condition of one digit: at each prime with a weight of 75, and after an
/// empty line at some primes with a weight of 100, where the cost is told as
/// products plus squares.
pub fn step_tables() -> String {
    let costs = markdown(&PRIMES, 75, "cost", |report| report.cost.0);
    let counts = markdown(&SOME_PRIMES, 100, "products and squares", |report| {
        u32::from(report.products) + u32::from(report.squares)
    });
    format!("{costs}\n{counts}")
}

/// A row for each prime: the base table, the best step size where there is no cap,
/// and the best one within the depth of the base table.
fn markdown(primes: &[u8], weight: u8, measure: &str, of: impl Fn(&Report) -> u32) -> String {
    let mut text = format!(
        "| p | base {measure} | base depth \
         | no cap: k | {measure} | depth \
         | within the base depth: k | {measure} | depth |\n"
    );
    text.push_str("|---|---|---|---|---|---|---|---|---|\n");
    for &p in primes {
        let card = Card::read(&card_bytes(p, weight, &[(1, 1)])).expect("an accepted card");
        let base = card_report(&card);
        write!(text, "| {p} | {} | {} |", of(&base), base.depth.0)
            .expect("a string takes all text");
        for cap in [u16::MAX, base.depth.0] {
            let Choice { step, report } = best_choice(&card, cap).expect("k=1 is no deeper");
            write!(text, " {step} | {} | {} |", of(&report), report.depth.0)
                .expect("a string takes all text");
        }
        text.push('\n');
    }
    text
}
