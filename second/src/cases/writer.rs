//! Writes the lines of a case script.

use crate::card::{card_bytes, condition_bytes, Card};
use crate::field::half_range;
use crate::forecast::{card_report, forecast};
use crate::random::Random;
use crate::script::hex;
use crate::step_count::best_choice;
use crate::table::{table_bytes, RECORD_BYTES};
use std::fmt::Display;

pub struct Script {
    text: String,
}

impl Script {
    pub fn new() -> Script {
        Script {
            text: String::new(),
        }
    }

    pub fn finish(self) -> String {
        self.text
    }

    fn line(&mut self, line: impl Display) {
        self.text.push_str(&line.to_string());
        self.text.push('\n');
    }

    pub fn forecast(&mut self, card: &[u8]) {
        self.line(format_args!("forecast {}", hex(card)));
    }

    pub fn build(&mut self, room: usize, card: &[u8]) {
        self.line(format_args!("build {room} {}", hex(card)));
    }

    /// Builds an accepted card in just the bytes that it takes; its gates.
    pub fn build_exactly(&mut self, card: &[u8]) -> usize {
        let gates = forecast(card).expect("an accepted card").gates;
        self.build(table_bytes(gates), card);
        usize::from(gates)
    }

    pub fn build_within(&mut self, cap: u16, first: usize, second: usize, card: &[u8]) {
        let card = hex(card);
        self.line(format_args!("build_within {cap} {first} {second} {card}"));
    }

    /// Builds an accepted card within the cap, both tables in just the bytes that
    /// they take; the gates of the base table, and those of the second one, 0 where
    /// no step size fits the cap.
    pub fn build_within_exactly(&mut self, cap: u16, card: &[u8]) -> (usize, usize) {
        let [first, second] = rooms_within(cap, card);
        self.build_within(cap, first, second, card);
        (gates_in(first), gates_in(second))
    }

    pub fn begin(&mut self, p: u8, weight: u8) {
        self.line(format_args!("begin {p} {weight}"));
    }

    pub fn add(&mut self, record: &[u8]) {
        self.line(format_args!("add {}", hex(record)));
    }

    /// Adds a condition of this relation and n.
    pub fn add_condition(&mut self, relation: u8, n: u8) {
        self.add(&condition_bytes(relation, n));
    }

    /// The command `finish`.
    pub fn close(&mut self) {
        self.line("finish");
    }

    /// Exchanges the two table areas.
    pub fn swap(&mut self) {
        self.line("swap");
    }

    pub fn check(&mut self) {
        self.line("check");
    }

    pub fn trim(&mut self) {
        self.line("trim");
    }

    pub fn run(&mut self, room: usize, left: &[u8], right: &[u8]) {
        self.line(format_args!("run {room} {} {}", hex(left), hex(right)));
    }

    pub fn last_uses(&mut self, room: usize) {
        self.line(format_args!("last_uses {room}"));
    }

    pub fn encode(&mut self, p: u8, n: usize, number: u64, room: usize) {
        self.line(format_args!("encode {p} {n} {number} {room}"));
    }

    pub fn decode(&mut self, p: u8, digits: &[u8]) {
        self.line(format_args!("decode {p} {}", hex(digits)));
    }

    pub fn table(&mut self, bytes: &[u8]) {
        self.line(format_args!("table {}", hex(bytes)));
    }

    pub fn set(&mut self, place: usize, byte: u8) {
        self.line(format_args!("set {place} {byte}"));
    }

    /// Sets the bytes from `start` on that are others than before.
    pub fn change(&mut self, start: usize, before: &[u8], bytes: &[u8]) {
        for (place, (&old, &new)) in (start..).zip(before.iter().zip(bytes)) {
            if old != new {
                self.set(place, new);
            }
        }
    }

    pub fn cut(&mut self, length: usize) {
        self.line(format_args!("cut {length}"));
    }
}

/// The bytes that the base table and the best step size's within the cap take; 0
/// for the second where no step size fits.
pub fn rooms_within(cap: u16, card: &[u8]) -> [usize; 2] {
    let card = Card::read(card).expect("an accepted card");
    let second = best_choice(&card, cap).map(|choice| choice.report);
    let second = second.map_or(0, |report| table_bytes(report.gates));
    [table_bytes(card_report(&card).gates), second]
}

/// The bytes of the table once these conditions of a plain card are added, and
/// before its product tree is.
pub fn open_room(p: u8, conditions: &[(u8, u8)]) -> usize {
    closed_room(p, conditions) - RECORD_BYTES * (conditions.len() - 1)
}

/// The bytes of the table of a plain card with these conditions.
pub fn closed_room(p: u8, conditions: &[(u8, u8)]) -> usize {
    let card = forecast(&card_bytes(p, 50, conditions));
    table_bytes(card.expect("an accepted card").gates)
}

/// The gates of a table that takes these bytes.
fn gates_in(room: usize) -> usize {
    (room / RECORD_BYTES).saturating_sub(1)
}

/// Two lists of digits for an accepted card; about `changed` of eight digits
/// of the right one differ from those of the left one that they are compared
/// with.
pub fn draw_lists(random: &mut Random, card: &[u8], changed: u64) -> (Vec<u8>, Vec<u8>) {
    let card = Card::read(card).expect("an accepted card");
    let base = half_range(card.p);
    let left = random.bytes_below(base, card.left_slots());
    let mut right = equal_right(&card, &left);
    for digit in &mut right {
        if random.below(8) < changed {
            *digit = random.byte_below(base);
        }
    }
    (left, right)
}

/// The right list on which each condition's two numbers are equal.
pub fn equal_right(card: &Card, left: &[u8]) -> Vec<u8> {
    let numbers = card.conditions.iter().map(|c| &left[c.left_slots()]);
    numbers.flatten().copied().collect()
}
