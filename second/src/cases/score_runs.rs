//! Scores: built tables of score cards, run on numbers.

use super::relations::run_drawn;
use super::writer::{draw_lists, Script};
use super::{RELATIONS, SCORE_BENCH};
use crate::card::{score_card_bytes, Card, Relation};
use crate::digits::encode;
use crate::field::{half_range, PRIMES};
use crate::random::Random;
use crate::table::RECORD_BYTES;

pub fn write(script: &mut Script) {
    bench_card(script);
    distance_and_grade(script);
    one_condition(script);
    every_small_pair(script);
    every_bit(script);
    eight_conditions(script);
    several_conditions(script);
    every_prime(script);
    drawn_cards(script);
    values_that_are_no_digits(script);
    runs_turned_away(script);
    damaged_score(script);
    largest_cards(script);
}

/// Lists on which a condition holds where `holding` says so of its number. All
/// digits are 1 but perhaps the lowest one of a condition, which decides.
fn lists_where(card: &[u8], holding: impl Fn(usize) -> bool) -> (Vec<u8>, Vec<u8>) {
    let card = Card::read(card).expect("an accepted card");
    let mut left = vec![1; card.digits()];
    let mut right = left.clone();
    let mut slot = 0;
    for (number, condition) in card.conditions.iter().enumerate() {
        (left[slot], right[slot]) = deciding_digits(condition.relation, holding(number));
        slot += condition.digits;
    }
    (left, right)
}

fn deciding_digits(relation: Relation, holds: bool) -> (u8, u8) {
    match (relation, holds) {
        (Relation::Less, true) | (Relation::AtLeast | Relation::Equal, false) => (0, 1),
        (Relation::Greater | Relation::Unequal, true) | (Relation::AtMost, false) => (1, 0),
        _ => (1, 1),
    }
}

/// Runs the card's table on lists on which just these conditions hold.
fn run_where(script: &mut Script, card: &[u8], gates: usize, holding: impl Fn(usize) -> bool) {
    let (left, right) = lists_where(card, holding);
    script.run(gates, &left, &right);
}

/// The first bench card with a weight of 1 and of p-1, on all values.
fn bench_card(script: &mut Script) {
    for card in [&SCORE_BENCH[..], &score_card_bytes(3, 75, &[(1, 1, 2)])] {
        let gates = script.build_exactly(card);
        for left in 0..3 {
            for right in 0..3 {
                script.run(gates + 1, &[left], &[right]);
            }
        }
    }
}

/// "Distance at least 20 m" for 5 and "grade above 3" for 3: none, one, the
/// other and both.
fn distance_and_grade(script: &mut Script) {
    let card = score_card_bytes(31, 75, &[(4, 3, 5), (3, 1, 3)]);
    script.forecast(&card);
    let gates = script.build_exactly(&card);
    script.check();
    script.trim();
    let query = distance_digits(20, 3);
    for (distance, grade) in [(12, 3), (20, 3), (12, 5), (34, 4), (4_095, 15)] {
        script.run(gates, &distance_digits(distance, grade), &query);
    }
}

fn distance_digits(distance: u64, grade: u8) -> [u8; 4] {
    let mut digits = [grade; 4];
    encode(31, 3, distance, &mut digits).expect("a number of three digits");
    digits
}

/// One SCALE and no ADD, also by 1.
fn one_condition(script: &mut Script) {
    for relation in RELATIONS {
        for weight in [1, 4] {
            let card = score_card_bytes(5, 60, &[(relation, 2, weight)]);
            let gates = script.build_exactly(&card);
            script.check();
            run_where(script, &card, gates, |_| false);
            run_where(script, &card, gates, |_| true);
        }
    }
}

/// All digits of an order and an equality condition at p=5.
fn every_small_pair(script: &mut Script) {
    let gates = script.build_exactly(&score_card_bytes(5, 50, &[(1, 1, 1), (5, 1, 3)]));
    for left in 0..9 {
        for right in 0..9 {
            script.run(gates, &[left % 3, left / 3], &[right % 3, right / 3]);
        }
    }
}

/// The two conditions that p=3 has room for, each relation beside the next one.
fn every_bit(script: &mut Script) {
    for (relation, next) in RELATIONS.into_iter().zip([2, 3, 4, 5, 6, 1]) {
        let card = score_card_bytes(3, 50, &[(relation, 1, 1), (next, 1, 1)]);
        let gates = script.build_exactly(&card);
        for bits in 0..16 {
            let [a, b, c, d] = [bits & 1, bits >> 1 & 1, bits >> 2 & 1, bits >> 3];
            script.run(gates, &[a, b], &[c, d]);
        }
    }
}

/// None, all, each one and all but each one of eight conditions.
fn eight_conditions(script: &mut Script) {
    let cards = [
        // Powers of two, and what is left of p-1.
        score_card_bytes(
            251,
            64,
            &[
                (1, 1, 1),
                (2, 1, 2),
                (3, 1, 4),
                (4, 1, 8),
                (5, 1, 16),
                (6, 1, 32),
                (1, 1, 64),
                (6, 1, 123),
            ],
        ),
        score_card_bytes(
            11,
            64,
            &[
                (6, 2, 1),
                (5, 2, 1),
                (4, 2, 3),
                (3, 2, 1),
                (2, 2, 1),
                (1, 2, 1),
                (5, 2, 1),
                (2, 2, 1),
            ],
        ),
    ];
    for card in &cards {
        script.forecast(card);
        let gates = script.build_exactly(card);
        script.check();
        script.trim();
        run_where(script, card, gates, |_| false);
        run_where(script, card, gates, |_| true);
        for one in 0..8 {
            run_where(script, card, gates, |number| number == one);
            run_where(script, card, gates, |number| number != one);
        }
    }
}

/// Depths that differ, in card order and against it.
fn several_conditions(script: &mut Script) {
    let cards: [(u8, &[(u8, u8)]); 10] = [
        (5, &[(1, 4), (5, 1), (2, 1)]),
        (7, &[(5, 1), (1, 4), (6, 1)]),
        (11, &[(5, 8), (5, 1), (5, 1), (5, 1)]),
        (13, &[(5, 1), (5, 2), (5, 3), (5, 4)]),
        (17, &[(5, 4), (5, 3), (5, 2), (5, 1), (1, 1)]),
        (31, &[(1, 3), (2, 3), (3, 3), (4, 3), (5, 2), (6, 2)]),
        (
            37,
            &[(6, 2), (5, 2), (4, 3), (3, 3), (2, 3), (1, 2), (5, 1)],
        ),
        (3, &[(5, 9), (1, 5)]),
        (5, &[(1, 16)]),
        (251, &[(6, 16)]),
    ];
    let mut random = Random::new(0xC0DE);
    for (p, conditions) in cards {
        let card = filled_card(p, conditions);
        script.forecast(&card);
        let gates = script.build_exactly(&card);
        script.check();
        run_where(script, &card, gates, |_| false);
        run_where(script, &card, gates, |_| true);
        for changed in [1, 4] {
            let (left, right) = draw_lists(&mut random, &card, changed);
            script.run(gates, &left, &right);
        }
    }
}

/// A score card with weights of 1 but the last, which makes the total p-1.
fn filled_card(p: u8, conditions: &[(u8, u8)]) -> Vec<u8> {
    let mut weighted: Vec<_> = conditions.iter().map(|&(r, n)| (r, n, 1)).collect();
    weighted[conditions.len() - 1].2 = p - conditions.len() as u8;
    score_card_bytes(p, 58, &weighted)
}

/// The ends of the digit range at each prime, with a total of p-1.
fn every_prime(script: &mut Script) {
    for (p, relation) in PRIMES.into_iter().zip([1, 2, 3, 4].into_iter().cycle()) {
        let top = half_range(p) - 1;
        let weights = [(relation, 1, p / 2), (5, 1, p - 1 - p / 2)];
        let gates = script.build_exactly(&score_card_bytes(p, 71, &weights));
        script.run(gates, &[0, top], &[top, top]);
        script.run(gates, &[top, 0], &[0, 0]);
    }
}

fn drawn_cards(script: &mut Script) {
    run_drawn(script, Random::new(0x5C04E), 32, draw_card);
}

/// As many conditions as the weights and the digits have room for.
fn draw_card(random: &mut Random) -> Vec<u8> {
    let p = random.pick(&PRIMES);
    let weight = 50 + random.byte_below(51);
    let mut digits = 16;
    let mut weights = p - 1;
    let mut conditions = Vec::new();
    for _ in 0..1 + random.below(8) {
        if digits == 0 || weights == 0 {
            break;
        }
        let n = 1 + random.byte_below(digits.min(5));
        let condition_weight = 1 + random.byte_below(weights);
        digits -= n;
        weights -= condition_weight;
        conditions.push((random.pick(&RELATIONS), n, condition_weight));
    }
    score_card_bytes(p, weight, &conditions)
}

/// Values from B to p-1 are run all the same.
fn values_that_are_no_digits(script: &mut Script) {
    let gates = script.build_exactly(&score_card_bytes(7, 50, &[(1, 1, 2), (5, 1, 4)]));
    for left in [0, 2, 4, 6] {
        for right in 3..7 {
            script.run(gates, &[left, right], &[right, left]);
        }
    }
    let gates = script.build_exactly(&score_card_bytes(251, 50, &[(3, 1, 250)]));
    for (left, right) in [(250, 0), (0, 250), (250, 125), (126, 0), (125, 0)] {
        script.run(gates, &[left], &[right]);
    }
}

/// Table, lists, values and work are all wrong at first.
fn runs_turned_away(script: &mut Script) {
    script.build(72, &SCORE_BENCH);
    script.cut(71);
    script.run(7, &[3, 3], &[]);
    script.cut(72);
    script.run(7, &[3, 3], &[]);
    script.run(7, &[3], &[]);
    script.run(7, &[3], &[3]);
    script.run(7, &[0], &[3]);
    script.run(7, &[0], &[1]);
    script.run(8, &[0], &[1]);
    script.run(9, &[1], &[0]);
}

/// Each byte of the gates that make the score, damaged: SCALE 10 1, SCALE 16 2
/// and ADD 17 18 after the conditions' 17 gates.
fn damaged_score(script: &mut Script) {
    let card = score_card_bytes(5, 50, &[(1, 1, 1), (5, 1, 2)]);
    let gates = script.build_exactly(&card);
    let mut bytes = vec![0; RECORD_BYTES * (gates + 1)];
    crate::build::build(&card, &mut bytes).expect("an accepted card");
    let first = RECORD_BYTES * (gates - 2);
    for (place, &byte) in bytes.iter().enumerate().skip(first) {
        script.set(place, byte ^ 4);
        script.check();
        script.run(gates, &[0, 2], &[1, 2]);
        script.set(place, byte);
    }
    script.check();
    script.run(gates, &[0, 2], &[1, 2]);
}

/// Score cards of most gates, one more than any plain card has.
fn largest_cards(script: &mut Script) {
    let cards = [
        score_card_bytes(251, 99, &[(2, 16, 250)]),
        score_card_bytes(251, 99, &[(4, 15, 249), (2, 1, 1)]),
    ];
    for card in &cards {
        script.forecast(card);
        let gates = script.build_exactly(card);
        script.check();
        script.trim();
        run_where(script, card, gates, |_| true);
        script.run(8_200, &[125; 16], &[0; 16]);
        script.run(gates - 1, &[0; 16], &[125; 16]);
        script.build(8 * gates + 7, card);
        script.check();
    }
}
