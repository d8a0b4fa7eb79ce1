//! Step sizes: both tables checked, and run on numbers.

use super::relations::draw_card;
use super::writer::{draw_lists, rooms_within, Script};
use super::RELATIONS;
use crate::card::{card_bytes, Card};
use crate::field::{half_range, PRIMES};
use crate::forecast::card_report;
use crate::random::Random;

pub fn write(script: &mut Script) {
    every_small_pair(script);
    every_prime(script);
    every_prime_within_its_depth(script);
    about_the_ends(script);
    ties_of_the_tables(script);
    ties_of_step_sizes(script);
    no_order_condition(script);
    several_conditions(script);
    values_that_are_no_digits(script);
    bytes_after_the_tables(script);
    drawn_cards(script);
    largest_cards(script);
}

/// The highest cap.
const NO_CAP: u16 = u16::MAX;

/// Relation and n of each condition.
type Conditions = &'static [(u8, u8)];

/// Builds within the cap in just the bytes that both tables take, and makes the
/// second one the current table; its gates.
fn second_table(script: &mut Script, cap: u16, card: &[u8]) -> usize {
    let (_, gates) = script.build_within_exactly(cap, card);
    script.swap();
    script.cut(8 * gates + 8);
    gates
}

fn base_depth(card: &[u8]) -> u16 {
    let card = Card::read(card).expect("an accepted card");
    card_report(&card).depth.0
}

/// All pairs of digits at small primes, with each relation at p=5; those at p=7
/// with two digits take some of the high ones only.
fn every_small_pair(script: &mut Script) {
    let at_5 = RELATIONS.map(|relation| (5, relation));
    for (p, relation) in [(3, 1), (13, 4)].into_iter().chain(at_5) {
        let gates = second_table(script, NO_CAP, &card_bytes(p, 75, &[(relation, 1)]));
        script.check();
        for left in 0..half_range(p) {
            for right in 0..half_range(p) {
                script.run(gates, &[left], &[right]);
            }
        }
        script.swap();
    }
    let gates = second_table(script, NO_CAP, &card_bytes(7, 75, &[(2, 2)]));
    script.check();
    for (left, right) in [(1, 1), (1, 2), (3, 0)] {
        for low in 0..16 {
            script.run(gates, &[low % 4, left], &[low / 4, right]);
        }
    }
    script.swap();
}

/// One digit at each prime, without a cap: the ends of the digits, and equal ones.
fn every_prime(script: &mut Script) {
    for (p, relation) in PRIMES.into_iter().zip([1, 2, 3, 4].into_iter().cycle()) {
        let top = half_range(p) - 1;
        let gates = second_table(script, NO_CAP, &card_bytes(p, 75, &[(relation, 1)]));
        script.check();
        for (left, right) in [(0, top), (top, 0), (top, top)] {
            script.run(gates, &[left], &[right]);
        }
        script.swap();
    }
}

/// Two digits at each prime, within the depth of the base table; the high digits
/// are equal, or the other way than the low ones.
fn every_prime_within_its_depth(script: &mut Script) {
    let relations = [3, 4, 1, 2].into_iter().cycle();
    for (i, (p, relation)) in PRIMES.into_iter().zip(relations).enumerate() {
        let top = half_range(p) - 1;
        let card = card_bytes(p, 100, &[(relation, 2)]);
        let gates = second_table(script, base_depth(&card), &card);
        let left_high = if i % 3 == 0 { top } else { top - 1 };
        script.run(gates, &[top, left_high], &[0, top]);
        script.swap();
    }
}

/// Digits at and about a digit of the query at larger primes, within the depth of
/// the base table and without a cap; the last uses of both.
fn about_the_ends(script: &mut Script) {
    for (p, relation, query) in [(31, 4, 15), (61, 1, 17), (101, 2, 0), (251, 3, 124)] {
        let card = card_bytes(p, 75, &[(relation, 1)]);
        for cap in [base_depth(&card), NO_CAP] {
            let gates = second_table(script, cap, &card);
            script.check();
            script.trim();
            script.last_uses(gates - 1);
            script.last_uses(gates);
            let top = half_range(p) - 1;
            let mut digits = vec![0, 1, top - 1, top, query, query + 1];
            digits.extend(query.checked_sub(1));
            digits.retain(|&digit| digit <= top);
            digits.sort();
            digits.dedup();
            for digit in digits {
                script.run(gates, &[digit], &[query]);
            }
            script.swap();
        }
    }
}

/// "Ties to the first": p=3 with one digit and p=7 with two cost the same where a
/// square costs as much as a product. With another weight the base table costs
/// less, or with fewer digits more.
fn ties_of_the_tables(script: &mut Script) {
    let cards: [(u8, u8, Conditions); 14] = [
        (3, 100, &[(1, 1)]),
        (3, 99, &[(1, 1)]),
        (3, 100, &[(4, 1)]),
        (3, 100, &[(1, 1); 8]),
        (3, 100, &[(1, 1), (2, 2)]),
        (3, 100, &[(5, 3), (3, 1), (6, 2)]),
        (7, 100, &[(1, 2)]),
        (7, 99, &[(1, 2)]),
        (7, 100, &[(1, 1)]),
        (7, 50, &[(1, 1)]),
        (7, 100, &[(2, 2), (4, 2), (5, 1)]),
        (7, 100, &[(1, 2), (1, 1)]),
        (7, 100, &[(1, 3)]),
        (11, 50, &[(1, 5)]),
    ];
    for (p, weight, conditions) in cards {
        let card = card_bytes(p, weight, conditions);
        second_table(script, base_depth(&card), &card);
        script.check();
        script.swap();
    }
}

/// Step sizes of equal cost: of equal depth, where the lower one is taken, and of
/// other depths, where the less deep one is, also if it is the higher one.
fn ties_of_step_sizes(script: &mut Script) {
    let cards = [
        (17, 75, 1),
        (17, 100, 1),
        (29, 75, 2),
        (31, 75, 1),
        (47, 99, 1),
        (47, 100, 1),
        (53, 75, 1),
        (59, 100, 1),
        (67, 50, 2),
        (83, 99, 1),
        (83, 100, 1),
        (101, 50, 2),
        (101, 100, 1),
    ];
    for (p, weight, n) in cards {
        let card = card_bytes(p, weight, &[(1, n)]);
        for cap in [base_depth(&card), NO_CAP] {
            second_table(script, cap, &card);
            script.check();
            script.swap();
        }
    }
}

/// All step sizes write the same table then, which is the base table: both tables
/// are shown to be the same, and the first is handed back.
fn no_order_condition(script: &mut Script) {
    let cards: [(u8, Conditions); 7] = [
        (3, &[(5, 1)]),
        (3, &[(6, 1)]),
        (7, &[(5, 2), (6, 1)]),
        (31, &[(6, 3)]),
        (127, &[(5, 1), (5, 1), (5, 4)]),
        (251, &[(5, 16)]),
        (251, &[(6, 2); 8]),
    ];
    for (p, conditions) in cards {
        let card = card_bytes(p, 75, conditions);
        let depth = base_depth(&card);
        let (first, second) = script.build_within_exactly(depth, &card);
        assert_eq!(first, second);
        script.build_within(depth - 1, 40, 40, &card);
        script.build_within(depth, 8 * first + 7, 8 * first + 8, &card);
        script.build_within(depth, 8 * first + 8, 8 * first + 7, &card);
        script.swap();
        script.check();
        let digits = vec![1; Card::read(&card).expect("an accepted card").digits()];
        script.run(first, &digits, &digits);
        script.swap();
    }
}

/// Two to eight conditions whose depths differ, so that the product tree pairs
/// them out of card order; both tables are run.
fn several_conditions(script: &mut Script) {
    let cards: [(u8, Conditions); 9] = [
        (31, &[(1, 1), (5, 1)]),
        (31, &[(6, 1), (4, 1), (5, 2)]),
        (17, &[(5, 1), (1, 4), (6, 1), (2, 1)]),
        (61, &[(2, 1), (5, 1), (3, 2), (5, 1), (6, 3)]),
        (5, &[(1, 3), (2, 3), (3, 3), (4, 3), (5, 2), (6, 2)]),
        (
            59,
            &[(1, 1), (5, 1), (5, 1), (5, 1), (2, 1), (5, 1), (5, 1)],
        ),
        (11, &[(4, 2); 8]),
        (
            37,
            &[
                (1, 1),
                (2, 1),
                (3, 1),
                (4, 1),
                (5, 1),
                (6, 1),
                (1, 5),
                (6, 5),
            ],
        ),
        (127, &[(5, 2), (3, 7)]),
    ];
    let mut random = Random::new(0x57E9);
    for (p, conditions) in cards {
        let card = card_bytes(p, 64, conditions);
        let (left, right) = draw_lists(&mut random, &card, 1);
        let mut caps = vec![NO_CAP];
        let least = base_depth(&card);
        if rooms_within(least, &card) != rooms_within(NO_CAP, &card) {
            caps.push(least);
        }
        for cap in caps {
            let [first, second] = rooms_within(cap, &card);
            script.build_within(cap, first, second, &card);
            script.run(8_200, &left, &right);
            script.swap();
            script.cut(second);
            script.check();
            script.run(8_200, &left, &right);
            script.swap();
        }
    }
}

/// Values from B to p-1 are run all the same, and both tables answer the same.
fn values_that_are_no_digits(script: &mut Script) {
    let (first, second) = script.build_within_exactly(NO_CAP, &card_bytes(11, 50, &[(1, 1)]));
    for (left, right) in [(0, 6), (0, 10), (10, 0), (6, 10), (10, 10), (5, 10)] {
        script.cut(8 * first + 8);
        script.run(first, &[left], &[right]);
        script.swap();
        script.cut(8 * second + 8);
        script.run(second, &[left], &[right]);
        script.swap();
    }
    // What Run turns away.
    script.swap();
    for (room, left, right) in [(9, 11, 0), (9, 0, 11), (second - 1, 0, 1)] {
        script.run(room, &[left], &[right]);
    }
    script.run(9, &[0, 0], &[0]);
    script.swap();
}

/// A small table over a larger one, in both areas: later bytes are those of the
/// larger ones.
fn bytes_after_the_tables(script: &mut Script) {
    let large = card_bytes(43, 75, &[(1, 2)]);
    let [large_first, large_second] = rooms_within(NO_CAP, &large);
    for (p, relation) in [(3, 2), (13, 1), (3, 5)] {
        let small = card_bytes(p, 75, &[(relation, 1)]);
        let [first, second] = rooms_within(NO_CAP, &small);
        script.build_within(NO_CAP, large_first, large_second, &large);
        script.build_within(NO_CAP, large_first, large_second, &small);
        script.trim();
        script.swap();
        script.trim();
        script.check();
        // Damaged behind the table, and in it.
        script.set(second, 0xFF);
        script.check();
        script.set(second - 8, 0xFF);
        script.check();
        script.swap();
        script.build_within(NO_CAP, first, second, &small);
        script.swap();
        script.cut(second + 1);
        script.check();
        script.swap();
    }
}

/// Drawn cards with caps about the depth of the base table, run on drawn digits.
fn drawn_cards(script: &mut Script) {
    let mut random = Random::new(0x57E95);
    for round in 0..10 {
        let card = draw_card(&mut random);
        let cap = base_depth(&card) + round as u16 % 3;
        script.build_within(cap - 1, 30, 30, &card);
        let gates = second_table(script, cap, &card);
        script.check();
        let (left, right) = draw_lists(&mut random, &card, round % 5);
        script.run(gates, &left, &right);
        script.run(gates, &right, &left);
        script.swap();
    }
}

/// Sixteen digits at p=251, in one condition, two and eight.
fn largest_cards(script: &mut Script) {
    let cards: [Conditions; 4] = [&[(1, 16)], &[(2, 16)], &[(4, 8), (3, 8)], &[(2, 2); 8]];
    let top = half_range(251) - 1;
    for (conditions, weight) in cards.into_iter().zip([100, 50, 75, 99]) {
        let card = card_bytes(251, weight, conditions);
        let depth = base_depth(&card);
        for cap in [depth - 1, depth, depth + 1] {
            let [first, second] = rooms_within(cap, &card);
            script.build_within(cap, first, second.max(8), &card);
        }
        let [first, second] = rooms_within(NO_CAP, &card);
        script.build_within(NO_CAP, first, second - 1, &card);
        script.build_within(NO_CAP, first - 1, second, &card);
        script.build_within(NO_CAP, 65_600, 65_600, &card);
        script.swap();
        script.check();
        script.trim();
        let gates = second / 8 - 1;
        script.last_uses(gates);
        script.run(gates - 1, &[0; 16], &[0; 16]);
        let mut higher = [top; 16];
        higher[0] = top - 1;
        for (left, right) in [
            ([0; 16], [top; 16]),
            ([top; 16], higher),
            (higher, [top; 16]),
        ] {
            script.run(gates, &left, &right);
        }
        script.swap();
        script.check();
    }
}
