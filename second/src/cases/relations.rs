//! Relations: built tables run on numbers.

use super::writer::{draw_lists, Script};
use super::{RELATIONS, SOME_PRIMES};
use crate::card::card_bytes;
use crate::digits::encode;
use crate::field::{half_range, PRIMES};
use crate::random::Random;

pub fn write(script: &mut Script) {
    every_small_pair(script);
    forecasts(script);
    each_relation_at_some_primes(script);
    every_prime(script);
    several_conditions(script);
    drawn_cards(script);
}

/// Each relation on every pair of numbers below 9, at p=5 with two digits.
fn every_small_pair(script: &mut Script) {
    for relation in RELATIONS {
        let gates = script.build_exactly(&card_bytes(5, 50, &[(relation, 2)]));
        for left in 0..9 {
            for right in 0..9 {
                script.run(gates, &two_digits(left), &two_digits(right));
            }
        }
    }
}

fn two_digits(number: u64) -> [u8; 2] {
    let mut digits = [0; 2];
    encode(5, 2, number, &mut digits).expect("a number below 9");
    digits
}

fn forecasts(script: &mut Script) {
    for p in SOME_PRIMES {
        for relation in [2, 6] {
            for n in [1, 3, 9, 16] {
                script.forecast(&card_bytes(p, 83, &[(relation, n)]));
            }
        }
    }
}

fn each_relation_at_some_primes(script: &mut Script) {
    let mut random = Random::new(0x5E1EC7);
    for p in SOME_PRIMES {
        for relation in RELATIONS {
            for n in [1, 2, 5] {
                let card = card_bytes(p, 100 - n, &[(relation, n)]);
                let gates = script.build_exactly(&card);
                let changed = random.below(5);
                let (left, right) = draw_lists(&mut random, &card, changed);
                script.run(gates, &left, &right);
                if n == 5 {
                    script.run(gates, &right, &left);
                }
            }
        }
    }
}

/// The ends of the digit range at each prime.
fn every_prime(script: &mut Script) {
    for (p, relation) in PRIMES.into_iter().zip([1, 2, 3, 4].into_iter().cycle()) {
        let top = half_range(p) - 1;
        let gates = script.build_exactly(&card_bytes(p, 71, &[(relation, 1), (5, 1)]));
        script.run(gates, &[0, top], &[top, top]);
        script.run(gates, &[top, 0], &[0, 0]);
    }
}

/// Two to eight conditions; depths that make the tree pair out of card order.
fn several_conditions(script: &mut Script) {
    let cards: [&[(u8, u8)]; 16] = [
        &[(1, 1), (1, 1)],
        &[(1, 4), (5, 1), (2, 1)],
        &[(5, 1), (1, 4), (6, 1)],
        &[(5, 8), (5, 1), (5, 1), (5, 1)],
        &[(5, 1), (5, 2), (5, 3), (5, 4)],
        &[(5, 4), (5, 3), (5, 2), (5, 1)],
        &[(6, 1), (6, 1), (6, 1), (6, 1), (6, 1)],
        &[(1, 3), (2, 3), (3, 3), (4, 3), (5, 2), (6, 2)],
        &[(6, 2), (5, 2), (4, 3), (3, 3), (2, 3), (1, 3)],
        &[(4, 5), (5, 5), (1, 1), (1, 1), (6, 2), (2, 1)],
        &[(5, 1), (5, 1), (5, 1), (5, 1), (5, 1), (5, 1), (5, 9)],
        &[(1, 1); 8],
        &[(2, 2); 8],
        &[
            (1, 1),
            (2, 1),
            (3, 1),
            (4, 1),
            (5, 1),
            (6, 1),
            (1, 5),
            (6, 5),
        ],
        &[
            (6, 3),
            (3, 1),
            (5, 3),
            (4, 1),
            (1, 2),
            (2, 1),
            (6, 2),
            (5, 3),
        ],
        &[(5, 16)],
    ];
    let mut random = Random::new(0xC0DD);
    for (conditions, &p) in cards.into_iter().zip(SOME_PRIMES.iter().cycle()) {
        let card = card_bytes(p, 64, conditions);
        script.forecast(&card);
        let gates = script.build_exactly(&card);
        script.check();
        for changed in [0, 2] {
            let (left, right) = draw_lists(&mut random, &card, changed);
            script.run(gates, &left, &right);
        }
    }
}

fn drawn_cards(script: &mut Script) {
    run_drawn(script, Random::new(0xCA4D), 48, draw_card);
}

/// Drawn cards, run on drawn digits.
pub fn run_drawn(
    script: &mut Script,
    mut random: Random,
    rounds: u64,
    draw_card: fn(&mut Random) -> Vec<u8>,
) {
    for round in 0..rounds {
        let card = draw_card(&mut random);
        script.forecast(&card);
        let gates = script.build_exactly(&card);
        script.check();
        let (left, right) = draw_lists(&mut random, &card, round % 8);
        script.run(gates, &left, &right);
        script.run(gates, &right, &left);
    }
}

/// A plain card with any prime and weight, and as many conditions as there is room
/// for.
pub fn draw_card(random: &mut Random) -> Vec<u8> {
    let p = random.pick(&PRIMES);
    let weight = 50 + random.byte_below(51);
    let mut room = 16;
    let mut conditions = Vec::new();
    for _ in 0..1 + random.below(8) {
        if room == 0 {
            break;
        }
        let n = 1 + random.byte_below(room.min(5));
        room -= n;
        conditions.push((random.pick(&RELATIONS), n));
    }
    card_bytes(p, weight, &conditions)
}
