//! Score cards: what Forecast and Build answer and turn away.

use super::cards::{
    bench_in_rooms, both, each_field_in_turn, each_in_rooms, each_pair_broken, mend, mend_head,
    Break,
};
use super::writer::Script;
use super::{SCORE_BENCH, SOME_PRIMES};
use crate::card::{card_bytes, score_card_bytes};

pub fn write(script: &mut Script) {
    bench_card(script);
    card_mended_one_rule_at_a_time(script);
    records_in_turn(script);
    two_rules_broken(script);
    condition_weights(script);
    two_weights(script);
    weights_of_one(script);
    eight_weights(script);
    totals_above_a_byte(script);
    digits_before_total(script);
    forms_exchanged(script);
    marks(script);
    condition_counts(script);
    lengths_of_both_forms(script);
    lengths(script);
    relations_and_digit_counts(script);
    all_digits(script);
    damaged_card(script);
    rooms(script);
}

fn bench_card(script: &mut Script) {
    bench_in_rooms(script, &SCORE_BENCH, 72);
    script.forecast(&SCORE_BENCH[..11]);
}

/// Everything is wrong at first; each step mends the first wrong thing.
fn card_mended_one_rule_at_a_time(script: &mut Script) {
    let mut card = vec![0xC4, 0x52, 4, 49, 9, 1];
    card.extend([0xC4, 0x56, 0, 0, 0, 1]);
    card.extend([0xC4, 0x56, 7, 17, 5, 255]);
    card.push(0xFF);
    mend_head(script, &mut card, 0x53);
    let first = [(6, 0xC5), (7, 0x57), (8, 1), (9, 16), (10, 4), (11, 0)];
    mend(script, &mut card, &first);
    let second = [(12, 0xC5), (13, 0x57), (14, 5), (15, 16), (16, 4), (17, 0)];
    mend(script, &mut card, &second);
    // 32, 17 and 2 digits, then weights of 8, 5 and 4.
    mend(script, &mut card, &[(9, 1), (15, 1), (10, 1), (16, 3)]);
    // Accepted now; 11 is the last to go.
    let gates = script.build_exactly(&card);
    script.build(8 * gates + 7, &card);
}

fn records_in_turn(script: &mut Script) {
    let good = score_card_bytes(5, 60, &[(1, 1, 1), (5, 2, 1), (6, 3, 2)]);
    each_field_in_turn(script, &good, &[(0, 1), (0, 2), (1, 2)], 0x52);
}

fn two_rules_broken(script: &mut Script) {
    let rules: [Break; 7] = [
        |card| card[7] = 0x51,
        |card| card[8] = 9,
        |card| card[9] = 0,
        |card| card[10] = 7,
        |card| card[11] = 1,
        |card| card[15] = 16,
        |card| card[16] = 6,
    ];
    let good = score_card_bytes(7, 70, &[(2, 1, 2), (6, 2, 3)]);
    each_pair_broken(script, &good, &rules);
}

/// Both sides of each border of a weight; 9 goes before it and 5 after it.
fn condition_weights(script: &mut Script) {
    for p in [3, 5, 31, 251] {
        for weight in [0, 1, p - 1, p, p + 1, 255] {
            script.forecast(&score_card_bytes(p, 80, &[(6, 1, weight)]));
            script.forecast(&score_card_bytes(p, 80, &[(2, 17, weight)]));
            let mut card = score_card_bytes(p, 80, &[(3, 1, weight)]);
            card[11] = p;
            script.forecast(&card);
            script.build(20, &card);
        }
    }
}

/// A weight of 1 and one of p-1, each with others that make totals about p.
fn two_weights(script: &mut Script) {
    for p in SOME_PRIMES {
        for first in [1, p - 1] {
            for total in [p - 1, p, p + 1] {
                let conditions = [(4, 1, first), (5, 1, total - first)];
                script.forecast(&score_card_bytes(p, 90, &conditions));
            }
        }
    }
}

/// Only p-1 conditions have room at the smallest primes: two at p=3.
fn weights_of_one(script: &mut Script) {
    for p in [3, 5, 7] {
        for count in 1..=8 {
            script.forecast(&score_card_bytes(p, 50, &vec![(5, 1, 1); count]));
        }
    }
}

fn eight_weights(script: &mut Script) {
    for p in [11, 17, 127, 251] {
        for total in [p - 1, p, p + 1] {
            let mut conditions = [(6, 2, p / 8); 8];
            conditions[7].2 = total - 7 * (p / 8);
            script.forecast(&score_card_bytes(p, 50, &conditions));
        }
    }
}

/// Totals that are below p modulo 256.
fn totals_above_a_byte(script: &mut Script) {
    let cards: [&[(u8, u8, u8)]; 8] = [
        &[(5, 1, 128), (5, 1, 128)],
        &[(5, 1, 250), (5, 1, 6)],
        &[(5, 1, 7), (5, 1, 250)],
        &[(5, 1, 250), (5, 1, 250)],
        &[(5, 1, 250), (5, 1, 250), (5, 1, 12)],
        &[(5, 1, 32); 8],
        &[(5, 1, 64); 8],
        &[(5, 1, 250); 8],
    ];
    for conditions in cards {
        script.forecast(&score_card_bytes(251, 50, conditions));
    }
}

/// 10 goes before 26, and 26 before 11.
fn digits_before_total(script: &mut Script) {
    for digits in [9, 8] {
        for weight in [12, 7, 6] {
            let card = score_card_bytes(13, 75, &[(1, 8, 6), (5, digits, weight)]);
            both(script, &card);
        }
    }
}

/// Heads and records of the two forms exchanged: 18 bytes are three plain
/// records or two of a score card.
fn forms_exchanged(script: &mut Script) {
    let plain = card_bytes(7, 60, &[(1, 1), (5, 2), (6, 1)]);
    let score = score_card_bytes(7, 60, &[(1, 1, 2), (5, 2, 3)]);
    both(script, &plain);
    both(script, &score);
    both(script, &[&plain[..6], &score[6..]].concat());
    both(script, &[&score[..6], &plain[6..]].concat());
    // The other form's mark in one record alone.
    for (card, places, mark) in [
        (&plain, &[7, 11, 15][..], 0x57),
        (&score, &[7, 13][..], 0x51),
    ] {
        for &place in places {
            let mut card = card.clone();
            card[place] = mark;
            both(script, &card);
        }
    }
}

/// Second bytes of the marks of heads and records, in both forms.
fn marks(script: &mut Script) {
    let plain = card_bytes(7, 60, &[(1, 1), (5, 2)]);
    let score = score_card_bytes(7, 60, &[(1, 1, 2), (5, 2, 3)]);
    for (card, places) in [(&plain, [1, 7, 11]), (&score, [1, 7, 13])] {
        for place in places {
            for mark in [0x47, 0x48, 0x51, 0x53, 0x57, 0xD3] {
                let mut card = card.clone();
                card[place] = mark;
                script.forecast(&card);
            }
        }
    }
}

/// Counts 0 to 9 with the length that fits, and other counts.
fn condition_counts(script: &mut Script) {
    for count in 0..=9 {
        let card = score_card_bytes(11, 50, &vec![(5, 1, 1); count]);
        script.forecast(&card);
        script.build(600, &card);
    }
    for count in [0, 1, 2, 4, 8, 9, 255] {
        let mut card = score_card_bytes(11, 50, &[(5, 1, 1), (1, 1, 2), (2, 1, 3)]);
        card[4] = count;
        script.forecast(&card);
    }
}

/// 6+4c bytes with the head of a score card and 6+6c with that of a plain one.
fn lengths_of_both_forms(script: &mut Script) {
    for count in 1..=8 {
        let plain = card_bytes(11, 50, &vec![(5, 1); count]);
        let score = score_card_bytes(11, 50, &vec![(5, 1, 1); count]);
        script.forecast(&[&score[..6], &plain[6..]].concat());
        script.forecast(&[&plain[..6], &score[6..]].concat());
    }
}

/// Each length up to that of three conditions, and longer ones.
fn lengths(script: &mut Script) {
    let card = score_card_bytes(11, 50, &[(5, 1, 1), (1, 1, 2), (2, 1, 3)]);
    for length in 0..card.len() {
        script.forecast(&card[..length]);
    }
    for length in [1, 2, 4, 5, 6, 12] {
        let longer = [&card[..], &card[6..6 + length]].concat();
        script.forecast(&longer);
        script.build(9, &longer);
    }
}

fn relations_and_digit_counts(script: &mut Script) {
    for relation in [0, 1, 2, 3, 4, 5, 6, 7, 8, 0x57, 255] {
        script.forecast(&score_card_bytes(5, 50, &[(relation, 1, 4)]));
        script.forecast(&score_card_bytes(5, 50, &[(1, 2, 1), (relation, 3, 0)]));
    }
    for relation in [2, 5] {
        for n in [0, 1, 2, 3, 4, 5, 8, 9, 15, 16, 17, 255] {
            script.forecast(&score_card_bytes(13, 90, &[(relation, n, 12)]));
        }
    }
}

fn all_digits(script: &mut Script) {
    let cards: [&[(u8, u8, u8)]; 6] = [
        &[(1, 15, 8), (5, 1, 8)],
        &[(5, 16, 8), (6, 1, 8)],
        &[(5, 16, 2); 8],
        &[(3, 2, 2); 8],
        &[
            (4, 2, 1),
            (4, 2, 1),
            (4, 2, 1),
            (4, 2, 1),
            (4, 2, 1),
            (4, 2, 1),
            (4, 2, 1),
            (4, 3, 1),
        ],
        &[(5, 16, 1), (5, 17, 0)],
    ];
    for conditions in cards {
        both(script, &score_card_bytes(17, 66, conditions));
    }
}

/// Each byte of a card, damaged in a few ways.
fn damaged_card(script: &mut Script) {
    let good = score_card_bytes(5, 80, &[(1, 1, 1), (5, 3, 2)]);
    for place in 0..good.len() {
        for damage in [0x01, 0x02, 0x80] {
            let mut card = good.clone();
            card[place] ^= damage;
            script.forecast(&card);
        }
        let mut card = good.clone();
        card[place] ^= 0x01;
        script.build(300, &card);
    }
}

fn rooms(script: &mut Script) {
    let cards = [
        score_card_bytes(3, 50, &[(5, 1, 1)]),
        score_card_bytes(3, 50, &[(6, 1, 1), (5, 1, 1)]),
        score_card_bytes(17, 77, &[(4, 2, 16)]),
        score_card_bytes(13, 100, &[(3, 1, 1), (6, 4, 10), (2, 2, 1)]),
    ];
    each_in_rooms(script, &cards);
}
