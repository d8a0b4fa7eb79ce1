//! Plain cards: what Forecast and Build answer and turn away.

use super::writer::Script;
use super::BENCH;
use crate::card::card_bytes;
use crate::field::is_listed;

pub fn write(script: &mut Script) {
    bench_card(script);
    counts_of_the_document(script);
    borders_of_the_document(script);
    card_mended_one_rule_at_a_time(script);
    conditions_in_turn(script);
    two_rules_broken(script);
    unlisted_primes(script);
    weights(script);
    condition_counts_and_lengths(script);
    relations_and_digit_counts(script);
    all_digits(script);
    damaged_card(script);
    rooms(script);
}

fn bench_card(script: &mut Script) {
    script.check();
    script.trim();
    script.run(3, &[0], &[0]);
    bench_in_rooms(script, &BENCH, 64);
    for left in 0..3 {
        for right in 0..3 {
            script.run(9, &[left], &[right]);
        }
    }
    script.forecast(&BENCH[..9]);
}

/// The bench card of a form: in one byte less than its table takes, just enough,
/// one more, and few that are shown; then its table in as many bytes.
pub fn bench_in_rooms(script: &mut Script, card: &[u8], length: usize) {
    script.forecast(card);
    for room in [length - 1, length, length + 1, 40] {
        script.build(room, card);
        script.check();
        script.trim();
    }
    script.cut(length);
    script.check();
}

fn counts_of_the_document(script: &mut Script) {
    let cards = [
        card_bytes(7, 50, &[(5, 1)]),
        card_bytes(5, 100, &[(1, 2)]),
        card_bytes(5, 100, &[(2, 2)]),
        card_bytes(5, 80, &[(1, 1), (5, 3)]),
        card_bytes(5, 100, &[(1, 1)]),
        card_bytes(7, 100, &[(1, 1)]),
    ];
    for card in &cards {
        script.forecast(card);
        script.build_exactly(card);
        script.check();
        script.trim();
    }
    // 5 against 7, 7 against 5 and 8 against 8.
    let gates = script.build_exactly(&cards[1]);
    script.run(gates, &[2, 1], &[1, 2]);
    script.run(gates, &[1, 2], &[2, 1]);
    script.run(gates, &[2, 2], &[2, 2]);
    // Digits up to p-1 are no digits: 0 < 3 comes out 0.
    let gates = script.build_exactly(&cards[4]);
    script.run(gates, &[0], &[3]);
    script.run(gates, &[0], &[2]);
}

fn borders_of_the_document(script: &mut Script) {
    for (p, weight) in [(251, 50), (249, 50), (2, 50), (249, 49), (3, 49), (3, 101)] {
        both(script, &card_bytes(p, weight, &[(1, 1)]));
    }
    both(script, &card_bytes(3, 50, &[(1, 17)]));
    both(script, &card_bytes(3, 50, &[(1, 8), (5, 9)]));
}

/// Forecast, and Build with no byte and with a few shown ones.
pub fn both(script: &mut Script, card: &[u8]) {
    script.forecast(card);
    script.build(0, card);
    script.build(20, card);
}

/// A card of two conditions with a byte too many, whose head and length are mended
/// one rule at a time; the mark of the head ends with this byte.
pub fn mend_head(script: &mut Script, card: &mut Vec<u8>, mark: u8) {
    both(script, &card[..5]);
    both(script, &card[..6]);
    both(script, card);
    let head = [(0, 0xC5), (1, mark), (2, 5), (3, 50), (5, 0), (4, 2)];
    mend(script, card, &head);
    card.pop();
    both(script, card);
}

/// Everything is wrong at first; each step mends the first wrong thing.
fn card_mended_one_rule_at_a_time(script: &mut Script) {
    let mut card = vec![0xC4, 0x49, 4, 49, 9, 1];
    card.extend([0xC4, 0x50, 0, 0]);
    card.extend([0xC4, 0x50, 7, 17]);
    card.push(0xFF);
    both(script, &[]);
    both(script, &card[..1]);
    mend_head(script, &mut card, 0x48);
    mend(script, &mut card, &[(6, 0xC5), (7, 0x51), (8, 1), (9, 16)]);
    mend(
        script,
        &mut card,
        &[(10, 0xC5), (11, 0x51), (12, 5), (13, 16)],
    );
    mend(script, &mut card, &[(9, 1), (13, 1)]);
    // Accepted now; 11 is the last to go.
    let gates = script.build_exactly(&card);
    script.build(8 * gates + 7, &card);
}

/// Puts each byte in its place in turn, and asks both each time.
pub fn mend(script: &mut Script, card: &mut [u8], bytes: &[(usize, u8)]) {
    for &(place, byte) in bytes {
        card[place] = byte;
        both(script, card);
    }
}

/// An earlier condition's last rule goes before a later one's first.
fn conditions_in_turn(script: &mut Script) {
    let good = card_bytes(5, 60, &[(1, 1), (5, 2), (6, 3)]);
    for first in 0..12 {
        for second in first + 1..12 {
            if first / 4 == second / 4 {
                continue;
            }
            let mut card = good.clone();
            card[6 + first] = 0x52;
            card[6 + second] = 0;
            script.forecast(&card);
        }
    }
    // All three conditions of a short or long card go after its length.
    script.forecast(&good[..17]);
    script.forecast(&good[..10]);
    script.build(80, &[&good[..], &good[6..10]].concat());
}

/// Breaks one rule of a card.
pub type Break = fn(&mut Vec<u8>);

/// The places in a record of six bytes of mark, relation, n, what a form has after
/// it, and spare.
const FIELDS: [usize; 5] = [1, 2, 3, 4, 5];

/// An earlier record's last rule goes before a later one's first: each field of the
/// one, of this wrong byte, against each of the other, of a good card whose records
/// have six bytes.
pub fn each_field_in_turn(script: &mut Script, good: &[u8], pairs: &[(usize, usize)], wrong: u8) {
    for &(first, second) in pairs {
        for earlier in FIELDS {
            for later in FIELDS {
                let mut card = good.to_vec();
                card[6 + 6 * first + earlier] = wrong;
                card[6 + 6 * second + later] = 0xFF;
                script.forecast(&card);
            }
        }
    }
}

/// The rules of a head, of any form.
const HEAD_RULES: [Break; 7] = [
    |card| card[0] ^= 1,
    |card| card[1] ^= 0x40,
    |card| card[2] = 9,
    |card| card[3] = 200,
    |card| card[5] = 3,
    |card| card[4] = 0,
    |card| card.push(0),
];

fn two_rules_broken(script: &mut Script) {
    let rules: [Break; 4] = [
        |card| card[7] = 0x48,
        |card| card[8] = 9,
        |card| card[9] = 0,
        |card| card[13] = 16,
    ];
    each_pair_broken(script, &card_bytes(7, 70, &[(2, 1), (6, 2)]), &rules);
}

/// Each pair of broken rules answers the earlier one.
pub fn each_pair_broken(script: &mut Script, good: &[u8], of_records: &[Break]) {
    for card in broken_pairs(good, of_records) {
        script.forecast(&card);
    }
}

/// Cards with two broken rules: of those of the head, those of the records, and at
/// last a card that is too short.
pub fn broken_pairs(good: &[u8], of_records: &[Break]) -> Vec<Vec<u8>> {
    let too_short: Break = |card| card.truncate(5);
    let rules = [&HEAD_RULES, of_records, &[too_short]].concat();
    let mut cards = Vec::new();
    for (place, first) in rules.iter().enumerate() {
        for second in &rules[place + 1..] {
            let mut card = good.to_vec();
            first(&mut card);
            second(&mut card);
            cards.push(card);
        }
    }
    cards
}

/// Odd numbers that are no primes, and the ends of the list.
fn unlisted_primes(script: &mut Script) {
    for p in 0..=255 {
        if !is_listed(p) && (p % 2 == 1 || !(6..250).contains(&p)) {
            script.forecast(&card_bytes(p, 50, &[(5, 1)]));
        }
    }
    for p in [0, 1, 2, 4, 9, 247, 249, 253, 255] {
        script.build(30, &card_bytes(p, 50, &[(5, 1)]));
    }
}

fn weights(script: &mut Script) {
    for weight in [0, 1, 48, 49, 50, 51, 75, 99, 100, 101, 102, 178, 255] {
        let card = card_bytes(11, weight, &[(1, 1), (6, 1)]);
        script.forecast(&card);
        script.build(500, &card);
    }
}

/// Counts 0 to 10 with the length that fits, and lengths about it.
fn condition_counts_and_lengths(script: &mut Script) {
    for count in 0..=10 {
        let card = card_bytes(3, 50, &vec![(5, 1); count]);
        script.forecast(&card);
        script.build(500, &card);
    }
    let card = card_bytes(3, 50, &[(5, 1), (1, 1), (2, 1)]);
    for count in [0, 1, 2, 4, 8, 9, 255] {
        let mut card = card.clone();
        card[4] = count;
        script.forecast(&card);
    }
    for length in 0..card.len() {
        script.forecast(&card[..length]);
    }
    for length in [1, 3, 4, 5] {
        let longer = [&card[..], &card[6..6 + length]].concat();
        script.forecast(&longer);
        script.build(9, &longer);
    }
}

fn relations_and_digit_counts(script: &mut Script) {
    for relation in [0, 1, 2, 3, 4, 5, 6, 7, 8, 0x51, 255] {
        script.forecast(&card_bytes(5, 50, &[(relation, 1)]));
        script.forecast(&card_bytes(5, 50, &[(1, 2), (relation, 3)]));
        script.build(40, &card_bytes(5, 50, &[(relation, 0)]));
    }
    for relation in [2, 5] {
        for n in (0..=17).chain([32, 128, 255]) {
            script.forecast(&card_bytes(13, 90, &[(relation, n)]));
        }
    }
}

fn all_digits(script: &mut Script) {
    let cards: [&[(u8, u8)]; 8] = [
        &[(1, 8), (2, 8)],
        &[(1, 8), (2, 9)],
        &[(1, 15), (5, 1)],
        &[(5, 16), (6, 1)],
        &[(5, 16); 8],
        &[(3, 2); 8],
        &[
            (4, 2),
            (4, 2),
            (4, 2),
            (4, 2),
            (4, 2),
            (4, 2),
            (4, 2),
            (4, 3),
        ],
        &[(5, 16), (5, 17)],
    ];
    for conditions in cards {
        both(script, &card_bytes(7, 66, conditions));
    }
}

/// Each byte of a card, damaged in a few ways.
fn damaged_card(script: &mut Script) {
    let good = card_bytes(5, 80, &[(1, 1), (5, 3)]);
    for place in 0..good.len() {
        for damage in [0x01, 0x02, 0x80] {
            let mut card = good.clone();
            card[place] ^= damage;
            script.forecast(&card);
            script.build(300, &card);
        }
        let mut card = good.clone();
        card[place] = 0xFF;
        script.forecast(&card);
    }
}

fn rooms(script: &mut Script) {
    let cards = [
        card_bytes(3, 50, &[(5, 1)]),
        card_bytes(3, 50, &[(6, 1), (5, 1)]),
        card_bytes(17, 77, &[(4, 2)]),
        card_bytes(13, 100, &[(3, 1), (6, 4), (2, 2)]),
        card_bytes(31, 51, &[(1, 3)]),
    ];
    each_in_rooms(script, &cards);
}

/// Lent tables of one byte too few, just enough, and more.
pub fn each_in_rooms(script: &mut Script, cards: &[Vec<u8>]) {
    for card in cards {
        let gates = script.build_exactly(card);
        for room in [0, 7, 8, 8 * gates, 8 * gates + 7, 8 * gates + 9] {
            script.build(room, card);
        }
        script.check();
        script.trim();
    }
}
