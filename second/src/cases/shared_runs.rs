//! Shared cards: built tables run on numbers.

use super::writer::{draw_lists, equal_right, Script};
use super::RELATIONS;
use crate::card::{card_bytes, shared_card_bytes, Card};
use crate::digits::encode;
use crate::field::{half_range, PRIMES};
use crate::random::Random;
use crate::table::RECORD_BYTES;

pub fn write(script: &mut Script) {
    between_20_and_40_metres(script);
    every_range_of_one_digit(script);
    every_range_of_two_digits(script);
    some_ranges_of_two_digits(script);
    overlapping_fields(script);
    each_relation(script);
    several_conditions(script);
    like_plain_cards(script);
    unused_slots(script);
    values_that_are_no_digits(script);
    runs_turned_away(script);
    drawn_cards(script);
    products_and_last_uses(script);
    many_right_slots(script);
}

/// Relation, n and first left slot of each condition.
type Conditions = &'static [(u8, u8, u8)];

/// The digits of numbers, one after the other.
fn digits_of(p: u8, n: usize, numbers: &[u64]) -> Vec<u8> {
    let mut digits = vec![0; n * numbers.len()];
    for (place, &number) in digits.chunks_mut(n).zip(numbers) {
        encode(p, n, number, place).expect("a number of n digits");
    }
    digits
}

/// "Distance at least 20 m" and "distance at most 40 m", of one distance.
fn between_20_and_40_metres(script: &mut Script) {
    let card = shared_card_bytes(31, 75, &[(4, 3, 0), (2, 3, 0)]);
    script.forecast(&card);
    let gates = script.build_exactly(&card);
    script.check();
    script.trim();
    // Room for the head alone, which shows it; one byte too few; and one more
    // than enough.
    script.build(8, &card);
    script.build(8 * gates + 7, &card);
    script.build(8 * gates + 9, &card);
    let query = digits_of(31, 3, &[20, 40]);
    for distance in [0, 19, 20, 21, 34, 39, 40, 41, 276, 4_095] {
        script.run(gates, &digits_of(31, 3, &[distance]), &query);
    }
    // No distance is between 40 and 20, and one between 20 and 20.
    for query in [[40, 20], [20, 20]] {
        let query = digits_of(31, 3, &query);
        for distance in [19, 20, 30] {
            script.run(gates, &digits_of(31, 3, &[distance]), &query);
        }
    }
}

/// Runs the card's table for all these numbers on both sides, two of them on the
/// right.
fn run_all(script: &mut Script, card: &[u8], n: usize, numbers: u64) {
    let gates = script.build_exactly(card);
    for left in 0..numbers {
        for first in 0..numbers {
            for second in 0..numbers {
                let right = digits_of(card[2], n, &[first, second]);
                script.run(gates, &digits_of(card[2], n, &[left]), &right);
            }
        }
    }
}

/// Two conditions over one digit at p=5: at least and at most, and above and not
/// equal.
fn every_range_of_one_digit(script: &mut Script) {
    for [first, second] in [[4, 2], [3, 6]] {
        let card = shared_card_bytes(5, 60, &[(first, 1, 0), (second, 1, 0)]);
        run_all(script, &card, 1, 3);
    }
}

/// Two conditions over one number of two digits at p=3.
fn every_range_of_two_digits(script: &mut Script) {
    run_all(
        script,
        &shared_card_bytes(3, 60, &[(4, 2, 0), (2, 2, 0)]),
        2,
        4,
    );
}

/// All numbers of two digits at p=5 against an open range, an empty one and a
/// range of one number.
fn some_ranges_of_two_digits(script: &mut Script) {
    let gates = script.build_exactly(&shared_card_bytes(5, 60, &[(3, 2, 0), (1, 2, 0)]));
    for query in [[2, 7], [6, 3], [3, 5]] {
        let right = digits_of(5, 2, &query);
        for left in 0..9 {
            script.run(gates, &digits_of(5, 2, &[left]), &right);
        }
    }
}

/// Runs where all numbers are equal, and where each right digit in turn is one
/// more or one less: which left slot it is compared with tells in the output.
fn run_each_digit(script: &mut Script, card: &[u8], left: &[u8]) {
    let gates = script.build_exactly(card);
    let read = Card::read(card).expect("an accepted card");
    let equal = equal_right(&read, left);
    script.run(gates, left, &equal);
    for place in 0..equal.len() {
        for other in [equal[place] + 1, equal[place] - 1] {
            let mut right = equal.clone();
            right[place] = other;
            script.run(gates, left, &right);
        }
    }
}

/// Three conditions over fields that have digits in common, two over a field and
/// its upper part, and two exchanged fields. All left digits differ.
fn overlapping_fields(script: &mut Script) {
    let cards: [Conditions; 4] = [
        &[(4, 3, 0), (2, 3, 2), (4, 2, 1)],
        &[(5, 3, 0), (5, 3, 2)],
        &[(4, 4, 0), (2, 2, 2)],
        &[(2, 2, 2), (4, 2, 0)],
    ];
    for conditions in cards {
        let card = shared_card_bytes(13, 70, conditions);
        let slots = Card::read(&card).expect("an accepted card").left_slots();
        run_each_digit(script, &card, &[3, 1, 5, 2, 4][..slots]);
    }
}

/// Each relation from the first slot, and beside it from a later one.
fn each_relation(script: &mut Script) {
    let mut random = Random::new(0x5E1ED);
    for p in [3, 251] {
        for (relation, next) in RELATIONS.into_iter().zip([2, 3, 4, 5, 6, 1]) {
            let card = shared_card_bytes(p, 100, &[(relation, 2, 0), (next, 1, 1)]);
            let gates = script.build_exactly(&card);
            for changed in [0, 4] {
                let (left, right) = draw_lists(&mut random, &card, changed);
                script.run(gates, &left, &right);
            }
        }
    }
}

/// One to eight conditions, with depths that differ.
fn several_conditions(script: &mut Script) {
    let cards: [(u8, Conditions); 8] = [
        (7, &[(2, 4, 12)]),
        (11, &[(1, 4, 0), (5, 1, 3)]),
        (5, &[(5, 1, 6), (1, 4, 0), (6, 1, 6)]),
        (13, &[(5, 4, 0), (5, 3, 1), (5, 2, 2), (5, 1, 3)]),
        (17, &[(4, 2, 0), (2, 2, 0), (6, 2, 0), (4, 2, 4), (2, 2, 4)]),
        (
            37,
            &[
                (1, 1, 5),
                (2, 1, 4),
                (3, 1, 3),
                (4, 1, 2),
                (5, 1, 1),
                (6, 1, 0),
            ],
        ),
        (3, &[(6, 2, 0); 7]),
        (
            127,
            &[
                (4, 3, 1),
                (2, 3, 1),
                (6, 1, 1),
                (5, 1, 0),
                (5, 1, 0),
                (3, 2, 4),
                (1, 2, 4),
                (6, 3, 3),
            ],
        ),
    ];
    let mut random = Random::new(0xC0DDE);
    for (p, conditions) in cards {
        let card = shared_card_bytes(p, 64, conditions);
        script.forecast(&card);
        let gates = script.build_exactly(&card);
        script.check();
        for changed in [0, 2] {
            let (left, right) = draw_lists(&mut random, &card, changed);
            script.run(gates, &left, &right);
        }
    }
}

/// First slots 0, n1, n1+n2: the gates of a plain card under another head. Where
/// the heads differ they become 0, and the rest is shown to be the same.
fn like_plain_cards(script: &mut Script) {
    let plain = card_bytes(11, 90, &[(3, 2), (5, 1), (2, 3)]);
    let shared = shared_card_bytes(11, 90, &[(3, 2, 0), (5, 1, 2), (2, 3, 3)]);
    for card in [plain, shared] {
        let gates = script.build_exactly(&card);
        script.check();
        script.run(gates, &[1, 2, 3, 4, 5, 0], &[0, 2, 3, 4, 5, 0]);
        script.run(gates, &[1, 2, 3, 4, 5, 0], &[1, 2, 3, 4, 5, 0]);
        script.build(8, &card);
        script.set(1, 0);
        script.set(5, 0);
        script.build(8 * gates + 7, &card);
    }
}

/// Left slots that no condition uses: any value below p passes there, and only
/// there it makes no difference.
fn unused_slots(script: &mut Script) {
    let card = shared_card_bytes(7, 50, &[(5, 1, 4), (1, 1, 2)]);
    let gates = script.build_exactly(&card);
    for slot in 0..5 {
        for value in [0, 6, 7] {
            let mut left = [1, 1, 1, 1, 2];
            left[slot] = value;
            script.run(gates, &left, &[2, 2]);
        }
    }
}

/// Values from B to p-1 are run all the same.
fn values_that_are_no_digits(script: &mut Script) {
    let gates = script.build_exactly(&shared_card_bytes(7, 50, &[(4, 1, 1), (2, 1, 1)]));
    for left in [0, 4, 6] {
        for right in [[3, 6], [6, 0]] {
            script.run(gates, &[6, left], &right);
        }
    }
}

/// Table, lists, values and work are all wrong at first; then the lists are
/// exchanged, and each has the other's length.
fn runs_turned_away(script: &mut Script) {
    let gates = script.build_exactly(&shared_card_bytes(3, 75, &[(5, 1, 0), (6, 1, 0)]));
    script.set(5, 0);
    script.run(gates - 1, &[3, 3], &[3]);
    script.set(5, 1);
    script.run(gates - 1, &[3, 3], &[3]);
    script.set(5, 2);
    script.run(gates - 1, &[3, 3], &[3]);
    script.run(gates - 1, &[3], &[3]);
    script.run(gates - 1, &[3, 3], &[3, 3]);
    script.run(gates - 1, &[3], &[3, 3]);
    script.run(gates - 1, &[2], &[2, 3]);
    script.run(gates - 1, &[2], &[2, 1]);
    script.run(gates, &[2], &[2, 1]);
    script.run(gates + 1, &[2], &[2, 2]);
}

/// Drawn cards, run on drawn digits.
fn drawn_cards(script: &mut Script) {
    let mut random = Random::new(0x54A4ED);
    for round in 0..10 {
        let card = draw_card(&mut random);
        script.forecast(&card);
        let gates = script.build_exactly(&card);
        script.check();
        for changed in [round % 3, round % 8] {
            let (left, right) = draw_lists(&mut random, &card, changed);
            script.run(gates, &left, &right);
        }
    }
}

/// Conditions anywhere on the left, as many as there are right slots for.
fn draw_card(random: &mut Random) -> Vec<u8> {
    let p = random.pick(&PRIMES);
    let weight = 50 + random.byte_below(51);
    let mut room = 16;
    let mut conditions = Vec::new();
    for _ in 0..1 + random.below(8) {
        if room == 0 {
            break;
        }
        let n = 1 + random.byte_below(room.min(4));
        room -= n;
        // Few slots, so that most are shared, or now and then any.
        let last = if random.below(4) == 0 { 16 - n } else { 3 };
        let first = random.byte_below(last + 1);
        conditions.push((random.pick(&RELATIONS), n, first));
    }
    shared_card_bytes(p, weight, &conditions)
}

/// Conditions that are the same but for their right slots have gates of their
/// own, so that all products and squares count. At last the output reads gate 2
/// and not the later one of two trees, whose MULs do not count then.
fn products_and_last_uses(script: &mut Script) {
    let cards: [(u8, Conditions); 4] = [
        (3, &[(5, 1, 0), (5, 1, 0)]),
        (5, &[(1, 2, 1), (1, 2, 1)]),
        (7, &[(6, 2, 0); 8]),
        (31, &[(4, 3, 0), (2, 3, 0)]),
    ];
    for (p, conditions) in cards {
        let gates = script.build_exactly(&shared_card_bytes(p, 75, conditions));
        script.check();
        script.last_uses(gates - 1);
        script.last_uses(gates);
        let last = RECORD_BYTES * gates;
        script.set(last + 6, 2);
        script.set(last + 7, 0);
        script.check();
    }
}

/// 16 right slots from few left slots at p=251, and the longest table.
fn many_right_slots(script: &mut Script) {
    let cards: [Conditions; 3] = [&[(2, 2, 0); 8], &[(4, 8, 0), (2, 8, 0)], &[(2, 16, 0)]];
    let top = half_range(251) - 1;
    for conditions in cards {
        let card = shared_card_bytes(251, 99, conditions);
        script.forecast(&card);
        let gates = script.build_exactly(&card);
        script.check();
        script.trim();
        let slots = Card::read(&card).expect("an accepted card").left_slots();
        script.run(gates, &vec![top; slots], &[top; 16]);
        script.run(8_200, &vec![top; slots], &[0; 16]);
        script.run(gates - 1, &vec![top; slots], &[top; 16]);
        script.build(8 * gates + 7, &card);
        script.build(65_600, &card);
        script.build(8, &card);
    }
}
