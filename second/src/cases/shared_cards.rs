//! Shared cards: what Forecast and Build answer and turn away.

use super::cards::{
    bench_in_rooms, both, each_field_in_turn, each_in_rooms, each_pair_broken, mend, mend_head,
    Break,
};
use super::writer::Script;
use super::SHARED_BENCH;
use crate::card::{card_bytes, score_card_bytes, shared_card_bytes};

pub fn write(script: &mut Script) {
    bench_card(script);
    card_mended_one_rule_at_a_time(script);
    records_in_turn(script);
    two_rules_broken(script);
    first_slots(script);
    before_and_after_first_slots(script);
    first_slots_of_eight(script);
    first_slots_before_right_slots(script);
    right_slots(script);
    left_counts(script);
    forms_exchanged(script);
    marks(script);
    weights_and_first_slots(script);
    condition_counts(script);
    lengths_of_all_forms(script);
    lengths(script);
    relations_and_digit_counts(script);
    forecasts(script);
    damaged_card(script);
    rooms(script);
}

fn bench_card(script: &mut Script) {
    bench_in_rooms(script, &SHARED_BENCH, 64);
    script.forecast(&SHARED_BENCH[..11]);
}

/// Everything is wrong at first; each step mends the first wrong thing.
fn card_mended_one_rule_at_a_time(script: &mut Script) {
    let mut card = vec![0xC4, 0x4B, 4, 49, 9, 1];
    card.extend([0xC4, 0x53, 0, 0, 255, 1]);
    card.extend([0xC4, 0x53, 7, 17, 16, 255]);
    card.push(0xFF);
    mend_head(script, &mut card, 0x4A);
    // A first slot of 255, of 1 and of 0, with n = 16.
    let first = [(6, 0xC5), (7, 0x52), (8, 1), (9, 16)];
    mend(script, &mut card, &first);
    mend(script, &mut card, &[(10, 1), (10, 0), (11, 0)]);
    // A first slot of 16, of 2 and of 1, with n = 15.
    let second = [(12, 0xC5), (13, 0x52), (14, 5), (15, 15)];
    mend(script, &mut card, &second);
    mend(script, &mut card, &[(16, 2), (16, 1), (17, 0)]);
    // 31, 17 and 16 right slots.
    mend(script, &mut card, &[(9, 2), (9, 1)]);
    // Accepted now; 11 is the last to go.
    let gates = script.build_exactly(&card);
    script.build(8 * gates + 7, &card);
}

fn records_in_turn(script: &mut Script) {
    let good = shared_card_bytes(5, 60, &[(1, 1, 0), (5, 2, 0), (6, 3, 1)]);
    each_field_in_turn(script, &good, &[(0, 1), (1, 2)], 0x57);
}

/// The last two rules are the first slot of the second record and, with its
/// first slot at 0, the right slots of both.
fn two_rules_broken(script: &mut Script) {
    let rules: [Break; 7] = [
        |card| card[7] = 0x51,
        |card| card[8] = 9,
        |card| card[9] = 0,
        |card| card[10] = 16,
        |card| card[11] = 1,
        |card| card[16] = 15,
        |card| card[15] = 16,
    ];
    let good = shared_card_bytes(7, 70, &[(2, 1, 3), (6, 2, 0)]);
    each_pair_broken(script, &good, &rules);
}

/// First slot plus n 16, 17, 255, 256 and 257, and first slots at both ends.
fn first_slots(script: &mut Script) {
    for n in [1, 2, 8, 15, 16] {
        let mut firsts = vec![0, 15, 16, 255];
        firsts.extend([16, 17, 255].map(|sum| sum - n));
        firsts.extend([0, 1].map(|sum: u8| sum.wrapping_sub(n)));
        firsts.sort();
        firsts.dedup();
        for first in firsts {
            script.forecast(&shared_card_bytes(7, 80, &[(5, n, first)]));
        }
    }
}

/// 9 goes before 28, and 28 before 5.
fn before_and_after_first_slots(script: &mut Script) {
    for first in [0, 15, 16, 255] {
        for n in [0, 1, 16, 17, 255] {
            let mut card = shared_card_bytes(251, 80, &[(2, n, first)]);
            card[11] = 16;
            script.forecast(&card);
        }
    }
}

/// One of eight conditions has first slot plus n 16, and then 17.
fn first_slots_of_eight(script: &mut Script) {
    for one in [0, 4, 7] {
        for first in [14, 15] {
            let mut conditions = [(6, 2, 0); 8];
            conditions[one].2 = first;
            script.forecast(&shared_card_bytes(11, 80, &conditions));
        }
    }
}

/// 28 goes before 10, in either record, and 10 before 11.
fn first_slots_before_right_slots(script: &mut Script) {
    for (n, firsts) in [(9, [0, 7, 8]), (8, [0, 8, 9])] {
        for first in firsts {
            for conditions in [[(1, 8, 8), (5, n, first)], [(5, n, first), (1, 8, 8)]] {
                let card = shared_card_bytes(13, 75, &conditions);
                script.forecast(&card);
                script.build(0, &card);
            }
        }
    }
}

/// 10 counts right slots: 16 and more of them, from two left slots and from all.
fn right_slots(script: &mut Script) {
    let mut seventeen = [(4, 2, 0); 8];
    seventeen[7].1 = 3;
    let cards: [&[(u8, u8, u8)]; 10] = [
        &[(1, 8, 0), (2, 8, 0)],
        &[(1, 8, 0), (2, 9, 0)],
        &[(1, 15, 1), (5, 1, 0)],
        &[(5, 16, 0), (6, 1, 15)],
        &[(5, 16, 0), (6, 1, 0)],
        &[(5, 16, 0); 8],
        &[(3, 2, 14); 8],
        &seventeen,
        &[(5, 1, 0); 8],
        &[(5, 16, 0), (5, 17, 0)],
    ];
    for conditions in cards {
        let card = shared_card_bytes(7, 66, conditions);
        script.forecast(&card);
        script.build(20, &card);
    }
}

/// Heads of tables: the left count is the highest used slot plus 1, whichever
/// condition has it and whatever is unused below it. A room of one head is too
/// small, and shows the one that is there.
fn left_counts(script: &mut Script) {
    let cards: [&[(u8, u8, u8)]; 14] = [
        // One condition, from the first slot on and after holes.
        &[(5, 3, 0)],
        &[(5, 1, 5)],
        &[(1, 2, 14)],
        &[(6, 1, 15)],
        // Two: the same slots, some in common, one within the other.
        &[(4, 3, 0), (2, 3, 0)],
        &[(4, 3, 0), (2, 3, 2)],
        &[(4, 3, 2), (2, 3, 0)],
        &[(4, 5, 0), (2, 1, 2)],
        &[(5, 1, 4), (2, 5, 0)],
        // Exchanged, and with holes between and before.
        &[(1, 2, 2), (5, 2, 0)],
        &[(1, 1, 0), (5, 2, 5)],
        &[(5, 1, 9), (6, 1, 3)],
        // The highest slot in the middle of the card, and in many conditions.
        &[(5, 1, 0), (5, 1, 15), (5, 1, 7)],
        &[(6, 2, 1); 8],
    ];
    for (conditions, &p) in cards.into_iter().zip([3, 5, 7].iter().cycle()) {
        let card = shared_card_bytes(p, 50, conditions);
        script.build_exactly(&card);
        script.check();
        script.build(8, &card);
    }
}

/// Heads and records of the forms exchanged: 12 bytes are three plain records,
/// or two of another form.
fn forms_exchanged(script: &mut Script) {
    let plain = card_bytes(7, 60, &[(1, 1), (5, 2), (6, 1)]);
    let score = score_card_bytes(7, 60, &[(1, 1, 2), (5, 2, 3)]);
    let shared = shared_card_bytes(7, 60, &[(1, 1, 2), (5, 2, 3)]);
    both(script, &shared);
    for other in [plain, score] {
        both(script, &[&shared[..6], &other[6..]].concat());
        both(script, &[&other[..6], &shared[6..]].concat());
        // One record alone.
        both(script, &[&shared[..12], &other[12..]].concat());
        both(script, &[&other[..12], &shared[12..]].concat());
    }
}

/// Second bytes of the marks of heads and records, in all forms.
fn marks(script: &mut Script) {
    let plain = card_bytes(7, 60, &[(1, 1), (5, 2)]);
    let score = score_card_bytes(7, 60, &[(1, 1, 2), (5, 2, 3)]);
    let shared = shared_card_bytes(7, 60, &[(1, 1, 2), (5, 2, 3)]);
    let all = [0x48, 0x49, 0x4A, 0x4B, 0x51, 0x52, 0x53, 0x57, 0xCA, 0xD2];
    let new = [0x4A, 0x52];
    for (card, places, marks) in [
        (&plain, [1, 7, 11], &new[..]),
        (&score, [1, 7, 13], &new),
        (&shared, [1, 7, 13], &all),
    ] {
        for place in places {
            for &mark in marks {
                let mut card = card.clone();
                card[place] = mark;
                script.forecast(&card);
            }
        }
    }
}

/// What a score card has for weights are first slots here, and the other way:
/// 25 and 26 are of no shared card, 28 is of no score card.
fn weights_and_first_slots(script: &mut Script) {
    for numbers in [[0, 0], [3, 3], [6, 6], [7, 2], [15, 1], [16, 1], [1, 16]] {
        let conditions = numbers.map(|number| (1, 1, number));
        script.forecast(&shared_card_bytes(7, 60, &conditions));
        script.forecast(&score_card_bytes(7, 60, &conditions));
    }
}

/// Counts 0 to 9 with the length that fits, and other counts.
fn condition_counts(script: &mut Script) {
    for count in 0..=9 {
        let card = shared_card_bytes(3, 50, &vec![(5, 1, 1); count]);
        script.forecast(&card);
        if count % 8 < 2 {
            script.build(500, &card);
        }
    }
    for count in [0, 1, 3, 8, 9, 255] {
        let mut card = shared_card_bytes(11, 50, &[(5, 1, 1), (1, 1, 1)]);
        card[4] = count;
        script.forecast(&card);
    }
}

/// 6+4c bytes with the head of a shared card, and 6+6c with that of another.
fn lengths_of_all_forms(script: &mut Script) {
    for count in [1, 2, 3, 8] {
        let plain = card_bytes(11, 50, &vec![(5, 1); count]);
        let score = score_card_bytes(11, 50, &vec![(5, 1, 1); count]);
        let shared = shared_card_bytes(11, 50, &vec![(5, 1, 1); count]);
        for other in [plain, score] {
            script.forecast(&[&shared[..6], &other[6..]].concat());
            script.forecast(&[&other[..6], &shared[6..]].concat());
        }
    }
}

/// Each length up to that of two conditions, and longer ones.
fn lengths(script: &mut Script) {
    let card = shared_card_bytes(11, 50, &[(5, 1, 1), (1, 1, 1)]);
    for length in 0..card.len() {
        script.forecast(&card[..length]);
    }
    for length in [1, 2, 4, 5, 6] {
        script.forecast(&[&card[..], &card[6..6 + length]].concat());
    }
}

fn relations_and_digit_counts(script: &mut Script) {
    for relation in [0, 1, 2, 3, 4, 5, 6, 7, 8, 0x52, 255] {
        script.forecast(&shared_card_bytes(5, 50, &[(relation, 1, 4)]));
        script.forecast(&shared_card_bytes(5, 50, &[(1, 2, 1), (relation, 3, 14)]));
    }
    for n in [0, 1, 2, 3, 4, 5, 8, 9, 15, 16, 17, 255] {
        script.forecast(&shared_card_bytes(13, 90, &[(2, n, 0)]));
    }
}

/// The counts are those of a plain card, whatever slots are shared.
fn forecasts(script: &mut Script) {
    for p in [3, 31, 251] {
        script.forecast(&card_bytes(p, 83, &[(4, 3), (2, 3), (5, 2)]));
        for [a, b, c] in [[0, 3, 6], [0, 0, 0], [13, 1, 9]] {
            let conditions = [(4, 3, a), (2, 3, b), (5, 2, c)];
            script.forecast(&shared_card_bytes(p, 83, &conditions));
        }
    }
}

/// Each byte of a card, damaged in a few ways.
fn damaged_card(script: &mut Script) {
    let good = shared_card_bytes(5, 80, &[(1, 1, 2), (5, 3, 0)]);
    for place in 0..good.len() {
        for damage in [0x01, 0x80] {
            let mut card = good.clone();
            card[place] ^= damage;
            script.forecast(&card);
        }
        let mut card = good.clone();
        card[place] ^= 0x01;
        script.build(300, &card);
    }
}

fn rooms(script: &mut Script) {
    let cards = [
        shared_card_bytes(3, 50, &[(6, 1, 2), (5, 1, 2)]),
        shared_card_bytes(17, 77, &[(4, 2, 14)]),
        shared_card_bytes(13, 100, &[(3, 1, 3), (6, 4, 0), (2, 2, 2)]),
    ];
    each_in_rooms(script, &cards);
}
