//! Step sizes: what is turned away, rooms for the two tables, and caps.

use super::cards::{broken_pairs, Break};
use super::writer::{rooms_within, Script};
use super::{BENCH, SCORE_BENCH, SHARED_BENCH};
use crate::card::{card_bytes, score_card_bytes, shared_card_bytes, Card};
use crate::forecast::card_report;
use crate::step_count::best_choice;

pub fn write(script: &mut Script) {
    bench_card(script);
    card_mended_one_rule_at_a_time(script);
    records_in_turn(script);
    two_rules_broken(script);
    before_the_cap(script);
    other_forms(script);
    numbers_of_the_head(script);
    numbers_of_records(script);
    damaged_card(script);
    rooms(script);
    rooms_and_caps(script);
    caps(script);
}

/// The highest cap.
const NO_CAP: u16 = u16::MAX;

/// Both tables of the bench card have 64 bytes: one byte too few for the first,
/// the second and both, just enough and more, with caps from 0 on. Then a call
/// that is turned away shows how both begin.
fn bench_card(script: &mut Script) {
    for (first, second) in [(0, 0), (40, 40), (63, 63), (63, 64), (64, 63), (64, 64)] {
        script.build_within(1, first, second, &BENCH);
    }
    script.build_within(1, 40, 40, &BENCH);
    script.check();
    script.cut(64);
    script.check();
    script.swap();
    script.check();
    script.trim();
    script.swap();
    for cap in [0, 1, 2, 255, 256, NO_CAP] {
        script.build_within(cap, 65, 67, &BENCH);
    }
    script.build_within(0, 0, 40, &BENCH);
    script.build_within(NO_CAP, 65_600, 65_600, &BENCH);
}

/// Asks with few bytes and no level, both of which are too little for any card.
fn ask(script: &mut Script, card: &[u8]) {
    script.build_within(0, 8, 16, card);
}

/// Everything is wrong at first; each step mends the first wrong thing.
fn card_mended_one_rule_at_a_time(script: &mut Script) {
    let mut card = vec![0xC4, 0x49, 4, 49, 9, 1];
    card.extend([0xC4, 0x50, 0, 0]);
    card.extend([0xC4, 0x50, 7, 17]);
    card.push(0xFF);
    for length in [0, 1, 5, 6, 15] {
        ask(script, &card[..length]);
    }
    mend(script, &mut card, &[(0, 0xC5), (1, 0x48), (2, 5), (3, 50)]);
    mend(script, &mut card, &[(5, 0), (4, 2)]);
    card.pop();
    ask(script, &card);
    mend(script, &mut card, &[(6, 0xC5), (7, 0x51), (8, 1), (9, 16)]);
    mend(script, &mut card, &[(10, 0xC5), (11, 0x51), (12, 5)]);
    mend(script, &mut card, &[(13, 16), (9, 1), (13, 1)]);
    // Accepted now: the cap goes before the bytes, and the order of the two
    // buffers makes no difference.
    let [first, second] = rooms_within(NO_CAP, &card);
    let depth = depths(&card)[0];
    script.build_within(depth - 1, first, second, &card);
    script.build_within(depth, 8, 16, &card);
    script.build_within(depth, first, second - 1, &card);
    script.build_within(depth, first - 1, second, &card);
    script.build_within(depth, first, second, &card);
    script.build_within(depth, 16, 8, &card);
}

/// Puts each byte in its place in turn, and asks each time.
fn mend(script: &mut Script, card: &mut [u8], bytes: &[(usize, u8)]) {
    for &(place, byte) in bytes {
        card[place] = byte;
        ask(script, card);
    }
}

/// An earlier condition's last rule goes before a later one's first.
fn records_in_turn(script: &mut Script) {
    let good = card_bytes(5, 60, &[(1, 1), (5, 2)]);
    for earlier in 7..10 {
        for later in 11..14 {
            let mut card = good.clone();
            card[earlier] = 0x52;
            card[later] = 0;
            ask(script, &card);
        }
    }
}

/// Every second pair of broken rules.
fn two_rules_broken(script: &mut Script) {
    let rules: [Break; 4] = [
        |card| card[7] = 0x57,
        |card| card[8] = 7,
        |card| card[9] = 0,
        |card| card[13] = 16,
    ];
    let good = card_bytes(7, 70, &[(3, 1), (6, 2)]);
    for card in broken_pairs(&good, &rules).iter().step_by(2) {
        ask(script, card);
    }
}

/// Each rule alone goes before 29, and before 11 where the cap is none; 29 goes
/// before 11.
fn before_the_cap(script: &mut Script) {
    let rules: [Break; 11] = [
        |card| card.truncate(5),
        |card| card[1] = 0x53,
        |card| card[2] = 251 - 2,
        |card| card[3] = 101,
        |card| card[5] = 1,
        |card| card[4] = 9,
        |card| card.truncate(13),
        |card| card[10] = 0xC4,
        |card| card[12] = 0,
        |card| card[13] = 17,
        |card| card[13] = 14,
    ];
    let good = card_bytes(11, 70, &[(4, 3), (5, 1)]);
    let [first, second] = rooms_within(NO_CAP, &good);
    for break_rule in rules {
        let mut card = good.clone();
        break_rule(&mut card);
        script.build_within(0, first, second, &card);
        script.build_within(NO_CAP, 4, 4, &card);
    }
    for (cap, first, second) in [(0, 4, 4), (0, first, 4), (0, 4, second), (NO_CAP, 4, 4)] {
        script.build_within(cap, first, second, &good);
    }
}

/// "Cards that are not plain give 2", after 1 and before all else.
fn other_forms(script: &mut Script) {
    let plain = card_bytes(7, 60, &[(1, 1), (5, 2), (6, 1)]);
    let score = score_card_bytes(7, 60, &[(1, 1, 2), (5, 2, 3)]);
    let shared = shared_card_bytes(7, 60, &[(1, 1, 2), (5, 2, 3)]);
    for bench in [&SCORE_BENCH, &SHARED_BENCH] {
        script.build_within(1, 64, 64, bench);
        script.build_within(NO_CAP, 65_600, 65_600, bench);
        ask(script, bench);
        ask(script, &bench[..6]);
        ask(script, &bench[..5]);
    }
    for other in [&score, &shared] {
        script.build_within(NO_CAP, 1_000, 1_000, other);
        // The plain records after the other head, and the other way.
        script.build_within(NO_CAP, 1_000, 1_000, &[&other[..6], &plain[6..]].concat());
        script.build_within(NO_CAP, 1_000, 1_000, &[&plain[..6], &other[6..]].concat());
        // What else may be wrong with such a card.
        for (place, byte) in [(2, 4), (5, 1), (4, 9), (7, 0), (10, 255)] {
            let mut card = other.clone();
            card[place] = byte;
            ask(script, &card);
        }
    }
    // Second bytes of a head's mark.
    for mark in [0x47, 0x49, 0x4B, 0x51, 0x57, 0xC8] {
        let mut card = plain.clone();
        card[1] = mark;
        ask(script, &card);
    }
}

fn numbers_of_the_head(script: &mut Script) {
    for p in [0, 1, 2, 4, 9, 247, 249, 253, 255] {
        ask(script, &card_bytes(p, 50, &[(1, 1)]));
    }
    for weight in [0, 49, 50, 100, 101, 255] {
        script.build_within(4, 200, 200, &card_bytes(11, weight, &[(1, 1)]));
    }
    for count in [0, 1, 7, 8, 9] {
        let card = card_bytes(3, 50, &vec![(1, 1); count]);
        script.build_within(4, 600, 600, &card);
    }
    for (count, length) in [(0, 14), (1, 14), (3, 14), (9, 14), (2, 13), (2, 10)] {
        let mut card = card_bytes(3, 50, &[(1, 1), (2, 1)]);
        card[4] = count;
        ask(script, &card[..length]);
    }
}

fn numbers_of_records(script: &mut Script) {
    for relation in [0, 1, 2, 3, 4, 5, 6, 7, 255] {
        script.build_within(9, 300, 300, &card_bytes(5, 50, &[(relation, 2)]));
    }
    for n in [0, 1, 15, 16, 17, 255] {
        script.build_within(9, 2_000, 2_000, &card_bytes(3, 50, &[(3, n)]));
    }
    let cards: [&[(u8, u8)]; 5] = [
        &[(1, 8), (5, 8)],
        &[(1, 8), (5, 9)],
        &[(5, 16), (1, 1)],
        &[(2, 2); 8],
        &[(1, 16); 8],
    ];
    for conditions in cards {
        script.build_within(9, 2_000, 2_000, &card_bytes(3, 50, conditions));
    }
}

/// Each byte of a card, damaged.
fn damaged_card(script: &mut Script) {
    let good = card_bytes(5, 80, &[(1, 1), (5, 3)]);
    for place in 0..good.len() {
        let mut card = good.clone();
        card[place] ^= 0x02;
        script.build_within(6, 400, 400, &card);
    }
}

/// Each buffer with too few bytes and with one more than enough, beside one that
/// has just enough; both with one byte too few; and the two rooms exchanged.
fn rooms(script: &mut Script) {
    let cards = [
        card_bytes(5, 75, &[(1, 1)]),
        card_bytes(13, 100, &[(3, 1)]),
        card_bytes(7, 100, &[(2, 2)]),
        card_bytes(17, 60, &[(4, 2), (6, 1)]),
    ];
    for card in &cards {
        let [first, second] = rooms_within(NO_CAP, card);
        for room in [0, 8, first - 8, first - 1, first + 1] {
            script.build_within(NO_CAP, room, second, card);
        }
        script.build_within(NO_CAP, first - 1, second - 1, card);
        for room in [0, 8, second - 8, second - 1, second + 1] {
            script.build_within(NO_CAP, first, room, card);
        }
        script.build_within(NO_CAP, second, first, card);
        script.build_within(NO_CAP, first + 40, second + 40, card);
        // How both begin.
        script.build_within(NO_CAP, 40, 40, card);
    }
}

/// At p=31 the cap decides which table goes into the second buffer, and so how
/// many bytes 11 asks for.
fn rooms_and_caps(script: &mut Script) {
    let card = card_bytes(31, 75, &[(1, 1)]);
    let [base, deepest] = depths(&card);
    for cap in [base, deepest] {
        let [first, second] = rooms_within(cap, &card);
        for room in [second - 1, second] {
            for cap in [base - 1, base, deepest] {
                script.build_within(cap, first, room, &card);
            }
        }
    }
}

/// The depths of the base table and of the best step size where there is no cap.
fn depths(card: &[u8]) -> [u16; 2] {
    let card = Card::read(card).expect("an accepted card");
    let best = best_choice(&card, NO_CAP).expect("a step size without a cap");
    [card_report(&card).depth.0, best.report.depth.0]
}

/// Caps below, at and above the depths of the base table and of the best step size
/// where there is no cap. Where they differ, the cap between decides.
fn caps(script: &mut Script) {
    let cards = [
        card_bytes(3, 75, &[(1, 1)]),
        card_bytes(5, 60, &[(1, 2)]),
        card_bytes(31, 100, &[(2, 1)]),
        card_bytes(31, 75, &[(3, 3)]),
        card_bytes(59, 75, &[(4, 1)]),
        card_bytes(61, 75, &[(1, 2), (6, 1)]),
        card_bytes(61, 75, &[(5, 8), (1, 1)]),
        card_bytes(127, 88, &[(1, 4)]),
        card_bytes(31, 75, &[(5, 2), (6, 1)]),
        card_bytes(251, 75, &[(2, 1), (3, 1), (5, 1)]),
    ];
    for card in &cards {
        let [base, deepest] = depths(card);
        let mut caps = vec![0, base - 1, base, deepest, deepest + 1];
        caps.dedup();
        for cap in caps {
            let [first, second] = rooms_within(cap, card);
            script.build_within(cap, first, second.max(16), card);
        }
    }
}
