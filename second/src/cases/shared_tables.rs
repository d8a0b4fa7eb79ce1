//! Tables with a slot count for each side: what Check, Trim, Run and the
//! last-use list answer and turn away.

use super::tables::{draw_gates, gate, mend_table, scale, table_with};
use super::writer::Script;
use super::{BENCH, SHARED_BENCH};
use crate::card::shared_card_bytes;
use crate::field::PRIMES;
use crate::random::Random;
use crate::table::{table_bytes, Gate, Kind, Slots};

pub fn write(script: &mut Script) {
    table_mended_one_rule_at_a_time(script);
    two_rules_broken(script);
    slot_counts(script);
    slot_counts_in_turn(script);
    heads_exchanged(script);
    left_and_right_slots(script);
    list_lengths(script);
    list_values(script);
    runs_in_turn(script);
    unused_and_repeated_products(script);
    lists_in_turn(script);
    drawn_tables(script);
    damaged_head(script);
    lengths(script);
    longest(script);
}

fn left(slot: u16) -> Gate {
    gate(Kind::Left, slot, 0)
}

fn right(slot: u16) -> Gate {
    gate(Kind::Right, slot, 0)
}

/// A table with this many slots on each side.
fn shared_table_of(p: u8, weight: u8, left: u8, right: u8, gates: &[Gate]) -> Vec<u8> {
    table_with(p, weight, Slots::Each { left, right }, gates)
}

/// LEFT 2, RIGHT 1 and their difference, at p=5 with three left slots and two
/// right ones.
fn small_table() -> Vec<u8> {
    let gates = [left(2), right(1), gate(Kind::Sub, 0, 1)];
    shared_table_of(5, 50, 3, 2, &gates)
}

/// Everything is wrong at first; each step mends the first wrong thing. The
/// lists and the work of Run are wrong all along.
fn table_mended_one_rule_at_a_time(script: &mut Script) {
    let good = small_table();
    let mut bytes = vec![0x46, 0x4B, 9, 101, 17, 0, 0, 0x20];
    for _ in 0..3 {
        bytes.extend([0x46, 0x55, 8, 1, 3, 0, 3, 1]);
    }
    script.table(&bytes);
    mend_table(script, &good);
    script.trim();
    script.last_uses(3);
}

/// Each pair of broken rules answers the earlier one.
fn two_rules_broken(script: &mut Script) {
    for first in 0..RULES {
        for second in first + 1..RULES {
            let mut bytes = shared_table_of(5, 50, 3, 2, &[right(1)]);
            break_rule(&mut bytes, first);
            break_rule(&mut bytes, second);
            script.table(&bytes);
            script.check();
        }
    }
}

const RULES: usize = 12;

fn break_rule(bytes: &mut Vec<u8>, rule: usize) {
    match rule {
        0 => bytes[1] = 0x54,
        1 => bytes[2] = 15,
        2 => bytes[3] = 49,
        3 => bytes[4] = 0,
        4 => bytes[5] = 17,
        5 => bytes[7] = 0x20,
        6 => bytes[9] = 0x4A,
        7 => bytes[11] = 1,
        8 => bytes[10] = 0,
        9 => bytes[12] = 2,
        10 => bytes.truncate(15),
        _ => bytes.truncate(7),
    }
}

/// Both counts on both sides of each border, each beside the other; then the
/// same N and spare in a head of the other mark.
fn slot_counts(script: &mut Script) {
    script.table(&shared_table_of(7, 60, 1, 1, &[left(0)]));
    let counts = [0, 1, 16, 17, 255];
    for mark in [0x4A, 0x48] {
        script.set(1, mark);
        for byte4 in counts {
            script.set(4, byte4);
            for byte5 in counts {
                script.set(5, byte5);
                script.check();
            }
        }
    }
    // All that are in range, more of the one side with fewer of the other.
    script.set(1, 0x4A);
    for count in 1..=16 {
        script.set(4, count);
        script.set(5, 17 - count);
        script.check();
    }
}

/// 13 goes after 4 and before 14, for each count; in the other head 5 goes
/// between.
fn slot_counts_in_turn(script: &mut Script) {
    for mark in [0x4A, 0x48] {
        let mut bytes = shared_table_of(7, 49, 17, 17, &[left(0)]);
        bytes[1] = mark;
        bytes[6] = 0;
        script.table(&bytes);
        script.check();
        for (place, byte) in [(3, 60), (4, 16), (5, 1), (5, 0), (6, 1), (5, 16)] {
            script.set(place, byte);
            script.check();
            script.trim();
        }
    }
}

/// A built table of each head, with the mark of the other one. A plain table
/// needs a right count then; a shared one has its left count on both sides, and
/// names right slots that are not below it.
fn heads_exchanged(script: &mut Script) {
    script.build(64, &BENCH);
    for (place, byte) in [(1, 0x4A), (5, 1), (4, 2)] {
        script.set(place, byte);
        script.check();
        script.run(7, &[0], &[1]);
        script.run(7, &[0, 2], &[1]);
    }
    script.build_exactly(&shared_card_bytes(3, 60, &[(5, 2, 0), (6, 2, 0)]));
    for (place, byte) in [(1, 0x48), (5, 0), (4, 3), (4, 4)] {
        script.set(place, byte);
        script.check();
        script.run(24, &[0, 1], &[0, 1, 1, 1]);
        script.run(24, &[0, 1, 0, 1], &[0, 1, 1, 1]);
    }
}

/// 17 reads LEFT against the left count and RIGHT against the right one: the
/// last slot and the one after it, of the own side and of the other.
fn left_and_right_slots(script: &mut Script) {
    let mut last = shared_table_of(7, 60, 3, 2, &[left(0)]);
    script.table(&last);
    for (counts, slots) in [
        ([3, 2], &[1, 2, 3][..]),
        ([2, 3], &[1, 2, 3]),
        ([1, 1], &[0, 1]),
        ([16, 1], &[0, 1, 15, 16]),
        ([1, 16], &[0, 1, 15, 16]),
        ([16, 16], &[15, 16]),
    ] {
        let lists = counts.map(slots_by_number);
        for side in [left, right] {
            for &slot in slots {
                let bytes = shared_table_of(7, 60, counts[0], counts[1], &[side(slot)]);
                script.change(0, &last, &bytes);
                last = bytes;
                script.check();
                script.run(1, &lists[0], &lists[1]);
            }
        }
    }
    // A high byte of a, and a b.
    for one in [left(256), right(256), gate(Kind::Left, 0, 1), right(15)] {
        let bytes = shared_table_of(7, 60, 16, 16, &[one]);
        script.change(0, &last, &bytes);
        last = bytes;
        script.check();
    }
}

/// A list of this length at p=7, whose values tell a slot from those near it.
fn slots_by_number(count: u8) -> Vec<u8> {
    (0..count).map(|slot| slot % 7).collect()
}

/// 18 with each side too short and too long, and with the other side's count.
fn list_lengths(script: &mut Script) {
    let gates = [left(0), right(0), gate(Kind::Mul, 0, 1)];
    for (left_count, right_count) in [(3, 2), (1, 3)] {
        script.table(&shared_table_of(7, 60, left_count, right_count, &gates));
        for left_length in 1..=4 {
            for right_length in 1..=4 {
                let lists = [left_length, right_length].map(|length| vec![6; length]);
                script.run(3, &lists[0], &lists[1]);
            }
        }
    }
    script.table(&shared_table_of(7, 60, 16, 1, &gates));
    for (left_length, right_length) in [(16, 1), (1, 16), (16, 16), (15, 1), (17, 1), (16, 0)] {
        script.run(3, &vec![5; left_length], &vec![4; right_length]);
    }
}

/// 19 in each slot of each side, of which only left slot 2 and right slot 1 are
/// used.
fn list_values(script: &mut Script) {
    script.table(&small_table());
    for value in [4, 5, 255] {
        for slot in 0..3 {
            let mut list = [1, 2, 3];
            list[slot] = value;
            script.run(3, &list, &[1, 2]);
        }
        for slot in 0..2 {
            let mut list = [1, 2];
            list[slot] = value;
            script.run(3, &[1, 2, 3], &list);
        }
    }
}

/// 18 goes before 19, and 19 before 20; what was lent is kept.
fn runs_in_turn(script: &mut Script) {
    script.run(2, &[5, 5], &[5, 5, 5]);
    script.run(2, &[5, 5, 5], &[5, 5, 5]);
    script.run(2, &[5, 5], &[5, 5]);
    script.run(2, &[5, 0, 0], &[0, 0]);
    script.run(2, &[0, 0, 0], &[0, 5]);
    script.run(2, &[0, 0, 4], &[0, 1]);
    script.run(0, &[0, 0, 4], &[0, 1]);
    script.run(3, &[0, 0, 4], &[0, 1]);
    script.run(5, &[4, 4, 0], &[4, 1]);
}

/// Products and squares count as in any table: three are unused, and one pair is
/// there in both orders.
fn unused_and_repeated_products(script: &mut Script) {
    let mul = |a, b| gate(Kind::Mul, a, b);
    let gates = [
        left(4),
        right(0),
        // The same slot as gate 0, yet another gate.
        left(4),
        mul(0, 1),
        mul(1, 2),
        mul(1, 0),
        mul(2, 2),
        mul(0, 0),
        gate(Kind::Add, 3, 5),
        gate(Kind::Sub, 8, 4),
        mul(9, 9),
        scale(9, -2),
    ];
    script.table(&shared_table_of(31, 75, 5, 1, &gates));
    script.check();
    script.trim();
    script.run(12, &[0, 1, 2, 3, 30], &[7]);
    script.last_uses(12);
    // The square of gate 9 is the output.
    script.set(6, 11);
    script.check();
}

/// 27 goes after all of Check's; what was lent is kept.
fn lists_in_turn(script: &mut Script) {
    script.set(5, 0);
    script.last_uses(10);
    script.set(5, 1);
    script.set(4, 4);
    script.last_uses(10);
    script.last_uses(12);
    script.set(4, 5);
    script.last_uses(10);
    script.last_uses(11);
}

/// Drawn gates with other counts than the slots that they name.
fn drawn_tables(script: &mut Script) {
    let mut random = Random::new(0x5A4ED);
    for round in 0..6 {
        let p = random.pick(&PRIMES);
        let [fewer, more] = [8, 16].map(|bound| 1 + random.byte_below(bound));
        let [fewer, more] = [fewer.min(more), fewer.max(more)];
        let (left, right) = if round % 2 == 0 {
            (fewer, more)
        } else {
            (more, fewer)
        };
        let gates = draw_gates(&mut random, p, fewer);
        script.table(&shared_table_of(p, 50, left, right, &gates));
        script.check();
        let lists = [left, right].map(|count| random.bytes_below(p, usize::from(count)));
        script.run(gates.len(), &lists[0], &lists[1]);
        script.run(gates.len(), &lists[1], &lists[0]);
        script.last_uses(gates.len());
        // A single right slot, while gates may name others.
        script.set(4, more);
        script.set(5, 1);
        script.check();
    }
}

/// Each byte of the bench card's head, damaged in a few ways.
fn damaged_head(script: &mut Script) {
    script.build(64, &SHARED_BENCH);
    let head = [0x47, 0x4A, 3, 75, 1, 1, 7, 0];
    for (place, byte) in head.into_iter().enumerate() {
        for damage in [1, 128] {
            script.set(place, byte ^ damage);
            script.check();
            script.run(7, &[0], &[1]);
        }
        script.trim();
        script.set(place, byte);
    }
    script.check();
}

/// The bench card's table cut short, and with later bytes that are not looked
/// at.
fn lengths(script: &mut Script) {
    for length in [0, 7, 8, 63, 64, 72] {
        script.cut(length);
        script.check();
        script.trim();
    }
    script.run(8, &[1], &[0]);
    script.last_uses(8);
}

/// The longest table of a shared card, and 8191 gates: after the card's own
/// there are those that earlier tables have left.
fn longest(script: &mut Script) {
    let gates = script.build_exactly(&shared_card_bytes(251, 99, &[(2, 16, 0)]));
    script.check();
    script.trim();
    script.last_uses(gates);
    script.set(6, 255);
    script.set(7, 31);
    script.check();
    script.cut(table_bytes(8_191));
    script.check();
    script.trim();
    script.run(8_191, &[7; 16], &[8; 16]);
    script.last_uses(8_191);
    // One left slot fewer, and one right slot fewer.
    script.set(4, 15);
    script.check();
    script.set(4, 16);
    script.set(5, 15);
    script.check();
    script.trim();
    script.set(5, 16);
    script.set(6, 0);
    script.set(7, 32);
    script.check();
}
