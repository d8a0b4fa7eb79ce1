//! Runs: what Run turns away, and its order.

use super::writer::Script;
use super::BENCH;
use crate::card::card_bytes;

pub fn write(script: &mut Script) {
    list_lengths(script);
    list_values(script);
    work_rooms(script);
    run_mended_one_rule_at_a_time(script);
    values_that_are_no_digits(script);
    work_is_kept(script);
}

/// Each side too short, too long and empty.
fn list_lengths(script: &mut Script) {
    let gates = script.build_exactly(&card_bytes(5, 90, &[(1, 1), (5, 2)]));
    let lists: [&[u8]; 6] = [&[], &[1], &[1, 2], &[1, 2, 0], &[1, 2, 0, 0], &[1; 17]];
    for left in lists {
        for right in lists {
            script.run(gates, left, right);
        }
    }
}

/// A value of p or more in each slot of each side.
fn list_values(script: &mut Script) {
    let gates = script.build_exactly(&card_bytes(7, 90, &[(4, 1), (6, 2)]));
    for slot in 0..3 {
        for value in [6, 7, 8, 255] {
            let mut list = [1, 2, 3];
            list[slot] = value;
            script.run(gates, &list, &[1, 2, 3]);
            script.run(gates, &[1, 2, 3], &list);
        }
    }
    let gates = script.build_exactly(&card_bytes(251, 90, &[(5, 1)]));
    for value in [249, 250, 251, 252, 255] {
        script.run(gates, &[value], &[0]);
        script.run(gates, &[0], &[value]);
    }
}

fn work_rooms(script: &mut Script) {
    script.build(64, &BENCH);
    for room in [0, 1, 6, 7, 8, 40, 41, 8_200] {
        script.run(room, &[1], &[0]);
        script.run(room, &[0], &[1]);
    }
    let gates = script.build_exactly(&card_bytes(11, 90, &[(2, 3), (6, 2)]));
    for room in [0, gates - 1, gates, gates + 1] {
        script.run(room, &[1, 2, 3, 4, 5], &[1, 2, 3, 5, 4]);
    }
}

/// Table, lists, values and work are all wrong at first.
fn run_mended_one_rule_at_a_time(script: &mut Script) {
    for (place, wrong, good) in [(0, 0, 0x47), (2, 2, 3), (3, 0, 75), (62, 7, 5)] {
        script.build(64, &BENCH);
        script.set(place, wrong);
        script.run(6, &[3, 3], &[]);
        script.set(place, good);
        script.run(6, &[3, 3], &[]);
        script.run(6, &[3], &[]);
        script.run(6, &[], &[3]);
        script.run(6, &[3], &[3]);
        script.run(6, &[3], &[0]);
        script.run(6, &[0], &[3]);
        script.run(6, &[2], &[0]);
        script.run(7, &[2], &[0]);
    }
}

/// Values from B to p-1 are run all the same.
fn values_that_are_no_digits(script: &mut Script) {
    for relation in [1, 5] {
        let gates = script.build_exactly(&card_bytes(7, 50, &[(relation, 1)]));
        for left in [0, 2, 4, 6] {
            for right in 3..7 {
                script.run(gates, &[left], &[right]);
            }
        }
    }
}

/// A refused run leaves what the last one left; later bytes are kept.
fn work_is_kept(script: &mut Script) {
    script.build(64, &BENCH);
    script.run(12, &[0], &[1]);
    script.run(12, &[0], &[3]);
    script.run(6, &[1], &[0]);
    script.run(12, &[1, 1], &[0]);
    script.table(&[]);
    script.run(12, &[1], &[0]);
    script.build(63, &BENCH);
    script.run(12, &[1], &[0]);
    script.build(64, &BENCH);
    script.run(12, &[1], &[0]);
}
