//! Cards filled in condition by condition: records that are turned away, and rooms
//! of add and finish.

use super::cards::Break;
use super::fillings::FINE;
use super::writer::{closed_room, open_room, Script};
use super::BENCH;
use crate::card::condition_bytes;

pub fn write(script: &mut Script) {
    ninth_condition(script);
    record_mended_one_rule_at_a_time(script);
    two_rules_broken(script);
    numbers_of_records(script);
    all_digits(script);
    rooms(script);
    shorter_than_the_table(script);
}

/// Relation and n of each condition.
type Conditions = &'static [(u8, u8)];

/// A ninth record of any length and with any bytes gives 30, whatever is lent and
/// however many slots are left.
fn ninth_condition(script: &mut Script) {
    let room = eight_conditions(script, 5, 1);
    for (length, record) in [
        (room, &FINE[..]),
        (room - 1, &[]),
        (40, &FINE[..3]),
        (0, &[0xC5, 0x51, 1, 1, 0]),
        (7, &[0xC4, 0x51, 1, 1]),
    ] {
        script.cut(length);
        script.add(record);
    }
    for (relation, n) in [(7, 1), (1, 0), (1, 16)] {
        script.add_condition(relation, n);
    }
    script.cut(room - 1);
    script.close();
    script.cut(room);
    script.check();
    script.close();
    // No build goes before a ninth condition, and a begin has eight again, also over
    // an open build of eight.
    script.add(&FINE);
    eight_conditions(script, 6, 2);
    script.add(&FINE);
    script.add(&[]);
    script.begin(3, 50);
    script.add(&FINE);
    script.close();
}

/// Begins and adds eight conditions; the bytes that are lent, which finish takes.
fn eight_conditions(script: &mut Script, relation: u8, n: u8) -> usize {
    let room = closed_room(3, &[(relation, n); 8]);
    script.cut(room);
    script.begin(3, 90);
    for _ in 0..8 {
        script.add_condition(relation, n);
    }
    room
}

/// Everything is wrong at first; each step mends the first wrong thing.
fn record_mended_one_rule_at_a_time(script: &mut Script) {
    let room = open_room(5, &[(3, 1)]);
    script.cut(room);
    script.begin(5, 55);
    script.add_condition(3, 1);
    script.cut(12);
    let mut record = vec![0xC4, 0x50, 7, 17, 0];
    for length in [0, 1, 2, 3, 5, 4] {
        script.add(&record[..length]);
    }
    record.pop();
    let mended = [
        (0, 0xC5),
        (1, 0x51),
        (2, 0),
        (2, 6),
        (3, 0),
        (3, 16),
        (3, 15),
    ];
    for (place, byte) in mended {
        record[place] = byte;
        script.add(&record);
    }
    let room = closed_room(5, &[(3, 1), (6, 15)]);
    for length in [room - 9, room - 8] {
        script.cut(length);
        script.add(&record);
    }
    script.close();
    script.cut(room);
    script.close();
}

/// Each pair of broken rules answers the earlier one; one broken rule goes before
/// 11.
fn two_rules_broken(script: &mut Script) {
    let rules: [Break; 6] = [
        |record| record.push(0),
        |record| record[0] ^= 1,
        |record| record[1] ^= 0x19,
        |record| record[2] = 9,
        |record| record[3] = 32,
        |record| record[3] = 14,
    ];
    script.cut(open_room(7, &[(2, 3)]));
    script.begin(7, 70);
    script.add_condition(2, 3);
    for (place, first) in rules.iter().enumerate() {
        for second in &rules[place + 1..] {
            let mut record = condition_bytes(4, 2).to_vec();
            first(&mut record);
            second(&mut record);
            script.add(&record);
        }
    }
    for break_rule in rules {
        let mut record = condition_bytes(4, 2).to_vec();
        break_rule(&mut record);
        script.cut(18);
        script.add(&record);
    }
    script.add_condition(4, 2);
    let room = closed_room(7, &[(2, 3), (4, 2)]);
    script.cut(room);
    script.add_condition(4, 2);
    script.close();
}

/// Marks of other forms, lengths of their records, and the ends of relation and n.
fn numbers_of_records(script: &mut Script) {
    script.cut(32);
    script.begin(3, 100);
    for record in [
        &[0xC5, 0x57, 1, 1][..],
        &[0xC5, 0x52, 1, 1],
        &[0xC5, 0x48, 1, 1],
        &[0x51, 0xC5, 1, 1],
        &[0x47, 0x54, 1, 1],
        &[0xC5, 0x57, 1, 1, 1, 0],
        &[0xC5, 0x51, 1, 1, 0, 0],
        &[0xC5, 0x51, 1, 1, 0xC5, 0x51, 1, 1],
        &BENCH,
    ] {
        script.add(record);
    }
    for relation in [0, 7, 0x51, 255] {
        script.add_condition(relation, 1);
    }
    for n in [0, 1, 16, 17, 255] {
        script.add_condition(2, n);
    }
    for relation in 1..=6 {
        let room = closed_room(3, &[(relation, 1)]);
        script.cut(room - 1);
        script.begin(3, 100);
        script.add_condition(relation, 1);
        script.cut(room);
        script.add_condition(relation, 1);
        script.run(9, &[0], &[1]);
        script.close();
    }
}

/// "10" counts the slots of the conditions that were accepted, and no others.
fn all_digits(script: &mut Script) {
    script.cut(2_000);
    for counts in [
        &[8, 9, 8, 1][..],
        &[15, 2, 1, 16],
        &[16, 1, 16],
        &[1, 16, 15],
        &[5, 12, 5, 7, 6, 1],
    ] {
        script.begin(3, 50);
        for &n in counts {
            script.add_condition(5, n);
        }
        script.check();
        script.close();
    }
}

/// One byte too few, just enough and more for each add, and for finish, which
/// takes a gate more for each condition after the first.
fn rooms(script: &mut Script) {
    let fillings: [(u8, Conditions); 3] = [
        (3, &[(5, 1)]),
        (5, &[(2, 1), (6, 1)]),
        (11, &[(5, 1), (3, 1), (6, 2), (5, 1)]),
    ];
    for (p, conditions) in fillings {
        script.cut(8);
        script.begin(p, 88);
        for (place, &(relation, n)) in conditions.iter().enumerate() {
            let room = open_room(p, &conditions[..=place]);
            for length in [8, room - 8, room - 1, room] {
                script.cut(length);
                script.add_condition(relation, n);
            }
            script.check();
        }
        let room = closed_room(p, conditions);
        for length in [0, 8, room - 8, room - 1] {
            script.cut(length);
            script.close();
            if length == 0 {
                script.check();
            }
        }
        script.cut(room + 1);
        script.check();
        script.close();
        script.trim();
    }
}

/// Less is lent than the table has already: 11, also for a finish that has no gate
/// to write, and the build goes on where it was.
fn shorter_than_the_table(script: &mut Script) {
    let conditions = [(1, 2), (5, 1), (4, 1)];
    script.cut(1_000);
    script.begin(7, 75);
    for (place, (relation, n)) in conditions.into_iter().enumerate() {
        script.cut(1_000);
        script.add_condition(relation, n);
        for length in [7, 8, open_room(7, &conditions[..=place]) - 1] {
            script.cut(length);
            script.close();
            script.add_condition(5, 1);
            script.check();
        }
    }
    script.cut(open_room(7, &conditions));
    script.check();
    script.run(200, &[0, 1, 2, 3], &[0, 1, 2, 3]);
    script.cut(1_000);
    script.close();
}
