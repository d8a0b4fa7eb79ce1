//! Cards filled in condition by condition: which build is open, and what begin
//! turns away. While a build is open no other command writes the table area.

use super::writer::{closed_room, open_room, Script};
use super::BENCH;
use crate::card::card_bytes;

pub fn write(script: &mut Script) {
    no_build_open(script);
    bench_card(script);
    card_of_two_conditions(script);
    numbers_of_begin(script);
    begin_over_a_build(script);
    none_added(script);
    afresh(script);
    refused_between(script);
}

/// A record that is fine where there is a build and room.
pub const FINE: [u8; 4] = [0xC5, 0x51, 1, 1];

/// 31 goes before all else; begins that are turned away open no build.
fn no_build_open(script: &mut Script) {
    for length in [0, 20] {
        script.cut(length);
        script.close();
        for record in [&FINE[..], &[], &[0xC4, 0x51, 7, 17]] {
            script.add(record);
        }
    }
    refused_begins(script);
    script.add(&FINE);
    script.close();
    script.check();
}

/// "3, 4, or 11 under 8 bytes" in this order; none is accepted.
fn refused_begins(script: &mut Script) {
    for (length, p, weight) in [(7, 9, 49), (7, 5, 101), (7, 5, 50), (24, 9, 101)] {
        script.cut(length);
        script.begin(p, weight);
    }
    script.begin(2, 60);
    script.begin(251, 49);
}

/// Puts the same bytes under a filling and under the build in one go: those of
/// another card's table.
fn lay(script: &mut Script, room: usize) {
    let other = card_bytes(5, 50, &[(6, 4), (3, 2)]);
    script.build(closed_room(5, &[(6, 4), (3, 2)]), &other);
    script.cut(room);
}

/// The bench card: its only record added, and the table tried after each call.
fn bench_card(script: &mut Script) {
    lay(script, 40);
    script.begin(3, 75);
    script.check();
    script.cut(72);
    script.check();
    script.trim();
    script.run(7, &[0], &[1]);
    script.run(7, &[], &[]);
    script.last_uses(7);
    script.add(&BENCH[6..]);
    script.last_uses(7);
    tried_on_all_digits(script);
    script.close();
    tried_on_all_digits(script);
    lay(script, 72);
    script.build(72, &BENCH);
    script.build(40, &[]);
}

fn tried_on_all_digits(script: &mut Script) {
    script.check();
    script.trim();
    for (left, right) in [(0, 0), (0, 1), (1, 0), (1, 1)] {
        script.run(8, &[left], &[right]);
    }
}

/// The document's card of "<" of 1 and "=" of 3 at p=5: the newest condition is
/// run alone, and at last both.
fn card_of_two_conditions(script: &mut Script) {
    let conditions = [(1, 1), (5, 3)];
    let room = closed_room(5, &conditions) + 5;
    let same: [u8; 3] = [1, 0, 2];
    lay(script, room);
    script.begin(5, 80);
    script.check();
    script.add_condition(1, 1);
    script.check();
    script.trim();
    for (left, right) in [(0, 2), (1, 1), (2, 0)] {
        script.run(40, &[left], &[right]);
    }
    script.run(40, &[0, 1, 0, 2], &[2, 1, 0, 2]);
    shown(script, room);
    script.add_condition(5, 3);
    shown(script, room);
    script.check();
    script.trim();
    script.run(40, &[0], &[2]);
    runs_of_two_conditions(script, &same);
    script.last_uses(31);
    script.close();
    script.check();
    runs_of_two_conditions(script, &same);
    lay(script, room);
    script.build(room, &card_bytes(5, 80, &conditions));
}

/// Both conditions hold, only the newer one does, only the older one, and none.
fn runs_of_two_conditions(script: &mut Script, same: &[u8]) {
    for (left, right, last) in [(0, 2, 2), (2, 0, 2), (0, 2, 1), (1, 1, 0)] {
        let left = [&[left], same].concat();
        let right = [&[right], &same[..2], &[last]].concat();
        script.run(40, &left, &right);
    }
}

/// How the table begins, by a record that is turned away.
fn shown(script: &mut Script, room: usize) {
    script.cut(40);
    script.add(&[]);
    script.cut(room);
}

/// The ends of p and s, and lengths about a head's; each accepted one starts
/// afresh.
fn numbers_of_begin(script: &mut Script) {
    script.cut(16);
    for p in [0, 1, 4, 15, 249, 250, 252, 255] {
        script.begin(p, 50);
    }
    for weight in [0, 50, 100, 102, 255] {
        script.begin(251, weight);
    }
    for length in [0, 1, 6, 8, 9] {
        script.cut(length);
        script.begin(7, 99);
        script.begin(8, 200);
    }
    script.check();
    script.cut(open_room(7, &[(6, 1)]));
    script.add_condition(6, 1);
    script.close();
}

/// Begins that are turned away, over an open build with none added, with some and
/// over a closed one: the open one goes on, the closed one stays closed.
fn begin_over_a_build(script: &mut Script) {
    let conditions = [(2, 1), (5, 2)];
    let room = closed_room(7, &conditions);
    script.cut(room);
    script.begin(7, 60);
    refused_begins(script);
    script.cut(room);
    script.add_condition(2, 1);
    refused_begins(script);
    script.cut(room);
    script.check();
    script.add_condition(5, 2);
    script.close();
    refused_begins(script);
    script.add(&FINE);
    script.close();
    script.cut(room);
    script.check();
    script.run(40, &[1, 2, 3], &[1, 2, 3]);
    script.run(40, &[2, 2, 3], &[1, 2, 3]);
}

/// "Finish with none added" gives 31 before 11, and the build stays open, also
/// where records were turned away before.
fn none_added(script: &mut Script) {
    script.cut(100);
    script.begin(3, 50);
    for length in [0, 8, 100] {
        script.cut(length);
        script.close();
    }
    script.add(&FINE[..3]);
    script.add_condition(1, 17);
    script.close();
    script.cut(16);
    script.add(&FINE);
    script.close();
    script.cut(100);
    script.check();
    script.add(&FINE);
    script.close();
    // Closed, so that each of these has no build.
    script.close();
    script.add(&FINE);
    script.add(&[]);
    script.cut(0);
    script.close();
    script.add(&FINE);
}

/// Slots, conditions, p and s start afresh, over an open build as well as a closed
/// one; a begin over a longer table keeps what lies behind the head.
fn afresh(script: &mut Script) {
    script.cut(900);
    script.begin(3, 50);
    script.add_condition(5, 16);
    script.add(&FINE);
    script.cut(32);
    script.begin(3, 51);
    script.cut(900);
    script.check();
    script.close();
    script.add_condition(6, 16);
    script.begin(5, 100);
    script.begin(7, 64);
    script.add_condition(4, 1);
    script.check();
    script.add_condition(6, 1);
    script.close();
    script.begin(3, 77);
    script.cut(40);
    script.close();
    script.cut(900);
    script.add_condition(5, 2);
    script.trim();
    script.run(99, &[1, 0], &[1, 0]);
    script.close();
    script.check();
}

/// Calls of every number between accepted ones leave the same table: filled in
/// with them and without them, then built in one go.
fn refused_between(script: &mut Script) {
    let conditions = [(5, 2), (1, 1), (2, 3)];
    let room = closed_room(13, &conditions);
    for are_refused_between in [true, false] {
        lay(script, room);
        script.begin(13, 66);
        for (relation, n) in conditions {
            if are_refused_between {
                each_refusal(script, room);
            }
            script.add_condition(relation, n);
        }
        if are_refused_between {
            each_refusal(script, room);
        }
        script.close();
    }
    lay(script, room);
    script.build(room, &card_bytes(13, 66, &conditions));
}

/// Each number that an open build may give, but 30.
fn each_refusal(script: &mut Script, room: usize) {
    script.begin(14, 66);
    script.begin(13, 48);
    for record in [
        &[][..],
        &[0xC5, 0x52, 1, 1],
        &[0xC5, 0x51, 0, 1],
        &[0xC5, 0x51, 1, 0],
    ] {
        script.add(record);
    }
    script.cut(7);
    script.begin(13, 66);
    script.add_condition(4, 1);
    script.add_condition(4, 16);
    script.close();
    script.cut(room);
}
