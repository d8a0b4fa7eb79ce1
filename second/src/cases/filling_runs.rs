//! Cards filled in condition by condition: the table checked and run after each
//! condition, and after finish.

use super::writer::{closed_room, open_room, Script};
use super::RELATIONS;
use crate::card::{card_bytes, condition_bytes};
use crate::field::{half_range, PRIMES};
use crate::filling::Filling;
use crate::random::Random;
use std::cmp::Ordering;

pub fn write(script: &mut Script) {
    newest_on_all_digits(script);
    newest_of_several(script);
    lists_and_work(script);
    bytes_behind(script);
    one_after_the_other(script);
    every_prime(script);
    drawn_calls(script);
    sixteen_digits(script);
}

/// Relation and n of each condition.
type Conditions = &'static [(u8, u8)];

/// Two conditions of one digit at p=3, on all digits before finish and after it.
fn newest_on_all_digits(script: &mut Script) {
    script.cut(200);
    script.begin(3, 75);
    script.add_condition(1, 1);
    script.add_condition(6, 1);
    for is_closed in [false, true] {
        if is_closed {
            script.close();
        }
        for bits in 0..16 {
            let [a, b, c, d] = [bits & 1, bits >> 1 & 1, bits >> 2 & 1, bits >> 3];
            script.run(20, &[a, b], &[c, d]);
        }
    }
}

/// One to eight conditions of all relations, with other depths so that the product
/// tree pairs them out of card order.
const SEVERAL: [(u8, Conditions); 8] = [
    (251, &[(2, 1)]),
    (11, &[(6, 2), (3, 1)]),
    (3, &[(1, 1), (4, 3), (5, 1)]),
    (31, &[(5, 1), (1, 4), (6, 1), (2, 1)]),
    (5, &[(2, 2), (5, 1), (3, 2), (5, 1), (6, 3)]),
    (17, &[(1, 1), (2, 1), (3, 1), (4, 1), (5, 1), (6, 1)]),
    (7, &[(4, 1), (5, 1), (5, 1), (5, 1), (2, 1), (5, 1), (5, 1)]),
    (
        13,
        &[
            (6, 1),
            (5, 1),
            (4, 1),
            (3, 1),
            (2, 1),
            (1, 1),
            (1, 3),
            (6, 1),
        ],
    ),
];

/// Several conditions, tried after each add and after finish; those of an even count
/// then in one go.
fn newest_of_several(script: &mut Script) {
    let mut random = Random::new(0xF111);
    for (p, conditions) in SEVERAL {
        let room = closed_room(p, conditions);
        script.cut(room);
        script.begin(p, 83);
        for (newest, &(relation, n)) in conditions.iter().enumerate() {
            script.add_condition(relation, n);
            script.check();
            run_newest(script, &mut random, p, &conditions[..=newest]);
        }
        script.close();
        // All hold, and all but one.
        let count = conditions.len();
        for broken in [count, random.below(count as u64) as usize] {
            let (left, right) = draw_numbers(&mut random, p, conditions, |i| i != broken);
            script.run(999, &left, &right);
        }
        if count.is_multiple_of(2) {
            script.build(room, &card_bytes(p, 83, conditions));
        }
    }
}

/// Numbers on which the newest condition holds and no earlier one does, or the
/// other way, and of up to four conditions both.
fn run_newest(script: &mut Script, random: &mut Random, p: u8, so_far: &[(u8, u8)]) {
    let newest = so_far.len() - 1;
    for newest_holds in [true, false] {
        if newest < 4 || newest_holds == newest.is_multiple_of(2) {
            let (left, right) = draw_numbers(random, p, so_far, |i| (i == newest) == newest_holds);
            script.run(999, &left, &right);
        }
    }
}

/// Digits for the conditions, each of which holds or not as asked.
fn draw_numbers(
    random: &mut Random,
    p: u8,
    conditions: &[(u8, u8)],
    holds: impl Fn(usize) -> bool,
) -> (Vec<u8>, Vec<u8>) {
    let (mut left, mut right) = (Vec::new(), Vec::new());
    for (place, &(relation, n)) in conditions.iter().enumerate() {
        let ordering = random.pick(orderings(relation, holds(place)));
        let (smaller, larger) = draw_pair(random, p, usize::from(n), ordering.is_eq());
        let is_less = ordering.is_lt();
        left.extend(if is_less { &smaller } else { &larger });
        right.extend(if is_less { &larger } else { &smaller });
    }
    (left, right)
}

/// How the left number may compare with the right one.
fn orderings(relation: u8, holds: bool) -> &'static [Ordering] {
    use Ordering::{Equal, Greater, Less};
    match (relation, holds) {
        (1, true) | (4, false) => &[Less],
        (2, true) | (3, false) => &[Less, Equal],
        (3, true) | (2, false) => &[Greater],
        (4, true) | (1, false) => &[Equal, Greater],
        (5, true) | (6, false) => &[Equal],
        _ => &[Less, Greater],
    }
}

/// Two numbers of n digits: equal, or the second larger by one at some digit, with
/// any lower digits.
fn draw_pair(random: &mut Random, p: u8, n: usize, are_equal: bool) -> (Vec<u8>, Vec<u8>) {
    let base = half_range(p);
    let mut smaller = random.bytes_below(base, n);
    let mut larger = smaller.clone();
    if !are_equal {
        let place = random.below(n as u64) as usize;
        larger[..place].copy_from_slice(&random.bytes_below(base, place));
        smaller[place] = random.byte_below(base - 1);
        larger[place] = smaller[place] + 1;
    }
    (smaller, larger)
}

/// The lists are as long as the slots so far, and the work buffer takes the gates
/// so far.
fn lists_and_work(script: &mut Script) {
    let conditions = [(5, 1), (1, 2), (6, 1)];
    script.cut(500);
    script.begin(5, 61);
    for (place, (relation, n)) in conditions.into_iter().enumerate() {
        script.add_condition(relation, n);
        let gates = open_room(5, &conditions[..=place]) / 8 - 1;
        let slots: u8 = conditions[..=place].iter().map(|&(_, n)| n).sum();
        let list = vec![2; usize::from(slots)];
        script.run(gates, &list[1..], &list);
        script.run(gates, &list, &[&list[..], &[0]].concat());
        script.run(gates, &[&list[1..], &[5]].concat(), &list);
        script.run(gates - 1, &list, &list);
        script.run(gates, &list, &list);
        script.last_uses(gates - 1);
        script.last_uses(gates);
    }
    // What needs no table goes on all the same.
    script.forecast(&card_bytes(5, 61, &conditions));
    script.encode(5, 2, 8, 2);
    script.decode(5, &[2, 1]);
    let gates = closed_room(5, &conditions) / 8 - 1;
    script.close();
    script.run(gates - 1, &[2; 4], &[2; 4]);
    script.run(gates, &[2; 4], &[2, 2, 2, 1]);
}

/// Over a longer table, of which all but the head stays until gates are written:
/// filled in and built in one go, with the same bytes behind.
fn bytes_behind(script: &mut Script) {
    let longer = card_bytes(19, 75, &[(4, 2)]);
    let room = closed_room(19, &[(4, 2)]);
    let conditions = [(3, 1), (5, 1)];
    script.build(room, &longer);
    script.begin(7, 50);
    script.check();
    for (relation, n) in conditions {
        script.add_condition(relation, n);
        script.trim();
        script.check();
    }
    script.close();
    script.trim();
    script.check();
    script.build(room, &longer);
    script.build(room, &card_bytes(7, 50, &conditions));
    // Bytes that are no gate, of which begin keeps all behind the head.
    script.table(&[0xFF; 40]);
    script.begin(3, 50);
    script.add_condition(5, 1);
    script.cut(48);
    script.add_condition(5, 1);
    script.close();
}

/// A build after another one, shorter and then longer; each is the card's of its
/// own adds.
fn one_after_the_other(script: &mut Script) {
    let fillings: [(u8, u8, Conditions); 4] = [
        (23, 100, &[(1, 1), (6, 1)]),
        (5, 99, &[(6, 1), (5, 1)]),
        (5, 50, &[(6, 1), (5, 1), (4, 1)]),
        (61, 51, &[(3, 1)]),
    ];
    script.cut(1_000);
    for (p, weight, conditions) in fillings {
        script.begin(p, weight);
        for &(relation, n) in conditions {
            script.add_condition(relation, n);
        }
        script.close();
        script.check();
    }
}

/// Two conditions at each prime: the newest one is run where the first one does not
/// hold, or holds where it does not.
fn every_prime(script: &mut Script) {
    let mut random = Random::new(0xF11E5);
    script.cut(closed_room(251, &[(2, 1), (4, 1)]));
    for (i, p) in PRIMES.into_iter().enumerate() {
        let relation = RELATIONS[i % 6];
        let newest = RELATIONS[(i + i / 6) % 6];
        let conditions = [(relation, 1), (newest, 1)];
        script.begin(p, 50 + (i % 51) as u8);
        script.add_condition(relation, 1);
        script.add_condition(newest, 1);
        let newest_holds = i % 2 == 0;
        let (left, right) = draw_numbers(&mut random, p, &conditions, |place| {
            (place == 1) == newest_holds
        });
        script.run(999, &left, &right);
        script.close();
    }
}

/// A filling and the lent table, as the drawn calls leave them.
struct Model {
    filling: Filling,
    table: Vec<u8>,
}

/// Drawn calls, refused ones among them, with check and run between.
fn drawn_calls(script: &mut Script) {
    let mut random = Random::new(0xF111_D2A3);
    let mut model = Model {
        filling: Filling::new(),
        table: vec![0; 3_000],
    };
    for _ in 0..23 {
        let length = random.pick(&[3_000, 3_000, 3_000, 3_000, 3_000, 600, 200, 40]);
        script.cut(length);
        for _ in 0..2 + random.below(6) {
            draw_call(script, &mut random, &mut model, length);
        }
    }
    // So that no build is open after these.
    script.cut(3_000);
    script.begin(3, 50);
    script.add_condition(1, 1);
    script.close();
}

/// One call. Where no build is open most are begins, else most are adds. Refused or
/// not: what the call leaves is all that counts here.
fn draw_call(script: &mut Script, random: &mut Random, model: &mut Model, length: usize) {
    let lent = &mut model.table[..length];
    let is_open = model.filling != Filling::new();
    match (is_open, random.below(24)) {
        (true, 0) | (false, 0..14) => {
            let p = random.pick(&[3, 5, 7, 11, 13, 9]);
            let weight = random.pick(&[50, 75, 88, 100, 49]);
            script.begin(p, weight);
            let _ = model.filling.begin(p, weight, lent);
        }
        (true, 1..15) | (false, 14..17) => {
            let record = draw_record(random);
            script.add(&record);
            let _ = model.filling.add(&record, lent);
        }
        (true, 15..18) | (false, 17..19) => {
            script.close();
            let _ = model.filling.finish(lent);
        }
        (true, 18..20) | (false, 19..21) => script.check(),
        _ => {
            let slots = usize::from(lent[4]);
            let base = half_range(lent[2]);
            let [left, right] = [(); 2].map(|()| random.bytes_below(base, slots));
            script.run(400, &left, &right);
        }
    }
}

/// A record, of which one in five has a byte that may be wrong, and some are short.
fn draw_record(random: &mut Random) -> Vec<u8> {
    let n = random.pick(&[1, 1, 1, 2, 3]);
    let mut record = condition_bytes(random.pick(&RELATIONS), n).to_vec();
    if random.below(5) == 0 {
        let place = random.below(4) as usize;
        record[place] = random.pick(&[0, 7, 16, 0x51]);
    }
    if random.below(15) == 0 {
        record.pop();
    }
    record
}

/// Sixteen digits at p=251 in one condition and in eight, in just enough bytes and
/// in one too few.
fn sixteen_digits(script: &mut Script) {
    let top = half_range(251) - 1;
    let fillings: [(u8, Conditions); 2] = [(100, &[(2, 16)]), (50, &[(4, 2); 8])];
    for (weight, conditions) in fillings {
        let before_tree = open_room(251, conditions);
        let room = closed_room(251, conditions);
        script.cut(before_tree - 1);
        script.begin(251, weight);
        for &(relation, n) in conditions {
            script.add_condition(relation, n);
        }
        script.cut(before_tree);
        let (relation, n) = conditions[0];
        script.add_condition(relation, n);
        script.check();
        let mut higher = [top; 16];
        higher[15] = top - 1;
        script.run(8_200, &[top; 16], &higher);
        script.run(8_200, &higher, &[top; 16]);
        script.add_condition(5, 1);
        for length in [room - 1, room] {
            script.cut(length);
            script.close();
        }
        script.check();
        script.run(8_200, &higher, &[top; 16]);
        script.build(room, &card_bytes(251, weight, conditions));
        script.cut(65_600);
        script.begin(251, weight);
        script.add_condition(relation, n);
        script.close();
    }
}
