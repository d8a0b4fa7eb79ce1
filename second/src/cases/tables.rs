//! Tables: what Check, Trim and Run answer and turn away.

use super::writer::Script;
use super::BENCH;
use crate::card::card_bytes;
use crate::field::{near_zero, PRIMES};
use crate::random::Random;
use crate::table::{Gate, Head, Kind, Slots};

pub fn write(script: &mut Script) {
    table_mended_one_rule_at_a_time(script);
    two_rules_broken(script);
    gates_in_turn(script);
    head_borders(script);
    damaged_bench_table(script);
    lengths(script);
    operands_of_each_kind(script);
    operands_of_a_far_gate(script);
    chains(script);
    drawn_tables(script);
    largest_card(script);
    gate_counts(script);
}

pub fn gate(kind: Kind, a: u16, b: u16) -> Gate {
    Gate { kind, a, b }
}

/// A SCALE by a signed constant.
pub fn scale(a: u16, constant: i16) -> Gate {
    gate(Kind::Scale, a, constant.cast_unsigned())
}

pub fn table_of(p: u8, weight: u8, slots: u8, gates: &[Gate]) -> Vec<u8> {
    table_with(p, weight, Slots::Both(slots), gates)
}

/// A table of these gates, with the head that these slots ask for.
pub fn table_with(p: u8, weight: u8, slots: Slots, gates: &[Gate]) -> Vec<u8> {
    let head = Head {
        p,
        weight,
        slots,
        gates: gates.len() as u16,
    };
    let mut bytes = head.record().to_vec();
    for gate in gates {
        bytes.extend(gate.record());
    }
    bytes
}

/// LEFT 1, RIGHT 1 and their difference, at p=5 with two slots.
fn small_table() -> Vec<u8> {
    let gates = [
        gate(Kind::Left, 1, 0),
        gate(Kind::Right, 1, 0),
        gate(Kind::Sub, 0, 1),
    ];
    table_of(5, 50, 2, &gates)
}

/// Everything is wrong at first; each step mends the first wrong thing. The
/// lists and the work of Run are wrong all along.
fn table_mended_one_rule_at_a_time(script: &mut Script) {
    let good = small_table();
    let mut bytes = vec![0x46, 0x49, 9, 101, 17, 1, 0, 0x20];
    for _ in 0..3 {
        bytes.extend([0x46, 0x55, 8, 1, 3, 0, 3, 1]);
    }
    script.table(&bytes);
    script.cut(0);
    look(script);
    mend_table(script, &good);
    script.run(2, &[5, 5], &[5]);
    script.run(2, &[5], &[5, 5]);
    script.run(2, &[5, 5, 5], &[5, 5]);
    script.run(2, &[5, 4], &[5, 4]);
    script.run(2, &[4, 4], &[4, 5]);
    script.run(2, &[4, 4], &[4, 4]);
    script.run(3, &[4, 3], &[4, 4]);
}

/// The current table, of three gates, becomes a good one: one rule after the other.
pub fn mend_table(script: &mut Script, good: &[u8]) {
    for length in [7, 31] {
        script.cut(length);
        look(script);
    }
    for (place, &byte) in good[..6].iter().enumerate() {
        script.set(place, byte);
        look(script);
    }
    // No gate, then three of them, of which the last lacks a byte.
    script.set(7, good[7]);
    look(script);
    script.set(6, good[6]);
    look(script);
    script.cut(32);
    look(script);
    for start in [8, 16, 24] {
        for place in [0, 1, 3, 2, 4, 5, 6, 7] {
            script.set(start + place, good[start + place]);
            look(script);
        }
    }
}

fn look(script: &mut Script) {
    script.check();
    script.run(2, &[255], &[]);
}

/// Each pair of broken rules answers the earlier one.
fn two_rules_broken(script: &mut Script) {
    for first in 0..RULES {
        for second in first + 1..RULES {
            let mut bytes = small_table();
            break_rule(&mut bytes, first);
            break_rule(&mut bytes, second);
            script.table(&bytes);
            script.check();
        }
    }
}

const RULES: usize = 13;

fn break_rule(bytes: &mut Vec<u8>, rule: usize) {
    match rule {
        0 => bytes[0] ^= 2,
        1 => bytes[1] = 0x54,
        2 => bytes[2] = 15,
        3 => bytes[3] = 49,
        4 => bytes[4] = 0,
        5 => bytes[5] = 128,
        6 => bytes[7] = 0x20,
        7 => bytes[9] = 0x48,
        8 => bytes[11] = 1,
        9 => bytes[10] = 0,
        10 => bytes[12] = 2,
        11 => bytes.truncate(31),
        _ => bytes.truncate(7),
    }
}

/// An earlier gate's last rule goes before a later one's first.
fn gates_in_turn(script: &mut Script) {
    let places = [0, 1, 2, 3, 4, 6];
    for (i, &first) in places.iter().enumerate() {
        for &second in &places {
            let mut bytes = small_table();
            let earlier = 8 + 8 * (i % 2);
            bytes[earlier + first] = 0x48;
            bytes[24 + second] = 0x49;
            script.table(&bytes);
            script.check();
        }
    }
}

/// Both sides of each border of the head.
fn head_borders(script: &mut Script) {
    script.table(&small_table());
    script.trim();
    let tries: [(usize, &[u8], u8); 5] = [
        (2, &[0, 1, 2, 3, 4, 6, 9, 249, 250, 251, 252, 255], 5),
        (3, &[0, 49, 51, 99, 100, 101, 255], 50),
        (4, &[0, 1, 3, 16, 17, 255], 2),
        (5, &[1, 128, 255], 0),
        (6, &[0, 1, 2, 4, 255], 3),
    ];
    for (place, values, good) in tries {
        for &value in values {
            script.set(place, value);
            script.check();
        }
        script.set(place, good);
        script.trim();
    }
}

/// Each byte of the bench card's table, damaged in a few ways.
fn damaged_bench_table(script: &mut Script) {
    let mut bytes = vec![0; 64];
    crate::build::build(&BENCH, &mut bytes).expect("the bench card is accepted");
    script.build(64, &BENCH);
    for (place, &byte) in bytes.iter().enumerate() {
        // A kind is also made another kind.
        let is_kind = place % 8 == 2;
        let damages: &[u8] = if is_kind { &[1, 3, 128] } else { &[1, 128] };
        for damage in damages {
            script.set(place, byte ^ damage);
            script.check();
            script.run(8, &[1], &[2]);
        }
        script.trim();
        script.set(place, byte);
    }
    script.check();
    script.run(8, &[1], &[2]);
}

/// The bench card's table cut short, and with later bytes that are not looked
/// at.
fn lengths(script: &mut Script) {
    script.build(64, &BENCH);
    for record in 0..=8 {
        for length in [8 * record, 8 * record + 1, 8 * record + 7] {
            script.cut(length);
            script.check();
        }
        script.trim();
    }
    for (place, byte) in [(64, 0), (65, 255), (71, 1), (72, 0x47)] {
        script.set(place, byte);
        script.cut(80);
        script.check();
        script.trim();
    }
    for length in [7, 63, 64, 65, 65_599, 65_600] {
        script.cut(length);
        script.check();
        script.trim();
        script.run(8, &[0], &[1]);
    }
}

/// A third gate of each kind, with operands on both sides of each border; at
/// p=7 with two slots. Those of a constant have cases of their own.
fn operands_of_each_kind(script: &mut Script) {
    let operands = [
        (0, 0),
        (1, 0),
        (2, 0),
        (0, 1),
        (1, 1),
        (1, 2),
        (0, 6),
        (0, 7),
        (0, 256),
        (256, 0),
    ];
    let two = [gate(Kind::Left, 0, 0), gate(Kind::Right, 1, 0)];
    for kind in [1, 2, 3, 4, 5, 6, 7] {
        for (a, b) in operands {
            let third = Gate {
                kind: Kind::from_code(kind).expect("a kind"),
                a,
                b,
            };
            script.table(&table_of(7, 60, 2, &[two[0], two[1], third]));
            script.check();
            script.run(3, &[5, 1], &[2, 6]);
        }
    }
    for kind in [0, 8, 9, 16, 255] {
        script.set(26, kind);
        script.check();
        script.run(3, &[5, 1], &[2, 6]);
    }
}

/// The same borders where gate numbers need two bytes.
fn operands_of_a_far_gate(script: &mut Script) {
    // Gate 300 of a table of 441 is an ADD at first, then what the sets below
    // make it.
    script.build_exactly(&card_bytes(251, 50, &[(1, 1)]));
    let record = 8 * 301;
    let mut last = gate(Kind::Add, 298, 299).record();
    for far in [
        gate(Kind::Left, 0, 0),
        gate(Kind::Left, 1, 0),
        gate(Kind::Left, 256, 0),
        gate(Kind::Right, 0, 0),
        gate(Kind::Right, 0, 256),
        gate(Kind::Add, 299, 299),
        gate(Kind::Add, 300, 0),
        gate(Kind::Sub, 0, 299),
        gate(Kind::Sub, 0, 300),
        scale(299, -125),
        scale(299, -126),
        scale(0, 256),
        gate(Kind::Flip, 299, 0),
        gate(Kind::Flip, 300, 0),
        gate(Kind::Flip, 0, 1),
        gate(Kind::Mul, 299, 298),
        gate(Kind::Mul, 299, 299),
        gate(Kind::Mul, 299, 556),
        gate(Kind::Mul, 301, 44),
    ] {
        let bytes = far.record();
        script.change(record, &last, &bytes);
        last = bytes;
        script.check();
        script.run(441, &[250], &[125]);
    }
}

/// Tables that no card gives: one gate, squares, products and their depths.
fn chains(script: &mut Script) {
    let left = gate(Kind::Left, 0, 0);
    let right = gate(Kind::Right, 0, 0);
    let mut squares = vec![left];
    let mut products = vec![left, right];
    let mut doubled = vec![left];
    for number in 0..30 {
        squares.push(gate(Kind::Mul, number, number));
        products.push(gate(Kind::Mul, number + 1, number));
        doubled.push(gate(Kind::Add, number, number));
    }
    // Deep gates that the last one does not use neither count nor add depth.
    let mut unused = squares.clone();
    unused.push(gate(Kind::Flip, 0, 0));
    // Depth goes through each kind.
    let mixed = vec![
        right,
        gate(Kind::Mul, 0, 0),
        scale(1, 0),
        gate(Kind::Flip, 2, 0),
        gate(Kind::Sub, 0, 3),
        gate(Kind::Mul, 0, 4),
        gate(Kind::Add, 5, 0),
        gate(Kind::Mul, 6, 5),
        gate(Kind::Mul, 6, 6),
    ];
    let tables = [
        vec![left],
        vec![right],
        squares,
        products,
        doubled,
        unused,
        mixed,
    ];
    for (p, gates) in [3, 5, 11, 127, 251, 31, 17].into_iter().zip(&tables) {
        script.table(&table_of(p, 50 + p % 51, 1, gates));
        script.check();
        script.trim();
        for (x, y) in [(0, 0), (1, 2), (2, 1), (p - 1, 1), (p - 1, p - 1)] {
            script.run(gates.len(), &[x], &[y]);
        }
    }
}

/// Drawn tables, sound and then with one drawn byte.
fn drawn_tables(script: &mut Script) {
    let mut random = Random::new(0x7AB1E);
    for _ in 0..24 {
        let p = random.pick(&PRIMES);
        let slots = 1 + random.byte_below(16);
        let gates = draw_gates(&mut random, p, slots);
        let bytes = table_of(p, 50 + random.byte_below(51), slots, &gates);
        script.table(&bytes);
        script.check();
        for _ in 0..2 {
            let left = random.bytes_below(p, usize::from(slots));
            let right = random.bytes_below(p, usize::from(slots));
            script.run(gates.len(), &left, &right);
        }
        let place = random.below(bytes.len() as u64) as usize;
        script.set(place, random.byte_below(12));
        script.check();
    }
}

/// Gates of all kinds after a LEFT, 4 to 19 in all.
pub fn draw_gates(random: &mut Random, p: u8, slots: u8) -> Vec<Gate> {
    let mut gates = vec![gate(Kind::Left, 0, 0)];
    for number in 1..4 + random.below(16) {
        let slot = u16::from(random.byte_below(slots));
        let constant = near_zero(p, random.byte_below(p));
        let a = random.below(number) as u16;
        let b = random.below(number) as u16;
        gates.push(match random.below(8) {
            0 => gate(Kind::Left, slot, 0),
            1 => gate(Kind::Right, slot, 0),
            2 => gate(Kind::Add, a, b),
            3 => gate(Kind::Sub, a, b),
            4 => scale(a, constant),
            5 => gate(Kind::Flip, a, 0),
            _ => gate(Kind::Mul, a, b),
        });
    }
    gates
}

/// Sixteen "<" digits at p=251, and the "<=" with one gate more.
fn largest_card(script: &mut Script) {
    for relation in [1, 2] {
        let card = card_bytes(251, 99, &[(relation, 16)]);
        script.forecast(&card);
        let gates = script.build_exactly(&card);
        script.check();
        script.trim();
        script.build(8 * gates + 7, &card);
        script.check();
        script.trim();
        script.build(65_600, &card);
        script.check();
        script.trim();
        let low = [125; 16];
        let mut high = low;
        script.run(gates, &low, &high);
        high[0] = 124;
        script.run(gates, &low, &high);
        script.run(gates, &high, &low);
        high[15] = 0;
        script.run(8_200, &high, &low);
        script.run(gates - 1, &high, &low);
        script.run(gates, &[250; 16], &[0; 16]);
        script.run(gates, &[251; 16], &[0; 16]);
    }
}

/// Other gate counts in the head of the table of 7113 gates: fewer are sound,
/// more lack gates, 8191 is the most.
fn gate_counts(script: &mut Script) {
    let counts: [u16; 16] = [
        0, 1, 2, 255, 256, 441, 4096, 7112, 7113, 7114, 8190, 8191, 8192, 8193, 16_384, 65_535,
    ];
    for count in counts {
        let [low, high] = count.to_le_bytes();
        script.set(6, low);
        script.set(7, high);
        let bytes = 8 * (usize::from(count) + 1);
        for length in [bytes - 1, bytes] {
            script.cut(length.min(65_600));
            script.check();
        }
        script.trim();
        if (1..8_200).contains(&count) {
            script.run(usize::from(count), &[7; 16], &[8; 16]);
        }
    }
    // Ten gates more than any card gives.
    more_gates(script, 7_123);
    script.check();
    script.trim();
    script.run(7_123, &[7; 16], &[8; 16]);
    script.run(7_122, &[7; 16], &[8; 16]);
}

/// The table of 7113 gates made longer: the area's bytes are 7 there, so that
/// only mark and spare are to be set for a MUL of gate 0x0707 by itself.
fn more_gates(script: &mut Script, gates: u16) {
    let [low, high] = gates.to_le_bytes();
    script.set(6, low);
    script.set(7, high);
    let bytes = 8 * (usize::from(gates) + 1);
    script.cut(bytes);
    for start in (8 * 7_114..bytes).step_by(8) {
        script.set(start, 0x47);
        script.set(start + 1, 0x54);
        script.set(start + 3, 0);
    }
}

/// 8191 gates, checked and run.
pub fn longest(script: &mut Script) {
    script.build(65_600, &card_bytes(251, 99, &[(2, 16)]));
    more_gates(script, 8_191);
    script.check();
    script.trim();
    script.cut(65_535);
    script.check();
    script.cut(65_537);
    script.check();
    script.trim();
    script.run(8_190, &[7; 16], &[8; 16]);
    script.run(8_191, &[7; 16], &[8; 16]);
    script.run(8_200, &[8; 16], &[7; 16]);
    script.run(8_191, &[7; 16], &[251; 16]);
    script.set(65_535, 32);
    script.check();
    script.run(8_191, &[7; 16], &[8; 16]);
}
