//! Constants near zero: what a SCALE may multiply by, and what comes of it.

use super::tables::{gate, scale, table_of};
use super::writer::Script;
use super::BENCH;
use crate::card::score_card_bytes;
use crate::table::{Kind, RECORD_BYTES};

pub fn write(script: &mut Script) {
    script.table(&TWO_SCALES);
    borders(script);
    old_borders(script);
    rules_in_turn(script);
    both_bytes(script);
    every_constant(script);
    constants_of_each_size(script);
    bench_table_of_old(script);
    ends_of_sixteen_bits(script);
    weights(script);
}

/// A LEFT at p=3 and two SCALEs of it, by 1 and by -1.
const TWO_SCALES: [u8; 32] = [
    0x47, 0x48, 3, 60, 1, 0, 3, 0, //
    0x47, 0x54, 1, 0, 0, 0, 0, 0, //
    0x47, 0x54, 5, 0, 0, 0, 1, 0, //
    0x47, 0x54, 5, 0, 0, 0, 0xFF, 0xFF,
];

/// Where their constants are, low byte first. High bytes stay as they are, that
/// of gate 2 up to `both_bytes`.
const ABOVE_ZERO: usize = 22;
const BELOW_ZERO: usize = 30;

/// Both sides of -(p-1)/2 and of (p-1)/2.
fn borders(script: &mut Script) {
    for p in [3, 5, 7, 127, 251] {
        let most = p / 2;
        script.set(2, p);
        script.set(ABOVE_ZERO, most);
        script.set(BELOW_ZERO, (most + 1).wrapping_neg());
        script.check();
        script.set(BELOW_ZERO, most.wrapping_neg());
        script.check();
        script.run(3, &[p - 1], &[0]);
        script.set(ABOVE_ZERO, most + 1);
        script.check();
    }
}

/// Both sides of p, at p=251.
fn old_borders(script: &mut Script) {
    for constant in [250, 251] {
        script.set(ABOVE_ZERO, constant);
        script.check();
    }
}

/// Gate 1 has a constant of p, and in gate 2 everything is wrong at first; each
/// step mends the first wrong thing. The last two are operand and constant.
fn rules_in_turn(script: &mut Script) {
    for (place, byte) in [(25, 0x55), (27, 1), (26, 8), (28, 2), (BELOW_ZERO, 0x82)] {
        script.set(place, byte);
    }
    script.check();
    for (place, byte) in [
        (ABOVE_ZERO, 125),
        (25, 0x54),
        (27, 0),
        (26, 5),
        (28, 0),
        (BELOW_ZERO, 0x83),
    ] {
        script.set(place, byte);
        script.check();
    }
}

/// One byte of a constant and another byte beside it, and the ends of 16 bits.
/// Only 0 and -1 are in range.
fn both_bytes(script: &mut Script) {
    let mut last = [0x83, 0xFF];
    for constant in [
        0x0083, 0x0100, 0x0000, 0x8000, 0x8001, 0xFF00, 0x7FFF, 0xFFFF, 0xFF7D,
    ] {
        let bytes = u16::to_le_bytes(constant);
        script.change(BELOW_ZERO, &last, &bytes);
        last = bytes;
        script.check();
        if matches!(constant, 0 | 0xFFFF) {
            script.run(3, &[250], &[0]);
        }
    }
}

/// A LEFT and a SCALE of it by each of these constants, run on each of these
/// values.
fn run_scales(script: &mut Script, p: u8, constants: &[i16], values: &[u8]) {
    let mut gates = vec![gate(Kind::Left, 0, 0)];
    gates.extend(constants.iter().map(|&constant| scale(0, constant)));
    script.table(&table_of(p, 60, 1, &gates));
    script.check();
    for &value in values {
        script.run(gates.len(), &[value], &[0]);
    }
}

/// All constants of a prime, the largest one whose gate values are all shown.
fn every_constant(script: &mut Script) {
    let constants: Vec<i16> = (-18..=18).collect();
    run_scales(script, 37, &constants, &[1, 2, 18, 19, 36]);
}

fn constants_of_each_size(script: &mut Script) {
    let constants = [-125, -124, -63, -2, -1, 0, 1, 2, 63, 124, 125];
    run_scales(script, 251, &constants, &[1, 125, 126, 250]);
}

/// The first bench card's table with the old constant, 2, and the one that the
/// card gives now, with -1.
fn bench_table_of_old(script: &mut Script) {
    let gates = [
        gate(Kind::Left, 0, 0),
        gate(Kind::Right, 0, 0),
        gate(Kind::Sub, 0, 1),
        gate(Kind::Mul, 2, 2),
        scale(2, 1),
        scale(3, 2),
        gate(Kind::Add, 4, 5),
    ];
    script.table(&table_of(3, 75, 1, &gates));
    script.check();
    script.trim();
    script.run(7, &[0], &[1]);
    script.build(64, &BENCH);
    script.check();
    script.run(7, &[0], &[1]);
}

/// In the built table at p=3, 0x7FFF and 0x8000 in the place of -1.
fn ends_of_sixteen_bits(script: &mut Script) {
    let b = RECORD_BYTES * 6 + 6;
    script.change(b, &[0xFF, 0xFF], &[0xFF, 0x7F]);
    script.check();
    script.change(b, &[0xFF, 0x7F], &[0x00, 0x80]);
    script.check();
}

/// A weight of (p-1)/2 is the largest constant, (p+1)/2 the smallest one. At
/// last the SCALE has the latter weight as it is.
fn weights(script: &mut Script) {
    for p in [5, 251] {
        let most = p / 2;
        run_weight(script, p, most);
        let gates = run_weight(script, p, most + 1);
        let b = RECORD_BYTES * gates + 6;
        script.set(b, most + 1);
        script.set(b + 1, 0);
        script.check();
    }
}

/// A score card of one condition, which holds; its gates.
fn run_weight(script: &mut Script, p: u8, weight: u8) -> usize {
    let gates = script.build_exactly(&score_card_bytes(p, 60, &[(5, 1, weight)]));
    script.check();
    script.run(gates, &[1], &[1]);
    gates
}
