//! Products that nothing uses: which MULs Check charges, and which it does not.

use super::tables::{gate, scale, table_of};
use super::writer::Script;
use super::{BENCH, SCORE_BENCH};
use crate::card::{card_bytes, score_card_bytes};
use crate::field::{near_zero, PRIMES};
use crate::random::Random;
use crate::table::{table_bytes, Gate, Kind, RECORD_BYTES};

pub fn write(script: &mut Script) {
    unused(script);
    same_pairs(script);
    other_pairs(script);
    unused_of_a_pair(script);
    copies(script);
    readers_of_each_kind(script);
    outputs(script);
    weights(script);
    other_answers(script);
    wrong_where_unused(script);
    later_bytes(script);
    one_pair(script);
    every_pair(script);
    chain(script);
    drawn_tables(script);
    small_cards(script);
    larger_cards(script);
    far_pairs(script);
    gate_counts(script);
    longest(script);
}

fn left(slot: u16) -> Gate {
    gate(Kind::Left, slot, 0)
}

fn right(slot: u16) -> Gate {
    gate(Kind::Right, slot, 0)
}

fn add(a: u16, b: u16) -> Gate {
    gate(Kind::Add, a, b)
}

fn sub(a: u16, b: u16) -> Gate {
    gate(Kind::Sub, a, b)
}

fn flip(a: u16) -> Gate {
    gate(Kind::Flip, a, 0)
}

fn mul(a: u16, b: u16) -> Gate {
    gate(Kind::Mul, a, b)
}

/// This many slots, then these gates.
fn after_slots(slots: u16, gates: &[Gate]) -> Vec<Gate> {
    let mut all: Vec<Gate> = (0..slots)
        .map(|number| match number % 2 {
            0 => left(number / 2),
            _ => right(number / 2),
        })
        .collect();
    all.extend(gates);
    all
}

/// This many slots, a MUL over each of these pairs, and the sum of the MULs, so
/// that all are used.
fn summed(slots: u16, pairs: &[(u16, u16)]) -> Vec<Gate> {
    let mut gates = after_slots(slots, &[]);
    gates.extend(pairs.iter().map(|&(a, b)| mul(a, b)));
    let mut sum = slots;
    for term in slots + 1..slots + pairs.len() as u16 {
        gates.push(add(sum, term));
        sum = gates.len() as u16 - 1;
    }
    gates
}

/// A table of these gates, at p=31 with all slots. A square costs 75.
fn check(script: &mut Script, gates: &[Gate]) {
    script.table(&table_of(31, 75, 16, gates));
    script.check();
}

/// Gate `number` becomes each of these in turn, and the table is checked.
fn replace(script: &mut Script, number: usize, mut before: Gate, gates: &[Gate]) {
    for &after in gates {
        let start = RECORD_BYTES * (number + 1);
        script.change(start, &before.record(), &after.record());
        script.check();
        before = after;
    }
}

/// The same of the last of these gates.
fn replace_last(script: &mut Script, before: &[Gate], gates: &[Gate]) {
    let last = before.len() - 1;
    replace(script, last, before[last], gates);
}

/// Products and squares that the output does not need, alone and beside others
/// that it does.
fn unused(script: &mut Script) {
    for gates in [
        vec![mul(0, 1), add(0, 1)],
        vec![mul(0, 0), add(0, 1)],
        vec![mul(0, 1), mul(1, 1), mul(0, 0), add(4, 0)],
        // Read by gates that are unused themselves.
        vec![mul(0, 1), flip(2), sub(0, 1)],
        vec![mul(0, 1), mul(2, 0), mul(3, 3), add(1, 0)],
        // Read by a used gate and by a later one that is not.
        vec![mul(0, 1), flip(2), mul(2, 2), flip(3)],
    ] {
        check(script, &after_slots(2, &gates));
    }
}

/// One pair over and over, in one order and in both.
fn same_pairs(script: &mut Script) {
    for pairs in [
        &[(0, 1), (1, 0)][..],
        &[(0, 1), (0, 1)],
        &[(1, 0), (1, 0)],
        &[(0, 1), (1, 0), (0, 1)],
        &[(1, 1), (1, 1)],
        &[(0, 0), (0, 0), (0, 0)],
        // Squares and their product.
        &[(0, 0), (0, 1), (1, 1), (1, 0)],
    ] {
        check(script, &summed(2, pairs));
    }
    // One pair is not always beside itself.
    check(
        script,
        &summed(3, &[(0, 1), (1, 2), (1, 0), (2, 1), (0, 1)]),
    );
}

/// Pairs that are alike: one gate in common, the lower one, the higher one or
/// the higher of one and the lower of the other, or none, but the same sum,
/// difference or product of numbers.
fn other_pairs(script: &mut Script) {
    for pairs in [
        [(0, 1), (0, 2)],
        [(2, 0), (1, 0)],
        [(0, 2), (1, 2)],
        [(2, 1), (0, 2)],
        [(0, 1), (1, 2)],
        [(2, 1), (1, 0)],
        [(0, 0), (2, 0)],
        [(1, 2), (2, 2)],
    ] {
        check(script, &summed(3, &pairs));
    }
    for pairs in [[(0, 3), (1, 2)], [(0, 1), (2, 3)], [(1, 3), (2, 2)]] {
        check(script, &summed(4, &pairs));
    }
    check(script, &summed(7, &[(2, 6), (3, 4)]));
}

/// One pair, of which only some MULs are used: the second, the first, none, the
/// one between, and both ends.
fn unused_of_a_pair(script: &mut Script) {
    for gates in [
        vec![mul(0, 1), mul(0, 1), flip(3)],
        vec![mul(0, 1), mul(1, 0), flip(3)],
        vec![mul(1, 0), mul(0, 1), flip(2)],
        vec![mul(0, 1), mul(1, 0), flip(0)],
        vec![mul(1, 1), mul(1, 1), flip(3)],
        vec![mul(0, 0), mul(0, 0), flip(2)],
        vec![mul(1, 1), mul(1, 1), flip(1)],
        vec![mul(0, 1), mul(1, 0), mul(0, 1), flip(3)],
        vec![mul(0, 1), mul(0, 1), mul(1, 0), add(2, 4)],
    ] {
        check(script, &after_slots(2, &gates));
    }
}

/// Gates of one value are different gates, and MULs over them are over different
/// pairs, be the copies MULs that count once or gates of other kinds.
fn copies(script: &mut Script) {
    for gates in [
        vec![mul(0, 1), mul(1, 0), mul(2, 0), mul(3, 0), add(4, 5)],
        vec![mul(0, 0), mul(0, 0), mul(2, 2), mul(3, 3), add(4, 5)],
        vec![mul(0, 1), mul(0, 1), mul(2, 3)],
        vec![mul(0, 1), mul(0, 1), mul(2, 2), mul(3, 2), sub(4, 5)],
        vec![
            left(0),
            mul(0, 1),
            mul(1, 2),
            mul(0, 2),
            add(3, 4),
            add(5, 6),
        ],
        vec![
            scale(0, 1),
            flip(0),
            flip(3),
            mul(0, 1),
            mul(1, 2),
            mul(4, 1),
            add(5, 6),
            add(7, 8),
        ],
        vec![add(0, 1), add(1, 0), mul(2, 2), mul(3, 3), add(4, 5)],
    ] {
        check(script, &after_slots(2, &gates));
    }
}

/// The product of gates 0 and 1, read by the output, which is of each kind; read
/// through all kinds; and beside a slot and constants that are its number.
fn readers_of_each_kind(script: &mut Script) {
    for output in [
        add(2, 0),
        add(0, 2),
        sub(2, 1),
        sub(1, 2),
        scale(2, 3),
        flip(2),
        mul(2, 0),
        mul(1, 2),
        mul(2, 2),
        // Values that do not hang on it: a gate depends on it all the same.
        scale(2, 0),
        sub(2, 2),
        // No readers.
        left(2),
        right(2),
        scale(0, 2),
        scale(1, -2),
        flip(0),
    ] {
        check(script, &after_slots(2, &[mul(0, 1), output]));
    }
    let chain = [
        mul(0, 1),
        scale(2, -3),
        sub(0, 3),
        flip(4),
        add(5, 1),
        mul(6, 0),
        sub(7, 7),
        mul(8, 8),
        add(0, 9),
        mul(1, 10),
        scale(11, 0),
    ];
    check(script, &after_slots(2, &chain));
}

/// One gate; outputs that are MULs themselves, over a new pair and over one that
/// an unused MUL has; and outputs that need none of the others.
fn outputs(script: &mut Script) {
    check(script, &[left(15)]);
    check(script, &[right(0)]);
    for gates in [
        vec![mul(0, 1)],
        vec![mul(1, 0)],
        vec![mul(1, 1)],
        vec![mul(0, 1), mul(1, 0)],
        vec![mul(0, 0), flip(2), mul(0, 0)],
        vec![mul(0, 1), mul(2, 2), add(3, 2), left(0)],
        vec![mul(0, 1), mul(2, 2), add(3, 2), right(3)],
    ] {
        check(script, &after_slots(2, &gates));
    }
}

/// Four products and two squares that count. One of each is there twice, and one
/// of each is unused.
fn some_of_each() -> Vec<Gate> {
    after_slots(
        2,
        &[
            mul(0, 1),
            mul(1, 1),
            mul(1, 0),
            mul(1, 1),
            mul(2, 4),
            mul(3, 5),
            mul(6, 6),
            mul(6, 7),
            mul(6, 7),
            flip(8),
            add(11, 7),
            sub(12, 10),
            mul(13, 13),
            scale(13, 5),
        ],
    )
}

fn weights(script: &mut Script) {
    check(script, &some_of_each());
    for weight in [50, 100] {
        script.set(3, weight);
        script.check();
    }
}

/// Trim, Run and the last-use list have to do with all gates of that table, used
/// or not.
fn other_answers(script: &mut Script) {
    script.trim();
    script.run(16, &[2; 16], &[9; 16]);
    script.last_uses(16);
}

/// An unused gate is looked at as any other: all of gate 3 is wrong at first;
/// each step mends the first wrong thing.
fn wrong_where_unused(script: &mut Script) {
    let gates = after_slots(2, &[mul(0, 1), mul(1, 1), mul(0, 0), left(4)]);
    let good = table_of(31, 75, 16, &gates);
    let mut bytes = good.clone();
    bytes[32..40].copy_from_slice(&[0x47, 0x55, 8, 1, 3, 0, 3, 0]);
    script.table(&bytes);
    script.check();
    for place in [33, 35, 34, 36, 38] {
        script.set(place, good[place]);
        script.check();
    }
}

/// Each of these gates in turn is the output, and what comes after it is not
/// looked at.
fn later_bytes(script: &mut Script) {
    let gates = [
        mul(0, 1),
        mul(1, 0),
        add(2, 3),
        mul(4, 4),
        mul(3, 2),
        mul(5, 6),
        flip(2),
    ];
    script.table(&table_of(31, 75, 16, &after_slots(2, &gates)));
    for count in 3..=9 {
        script.set(6, count);
        script.check();
    }
}

/// Thirty MULs over one pair, in turn in each order; then one of them a square,
/// and over another pair; and fewer of them, with that one and without.
fn one_pair(script: &mut Script) {
    let pairs: Vec<(u16, u16)> = (0..30).map(|i| (i % 2, 1 - i % 2)).collect();
    let gates = summed(2, &pairs);
    check(script, &gates);
    replace(script, 17, gates[17], &[mul(0, 0), mul(2, 0)]);
    replace_last(script, &gates, &[add(46, 31), add(45, 31), add(45, 17)]);
}

/// A MUL over each two of six gates, in both orders; then fewer of them.
fn every_pair(script: &mut Script) {
    let pairs: Vec<(u16, u16)> = (0..36).map(|i| (i % 6, i / 6)).collect();
    let gates = summed(6, &pairs);
    check(script, &gates);
    let outputs = [add(60, 41), add(50, 41), add(50, 7), mul(50, 7), mul(5, 7)];
    replace_last(script, &gates, &outputs);
}

/// A chain of 80 gates, each read by the next one, with products and squares
/// among them; then outputs that read a part of it, or none.
fn chain(script: &mut Script) {
    let mut gates = vec![left(0), right(0)];
    for number in 1..79 {
        gates.push(match number % 5 {
            0 => mul(number, number),
            1 => mul(number, number - 1),
            2 => flip(number),
            3 => mul(0, number),
            _ => sub(1, number),
        });
    }
    check(script, &gates);
    let outputs = [mul(0, 76), mul(0, 40), mul(0, 1), add(0, 1)];
    replace_last(script, &gates, &outputs);
}

/// Drawn tables with many MULs over few gates.
fn drawn_tables(script: &mut Script) {
    let mut random = Random::new(0x05ED);
    for _ in 0..14 {
        let p = random.pick(&PRIMES);
        let gates = draw_gates(&mut random, p);
        script.table(&table_of(p, 50 + random.byte_below(51), 16, &gates));
        script.check();
    }
}

/// Three slots, 8 to 15 gates over them and over the last ones, and a sum of
/// some.
fn draw_gates(random: &mut Random, p: u8) -> Vec<Gate> {
    let mut gates = after_slots(3, &[]);
    let count = 11 + random.below(8) as u16;
    for number in 3..count {
        let mut operand = || match random.below(3) {
            0 => number - 1 - random.below(3) as u16,
            _ => random.below(3) as u16,
        };
        let (a, b) = (operand(), operand());
        gates.push(match random.below(9) {
            0 => right(a),
            1 => scale(a, near_zero(p, random.byte_below(p))),
            2 => sub(a, b),
            _ => mul(a, b),
        });
    }
    for number in count..count + 4 {
        let term = random.below(u64::from(count)) as u16;
        gates.push(add(number - 1, term));
    }
    gates
}

/// An accepted card's table, as it is built and then with other gates in the
/// place of the last one.
fn other_outputs(script: &mut Script, card: &[u8], built: Gate, others: &[Gate]) {
    let gates = script.build_exactly(card);
    script.check();
    replace(script, gates - 1, built, others);
}

/// The bench card of each form with outputs that need less.
fn small_cards(script: &mut Script) {
    let outputs = [add(4, 4), add(4, 3), mul(4, 3), mul(2, 3), mul(2, 2)];
    other_outputs(script, &BENCH, add(4, 5), &outputs);
    let outputs = [scale(4, 1), scale(3, 1), mul(3, 1)];
    other_outputs(script, &SCORE_BENCH, scale(6, 1), &outputs);
    // In a "=" at p=251 gate 6 is the product of gates 3 and 5, and gate 7 the
    // square of gate 5. Gate 8, the only one that reads gate 6, takes its pair.
    script.build_exactly(&card_bytes(251, 75, &[(5, 1)]));
    script.check();
    replace(script, 8, mul(6, 7), &[mul(5, 7), mul(5, 5), mul(5, 3)]);
}

/// Two conditions, of which the output reads only the first or only the last, or
/// both in the other order; and eight, of which it reads the first ones.
fn larger_cards(script: &mut Script) {
    let card = card_bytes(5, 80, &[(1, 1), (5, 3)]);
    let outputs = [flip(10), flip(30), mul(30, 30), mul(30, 10)];
    other_outputs(script, &card, mul(10, 30), &outputs);
    let card = score_card_bytes(31, 75, &[(4, 3, 5), (3, 1, 3)]);
    let outputs = [add(232, 232), mul(232, 232), mul(233, 232), mul(233, 233)];
    other_outputs(script, &card, add(232, 233), &outputs);
    let card = card_bytes(3, 50, &[(2, 2); 8]);
    other_outputs(script, &card, mul(148, 149), &[mul(148, 148)]);
    let card = score_card_bytes(17, 100, &[(2, 2, 2); 8]);
    other_outputs(script, &card, add(556, 557), &[add(556, 556)]);
}

/// In the table of a "<" of 1 at p=251 gate 440 adds gates 438 and 439, and gate
/// 189, the square of gate 126, serves gate 439 alone. That one becomes a MUL,
/// over pairs that others have, over some with the same low bytes, over three
/// that 16 bits do not tell from others, and over the pair of gate 189.
fn far_pairs(script: &mut Script) {
    script.build_exactly(&card_bytes(251, 99, &[(1, 1)]));
    script.check();
    let muls = [
        mul(2, 3),
        mul(3, 3),
        mul(3, 2),
        mul(259, 2),
        mul(259, 258),
        mul(259, 259),
        mul(3, 259),
        mul(1, 258),
        mul(2, 11),
        mul(2, 19),
        mul(126, 125),
        mul(126, 126),
        mul(438, 438),
    ];
    replace(script, 439, scale(189, -125), &muls);
}

/// The table of a "<=" of 16 at p=251, and fewer of its gates.
fn gate_counts(script: &mut Script) {
    let mut gates = script.build_exactly(&card_bytes(251, 99, &[(2, 16)]));
    script.check();
    for count in [
        255, 256, 257, 1_023, 1_024, 1_025, 2_047, 2_048, 2_049, 4_096, 7_112,
    ] {
        put_gate_count(script, gates, count);
        script.check();
        gates = count;
    }
}

fn put_gate_count(script: &mut Script, before: usize, after: usize) {
    let [before, after] = [before, after].map(|count| (count as u16).to_le_bytes());
    script.change(6, &before, &after);
}

/// That table with 8191 gates: after its own there are those that earlier tables
/// have left, from gate 7114 on MULs of gate 0x0707 by itself, and a last one
/// that reads the first one and the one before itself.
fn longest(script: &mut Script) {
    put_gate_count(script, 7_112, 8_191);
    script.cut(table_bytes(8_191));
    script.check();
    let card = flip(7_112);
    let with_card = sub(7_112, 8_189);
    replace(script, 8_190, mul(0, 8_189), &[left(0), card, with_card]);
    // The card has the first two of these pairs, but not the last.
    let square = mul(0x0707, 0x0707);
    let product = mul(0x0706, 0x0707);
    let new = mul(0x0806, 0x0707);
    replace(script, 8_189, square, &[product, new]);
    replace(script, 8_190, with_card, &[add(8_188, 8_189)]);
    replace(script, 8_188, square, &[mul(0x0707, 0x0806)]);
    script.trim();
    script.last_uses(8_191);
}
