//! Last-use lists: which gates count as readers, rooms, and what is turned away.

use super::tables::{draw_gates, gate, scale, table_of};
use super::writer::Script;
use super::{BENCH, RELATIONS, SCORE_BENCH};
use crate::card::{card_bytes, score_card_bytes};
use crate::field::PRIMES;
use crate::random::Random;
use crate::table::{table_bytes, Gate, Kind, RECORD_BYTES};

pub fn write(script: &mut Script) {
    bench_rooms(script);
    turned_away(script);
    one_gate(script);
    outputs_of_each_kind(script);
    readers_of_each_kind(script);
    small_tables(script);
    later_bytes(script);
    long_tables(script);
    drawn_tables(script);
    each_relation(script);
    several_conditions(script);
    scores(script);
    gate_counts(script);
    far_readers(script);
    longest(script);
}

/// A list of at most this many entries is shown.
const SHOWN: usize = 20;

/// The first bench card's table in rooms of every kind, first where all entries
/// are 9, then where they are others.
fn bench_rooms(script: &mut Script) {
    script.build(64, &BENCH);
    each_room(script);
    fill(script);
    script.build(64, &BENCH);
    each_room(script);
    script.last_uses(SHOWN + 1);
    // The areas of tables and of gate values are left alone.
    script.check();
    script.run(8, &[0], &[1]);
    script.last_uses(8);
}

fn each_room(script: &mut Script) {
    for room in [0, 6, 7, 8, SHOWN, 8_200] {
        script.last_uses(room);
    }
}

/// Ten LEFTs that are read from the last one down: 19 to 10, and then 10 to 19.
/// So the first ten entries are none that a table of ten gates gives.
fn fill(script: &mut Script) {
    let mut gates = vec![gate(Kind::Left, 0, 0); 10];
    gates.extend((0..10).rev().map(|number| gate(Kind::Flip, number, 0)));
    list(script, &gates);
}

/// The list of a table of these gates, at p=31 with all slots.
fn list(script: &mut Script, gates: &[Gate]) {
    script.table(&table_of(31, 50, 16, gates));
    script.last_uses(SHOWN);
}

/// The bench card's table with each rule broken, with no entry, with one too few
/// and with more than enough. The entries that `fill` leaves are kept.
fn turned_away(script: &mut Script) {
    fill(script);
    script.build(64, &BENCH);
    for length in [7, 63] {
        script.cut(length);
        refused(script);
    }
    script.cut(64);
    for (place, wrong, good) in [
        // The head: mark, p, s, N, spare, and no gate or too many.
        (1, 0x54, 0x48),
        (2, 9, 3),
        (3, 49, 75),
        (4, 17, 1),
        (5, 1, 0),
        (6, 0, 7),
        (7, 32, 0),
        // The last gate: mark, spare, kind, a and b.
        (57, 0x48, 0x54),
        (59, 1, 0),
        (58, 8, 3),
        (60, 6, 4),
        (62, 6, 5),
        // The constant of gate 5.
        (54, 254, 255),
    ] {
        script.set(place, wrong);
        refused(script);
        script.set(place, good);
    }
    script.last_uses(6);
    script.last_uses(SHOWN);
}

fn refused(script: &mut Script) {
    for room in [0, 6, 8] {
        script.last_uses(room);
    }
}

fn one_gate(script: &mut Script) {
    for kind in [Kind::Left, Kind::Right] {
        script.table(&table_of(5, 50, 3, &[gate(kind, 2, 0)]));
        for room in [0, 1, 2] {
            script.last_uses(room);
        }
    }
}

/// The output is read by none, whichever kind it is.
fn outputs_of_each_kind(script: &mut Script) {
    for output in [
        gate(Kind::Left, 1, 0),
        gate(Kind::Right, 1, 0),
        gate(Kind::Add, 0, 1),
        gate(Kind::Sub, 1, 0),
        scale(0, 1),
        gate(Kind::Flip, 1, 0),
        gate(Kind::Mul, 1, 1),
    ] {
        let gates = [gate(Kind::Left, 0, 0), gate(Kind::Right, 0, 0), output];
        script.table(&table_of(5, 50, 2, &gates));
        script.last_uses(4);
    }
}

/// Each kind that reads is the last reader of a gate, as a and as b where it has
/// both. Gate 0 is read last by a MUL; the four gates after it have a 0 that is
/// a constant, an unused b or a slot.
fn readers_of_each_kind(script: &mut Script) {
    let mut gates: Vec<Gate> = (0..9).map(|slot| gate(Kind::Right, slot, 0)).collect();
    gates.extend([
        gate(Kind::Add, 1, 0),
        gate(Kind::Add, 0, 2),
        gate(Kind::Sub, 3, 0),
        gate(Kind::Sub, 0, 4),
        gate(Kind::Mul, 5, 0),
        gate(Kind::Mul, 0, 6),
        scale(7, 0),
        gate(Kind::Flip, 8, 0),
        gate(Kind::Left, 0, 0),
        gate(Kind::Right, 0, 0),
    ]);
    list(script, &gates);
}

fn small_tables(script: &mut Script) {
    list(script, &gates_that_none_reads());
    list(script, &gates_read_twice());
    list(script, &a_gate_read_by_many());
    list(script, &constants_like_gates());
    list(script, &slots_like_gates());
    list(script, &readers_without_need());
    list(script, &needed_and_not());
}

/// All but two are read by none, at both ends and between.
fn gates_that_none_reads() -> Vec<Gate> {
    vec![
        gate(Kind::Right, 5, 0),
        gate(Kind::Left, 5, 0),
        gate(Kind::Flip, 1, 0),
        gate(Kind::Mul, 1, 1),
        gate(Kind::Left, 4, 0),
        scale(1, -1),
        gate(Kind::Right, 3, 0),
        gate(Kind::Add, 6, 1),
        gate(Kind::Left, 2, 0),
    ]
}

/// Read twice by one gate, of each kind that can, as the only and as the last
/// reader.
fn gates_read_twice() -> Vec<Gate> {
    vec![
        gate(Kind::Left, 0, 0),
        gate(Kind::Mul, 0, 0),
        gate(Kind::Add, 1, 1),
        gate(Kind::Sub, 2, 2),
        gate(Kind::Right, 0, 0),
        gate(Kind::Add, 4, 3),
        gate(Kind::Sub, 3, 3),
        gate(Kind::Mul, 4, 4),
        gate(Kind::Flip, 5, 0),
        gate(Kind::Add, 5, 5),
        gate(Kind::Mul, 2, 2),
    ]
}

/// Gate 1 is read by all gates after it, in both places; some of them read gate
/// 0 or the gate before them too.
fn a_gate_read_by_many() -> Vec<Gate> {
    let mut gates = vec![gate(Kind::Left, 0, 0), gate(Kind::Right, 0, 0)];
    for number in 2..18 {
        gates.push(match number % 5 {
            0 => gate(Kind::Mul, 1, number - 1),
            1 => gate(Kind::Sub, number - 1, 1),
            2 => gate(Kind::Add, 1, 0),
            3 => scale(1, 3),
            _ => gate(Kind::Sub, 0, 1),
        });
    }
    gates
}

/// Constants that are the numbers of lower gates, of the gate itself and of
/// later ones, and the same below zero. At last 0, after gate 0's last reader.
fn constants_like_gates() -> Vec<Gate> {
    let mut gates = vec![
        gate(Kind::Left, 0, 0),
        gate(Kind::Right, 0, 0),
        gate(Kind::Add, 0, 1),
        gate(Kind::Flip, 2, 0),
    ];
    for constant in [1, 2, 3, 5, 8, 15, 9, -1, -4, -11, -15] {
        gates.push(scale(0, constant));
    }
    gates.extend([scale(3, 0), scale(3, 4), scale(3, -4), scale(12, 13)]);
    gates
}

/// Slots that are the numbers of lower gates, of the gate itself and of later
/// ones.
fn slots_like_gates() -> Vec<Gate> {
    vec![
        gate(Kind::Left, 0, 0),
        gate(Kind::Right, 1, 0),
        gate(Kind::Add, 0, 1),
        gate(Kind::Left, 2, 0),
        gate(Kind::Right, 2, 0),
        gate(Kind::Sub, 4, 3),
        gate(Kind::Left, 3, 0),
        gate(Kind::Right, 4, 0),
        gate(Kind::Left, 8, 0),
        gate(Kind::Right, 15, 0),
        gate(Kind::Left, 0, 0),
        gate(Kind::Right, 0, 0),
        gate(Kind::Left, 1, 0),
        gate(Kind::Right, 1, 0),
        gate(Kind::Mul, 13, 12),
        gate(Kind::Right, 13, 0),
        gate(Kind::Left, 12, 0),
    ]
}

/// The output is a slot, so that it needs none of the gates that read.
fn readers_without_need() -> Vec<Gate> {
    vec![
        gate(Kind::Left, 0, 0),
        gate(Kind::Right, 0, 0),
        gate(Kind::Sub, 0, 1),
        gate(Kind::Mul, 2, 2),
        gate(Kind::Flip, 3, 0),
        gate(Kind::Left, 3, 0),
    ]
}

/// Gates 0, 1 and 3 are read for the output first, and then without need.
fn needed_and_not() -> Vec<Gate> {
    vec![
        gate(Kind::Left, 0, 0),
        gate(Kind::Right, 0, 0),
        gate(Kind::Sub, 0, 1),
        gate(Kind::Mul, 2, 2),
        gate(Kind::Flip, 0, 0),
        gate(Kind::Add, 4, 1),
        gate(Kind::Flip, 3, 0),
        scale(3, 2),
        gate(Kind::Mul, 7, 0),
        scale(6, 2),
    ]
}

/// The bench card's gates and two more that read them: with G of 7 and of 8
/// what is after the table is not looked at, be it a gate or none.
fn later_bytes(script: &mut Script) {
    let gates = [
        gate(Kind::Left, 0, 0),
        gate(Kind::Right, 0, 0),
        gate(Kind::Sub, 0, 1),
        gate(Kind::Mul, 2, 2),
        scale(2, 1),
        scale(3, -1),
        gate(Kind::Add, 4, 5),
        gate(Kind::Mul, 6, 0),
        gate(Kind::Sub, 1, 6),
    ];
    fill(script);
    script.table(&table_of(3, 75, 1, &gates));
    for count in [7, 8, 9] {
        script.set(6, count);
        script.last_uses(count.into());
        script.last_uses(10);
    }
    // The mark of gate 8.
    script.set(73, 0x55);
    for count in [9, 8] {
        script.set(6, count);
        script.last_uses(10);
    }
    script.cut(72);
    script.last_uses(10);
    script.cut(65_600);
    script.last_uses(8_200);
}

/// Each gate read by its successor alone, in the longest table that a line can
/// hold; each read by the next two; and gate 0 read by all others.
fn long_tables(script: &mut Script) {
    let mut successors = vec![gate(Kind::Left, 0, 0)];
    for number in 0..126 {
        successors.push(match number % 4 {
            0 => gate(Kind::Flip, number, 0),
            1 => gate(Kind::Mul, number, number),
            2 => scale(number, -2),
            _ => gate(Kind::Add, number, number),
        });
    }
    let mut products = vec![gate(Kind::Left, 0, 0), gate(Kind::Right, 0, 0)];
    let mut readers = products.clone();
    for number in 1..40 {
        products.push(gate(Kind::Mul, number, number - 1));
        readers.push(match number % 3 {
            0 => gate(Kind::Sub, 0, number),
            1 => gate(Kind::Mul, number, 0),
            _ => gate(Kind::Flip, 0, 0),
        });
    }
    for gates in [successors, products, readers] {
        script.table(&table_of(251, 50, 1, &gates));
        exact_room(script, gates.len());
        script.last_uses(SHOWN);
    }
}

/// One entry too few, and just enough.
fn exact_room(script: &mut Script, gates: usize) {
    script.last_uses(gates - 1);
    script.last_uses(gates);
}

/// Drawn tables, with one entry too few and with all that can be shown.
fn drawn_tables(script: &mut Script) {
    let mut random = Random::new(0x1A57);
    for _ in 0..12 {
        let p = random.pick(&PRIMES);
        let slots = 1 + random.byte_below(16);
        let gates = draw_gates(&mut random, p, slots);
        script.table(&table_of(p, 50, slots, &gates));
        script.last_uses(gates.len() - 1);
        script.last_uses(SHOWN);
    }
}

/// The list of an accepted card's table, in just the entries that it takes.
fn list_built(script: &mut Script, card: &[u8]) -> usize {
    let gates = script.build_exactly(card);
    script.last_uses(gates);
    gates
}

fn each_relation(script: &mut Script) {
    for (p, n) in [(3, 2), (5, 1), (37, 3), (251, 1)] {
        for relation in RELATIONS {
            list_built(script, &card_bytes(p, 75, &[(relation, n)]));
        }
    }
}

/// Outputs that wait for others, in card order and against it.
fn several_conditions(script: &mut Script) {
    let cards: [(u8, &[(u8, u8)]); 7] = [
        (3, &[(5, 1), (6, 1)]),
        (3, &[(1, 1), (5, 1)]),
        (5, &[(1, 1), (5, 3)]),
        (7, &[(1, 4), (5, 1), (2, 1)]),
        (11, &[(5, 1), (5, 2), (5, 3), (5, 4)]),
        (13, &[(2, 2); 8]),
        (127, &[(6, 3), (3, 1), (5, 3), (4, 1), (1, 2), (2, 1)]),
    ];
    for (p, conditions) in cards {
        list_built(script, &card_bytes(p, 64, conditions));
    }
}

/// Outputs that wait for their SCALEs, and sums for the next one.
fn scores(script: &mut Script) {
    let cards = [
        SCORE_BENCH.to_vec(),
        score_card_bytes(3, 64, &[(5, 1, 2)]),
        score_card_bytes(3, 64, &[(6, 1, 1), (5, 1, 1)]),
        score_card_bytes(5, 64, &[(5, 1, 1), (6, 1, 3)]),
        score_card_bytes(5, 64, &[(1, 1, 1), (5, 3, 2)]),
        score_card_bytes(31, 64, &[(4, 3, 5), (3, 1, 3)]),
        score_card_bytes(17, 64, &[(2, 2, 2); 8]),
        score_card_bytes(251, 64, &[(1, 2, 125), (6, 3, 100), (4, 1, 25)]),
    ];
    for card in &cards {
        list_built(script, card);
    }
}

/// The table of a "<" of 1 at p=251, and fewer of its gates.
fn gate_counts(script: &mut Script) {
    let gates = list_built(script, &card_bytes(251, 50, &[(1, 1)]));
    for count in [1, 255, 256, 257, gates - 1, gates] {
        put_gate_count(script, count);
        exact_room(script, count);
    }
    script.last_uses(SHOWN);
}

fn put_gate_count(script: &mut Script, count: usize) {
    let [low, high] = (count as u16).to_le_bytes();
    script.set(6, low);
    script.set(7, high);
}

/// The last gate of that table, 440, made one that reads others, the first ones
/// among them: too small a room shows their entries as they were left.
fn far_readers(script: &mut Script) {
    let gates = list_built(script, &card_bytes(251, 50, &[(1, 1)]));
    let last = RECORD_BYTES * gates;
    let mut record = gate(Kind::Add, 438, 439).record();
    for far in [
        gate(Kind::Add, 0, 1),
        gate(Kind::Mul, 2, 2),
        gate(Kind::Sub, 3, 256),
        gate(Kind::Sub, 257, 1),
        scale(0, -125),
    ] {
        let bytes = far.record();
        script.change(last, &record, &bytes);
        record = bytes;
        script.last_uses(gates);
        script.last_uses(4);
    }
}

/// The longest tables of cards, and 8191 gates: after the card's own there are
/// those that the longest table of all has left, each a MUL of gate 0x0707 by
/// itself but for the last one, whose last byte is mended here.
fn longest(script: &mut Script) {
    let plain = card_bytes(251, 99, &[(2, 16)]);
    let score = score_card_bytes(251, 99, &[(2, 16, 250)]);
    for card in [plain, score] {
        let gates = script.build_exactly(&card);
        exact_room(script, gates);
        script.last_uses(8_200);
        script.last_uses(SHOWN);
    }
    put_gate_count(script, 8_191);
    script.last_uses(8_200);
    script.cut(table_bytes(8_191));
    script.last_uses(8_191);
    script.set(65_535, 7);
    exact_room(script, 8_191);
    script.last_uses(8_200);
    script.last_uses(SHOWN);
    // The last gate reads the first one and the one before itself.
    let before = gate(Kind::Mul, 0x0707, 0x0707).record();
    let after = gate(Kind::Mul, 0, 8_189).record();
    script.change(RECORD_BYTES * 8_191, &before, &after);
    exact_room(script, 8_191);
    script.last_uses(SHOWN);
    put_gate_count(script, 8_192);
    script.last_uses(8_200);
}
