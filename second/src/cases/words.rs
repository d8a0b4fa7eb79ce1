//! The first four bytes of a gate record, which are read as one word: mark,
//! kind and spare.

use super::writer::Script;

pub fn write(script: &mut Script) {
    script.table(&TWO_GATES);
    wrong_marks(script);
    kinds_and_spares(script);
    each_order(script);
}

/// A LEFT at p=251 and a second gate over operands that every kind may have.
const TWO_GATES: [u8; 24] = [
    0x47, 0x48, 251, 60, 1, 0, 2, 0, //
    0x47, 0x54, 1, 0, 0, 0, 0, 0, //
    0x47, 0x54, 1, 0, 0, 0, 0, 0,
];

/// The second gate opens with other four bytes.
fn check_word(script: &mut Script, word: [u8; 4]) {
    for (place, byte) in (16..).zip(word) {
        script.set(place, byte);
    }
    script.check();
}

/// A mark with one byte off by one, or with its two exchanged, whatever comes
/// after it.
fn wrong_marks(script: &mut Script) {
    for (opening, closing) in [
        (0x46, 0x54),
        (0x48, 0x54),
        (0x47, 0x53),
        (0x47, 0x55),
        (0x54, 0x47),
    ] {
        for kind in [0, 7] {
            for spare in [0, 255] {
                check_word(script, [opening, closing, kind, spare]);
            }
        }
    }
}

/// A spare goes before a kind. Run tells the kinds apart, but for SUB and
/// SCALE, which both give 0 here.
fn kinds_and_spares(script: &mut Script) {
    for kind in [0, 1, 2, 3, 4, 5, 6, 7, 8, 255] {
        for spare in [0, 1, 128, 255] {
            check_word(script, [0x47, 0x54, kind, spare]);
            script.run(2, &[5], &[9]);
        }
    }
}

/// The four bytes of a MUL's word in each order.
fn each_order(script: &mut Script) {
    let word = [0x47, 0x54, 7, 0];
    for first in 0..4 {
        for second in (0..4).filter(|&i| i != first) {
            for third in (0..4).filter(|&i| i != first && i != second) {
                let fourth = 6 - first - second - third;
                check_word(script, [first, second, third, fourth].map(|i| word[i]));
            }
        }
    }
}
