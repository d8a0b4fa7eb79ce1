//! The cases that the document gives, starred ones too, and the rules of scored
//! queries, of constants near zero, of the last-use list and of two conditions
//! over the same field.

use second::card::{
    card_bytes as card, score_card_bytes as score_card, shared_card_bytes as shared_card,
};
use second::field::{order_constants, PRIMES};
use second::table::{Kind, Table};
use second::{
    build, check, decode, encode, forecast, last_uses, listing, run, trim, Cost, Depth, Refusal,
    Report,
};

const BENCH: [u8; 10] = [0xC5, 0x48, 0x03, 0x4B, 1, 0, 0xC5, 0x51, 1, 1];

/// The same card as a score card, with a weight of 1.
const SCORE_BENCH: [u8; 12] = [0xC5, 0x53, 0x03, 0x4B, 1, 0, 0xC5, 0x57, 1, 1, 1, 0];

fn report(gates: u16, products: u16, squares: u16, cost: u32, depth: u16) -> Report {
    Report {
        gates,
        products,
        squares,
        cost: Cost(cost),
        depth: Depth(depth),
    }
}

fn built(card: &[u8]) -> Vec<u8> {
    let mut table = vec![0; 8 * (usize::from(forecast(card).unwrap().gates) + 1)];
    build(card, &mut table).unwrap();
    table
}

fn agree(card: &[u8], expected: Report) {
    let mut table = vec![0; 65_536];
    assert_eq!(forecast(card), Ok(expected));
    assert_eq!(build(card, &mut table), Ok(expected));
    assert_eq!(check(&table), Ok(expected));
}

fn refused(card: &[u8], number: Refusal) {
    assert_eq!(forecast(card), Err(number));
    assert_eq!(build(card, &mut []), Err(number));
}

/// "In document 01's whole listing line 5 becomes `5 SCALE 3 -1`."
#[test]
fn bench_listing() {
    let text = "gates 7 products 0 squares 1 cost 75 depth 1\n\
                0 LEFT 0 0\n1 RIGHT 0 0\n2 SUB 0 1\n3 MUL 2 2\n\
                4 SCALE 2 1\n5 SCALE 3 -1\n6 ADD 4 5\n";
    assert_eq!(listing(&BENCH), text);
    assert_eq!(listing(&BENCH[..9]), "refused 7\n");
    assert_eq!(listing(&[]), "refused 1\n");
}

#[test]
fn bench_room() {
    let mut table = [9; 65];
    assert_eq!(build(&BENCH, &mut table[..63]), Err(11));
    assert_eq!(table, [9; 65]);
    assert_eq!(build(&BENCH, &mut table[..64]), Ok(report(7, 0, 1, 75, 1)));
    assert_eq!(table[64], 9);
}

#[test]
fn counts() {
    agree(&card(7, 50, &[(5, 1)]), report(7, 1, 2, 200, 3));
    agree(&card(5, 100, &[(1, 2)]), report(25, 3, 4, 700, 3));
    assert_eq!(forecast(&card(5, 100, &[(2, 2)])).unwrap().gates, 26);
    agree(&card(5, 80, &[(1, 1), (5, 3)]), report(32, 4, 8, 1040, 5));
}

#[test]
fn constants() {
    assert_eq!(order_constants(5), [4, 3, 3]);
    assert_eq!(order_constants(7), [3, 1, 6, 4]);
    assert_eq!(written_constants(5), [-1, -2, -2]);
    assert_eq!(written_constants(7), [3, 1, -1, -3]);
}

/// The constants of the SCALEs of a "<" of 1.
fn written_constants(p: u8) -> Vec<i16> {
    let bytes = built(&card(p, 50, &[(1, 1)]));
    let gates = Table::read(&bytes).unwrap().gates();
    let scales = gates.filter(|gate| gate.kind == Kind::Scale);
    scales.map(|gate| gate.constant()).collect()
}

/// A SCALE of a LEFT; its b is put at the end.
fn scale_table(p: u8, b: u16) -> [u8; 24] {
    let mut table = [
        0x47, 0x48, p, 50, 1, 0, 2, 0, //
        0x47, 0x54, 1, 0, 0, 0, 0, 0, //
        0x47, 0x54, 5, 0, 0, 0, 0, 0,
    ];
    table[22..].copy_from_slice(&b.to_le_bytes());
    table
}

/// "A signed 16-bit number from -(p-1)/2 to (p-1)/2, two's complement, equal to
/// the old constant modulo p": of all b just these pass, and the gate of value 1
/// is scaled to each number below p by one of them.
#[test]
fn each_number_has_one_constant() {
    for p in PRIMES {
        let most = i32::from(p - 1) / 2;
        let mut constants = vec![None; usize::from(p)];
        for b in 0..=u16::MAX {
            let constant = i32::from(b) - if b < 0x8000 { 0 } else { 0x10000 };
            let mut work = [0; 2];
            let outcome = run(&scale_table(p, b), &[1], &[0], &mut work);
            assert_eq!(check(&scale_table(p, b)).err(), outcome.err());
            if constant < -most || constant > most {
                assert_eq!(outcome, Err(17), "{p} {constant}");
            } else {
                let number = outcome.unwrap();
                assert_eq!((i32::from(number) - constant) % i32::from(p), 0);
                assert_eq!(constants[usize::from(number)].replace(constant), None);
            }
        }
        assert!(constants.iter().all(Option::is_some));
    }
}

/// Only a SCALE's b is signed: with -1 in its place another kind is refused.
#[test]
fn other_operands_have_no_sign() {
    for kind in 1..=7 {
        let mut table = scale_table(7, 0xFFFF);
        table[18] = kind;
        let refused = check(&table) == Err(17);
        assert_eq!(refused, kind != 5, "{kind}");
    }
}

/// A constant above (p-1)/2, as tables had them, is turned away.
#[test]
fn old_tables() {
    let mut table = built(&BENCH);
    assert_eq!(table[54..56], [0xFF, 0xFF]);
    table[54..56].copy_from_slice(&[2, 0]);
    assert_eq!(check(&table), Err(17));
    assert_eq!(run(&table, &[0], &[1], &mut [0; 7]), Err(17));
}

/// "Zero constants are written too", as 0.
#[test]
fn zero_constants() {
    // p=17 is the smallest prime that has one, at i = 9.
    assert_eq!(order_constants(17)[4], 0);
    assert_eq!(written_constants(17)[4], 0);
    let text = listing(&card(17, 50, &[(1, 1)]));
    let scales: Vec<&str> = text.lines().filter(|line| line.contains("SCALE")).collect();
    assert!(scales[4].ends_with(" 0"), "{text}");
    assert!(!text.contains("-0"));
}

#[test]
fn small_comparisons() {
    let table = built(&card(5, 100, &[(1, 2)]));
    let mut work = [0; 25];
    assert_eq!(run(&table, &[2, 1], &[1, 2], &mut work), Ok(1));
    assert_eq!(run(&table, &[1, 2], &[2, 1], &mut work), Ok(0));
    assert_eq!(run(&table, &[2, 2], &[2, 2], &mut work), Ok(0));
}

#[test]
fn coding() {
    let mut out = [7; 3];
    assert_eq!(encode(5, 2, 9, &mut out), Err(22));
    assert_eq!(out, [7; 3]);
    assert_eq!(encode(5, 2, 8, &mut out), Ok(()));
    assert_eq!(out, [2, 2, 7]);
    assert_eq!(decode(5, &[2, 2]), Ok(8));
    assert_eq!(decode(5, &[2, 3]), Err(23));
    assert_eq!(decode(251, &[125; 16]), Err(24));
}

#[test]
fn borders() {
    assert!(forecast(&card(251, 50, &[(1, 1)])).is_ok());
    refused(&card(249, 50, &[(1, 1)]), 3);
    refused(&card(2, 50, &[(1, 1)]), 3);
    refused(&card(249, 49, &[(1, 1)]), 3);
    refused(&card(3, 49, &[(1, 1)]), 4);
    refused(&card(3, 101, &[(1, 1)]), 4);
    refused(&card(3, 50, &[(1, 17)]), 9);
    refused(&card(3, 50, &[(1, 8), (1, 9)]), 10);
}

#[test]
fn wrong_turns() {
    // Digits go up to B-1 only: at p=5 a 3 is no digit, and 0 < 3 comes out 0.
    let table = built(&card(5, 50, &[(1, 1)]));
    assert_eq!(run(&table, &[0], &[3], &mut [0; 11]), Ok(0));
    assert_eq!(run(&table, &[0], &[2], &mut [0; 11]), Ok(1));
    // z^(p-1) is 0 at z=0, so equal digits are not less.
    assert_eq!(run(&table, &[1], &[1], &mut [0; 11]), Ok(0));
}

#[test]
fn score_listing() {
    let text = "gates 8 products 0 squares 1 cost 75 depth 1\n\
                0 LEFT 0 0\n1 RIGHT 0 0\n2 SUB 0 1\n3 MUL 2 2\n\
                4 SCALE 2 1\n5 SCALE 3 -1\n6 ADD 4 5\n7 SCALE 6 1\n";
    assert_eq!(listing(&SCORE_BENCH), text);
    // Weights are near zero too: 125 and 126 are the ends of the range at 251.
    for (weight, last) in [(125, "125"), (126, "-125"), (250, "-1")] {
        let text = listing(&score_card(251, 50, &[(5, 1, weight)]));
        assert!(text.ends_with(&format!("\n16 SCALE 15 {last}\n")), "{text}");
    }
    assert_eq!(listing(&SCORE_BENCH[..11]), "refused 7\n");
}

#[test]
fn score_counts() {
    agree(&SCORE_BENCH, report(8, 0, 1, 75, 1));
    // Distance at least 20 m for 5, grade above 3 for 3: no product joins them.
    let card = score_card(31, 75, &[(4, 3, 5), (3, 1, 3)]);
    agree(&card, report(235, 59, 32, 8300, 7));
    let table = built(&card);
    let mut work = [0; 235];
    let query = [4, 1, 0, 3];
    for (record, score) in [
        ([12, 0, 0, 3], 0),
        ([2, 2, 0, 3], 5),
        ([12, 0, 0, 5], 3),
        ([2, 2, 0, 4], 8),
    ] {
        assert_eq!(run(&table, &record, &query, &mut work), Ok(score));
    }
}

/// "The length rule 7 reads 6+6c here", and the marks are the form's own.
#[test]
fn forms() {
    let plain = card(7, 60, &[(1, 1), (5, 2), (6, 1)]);
    let score = score_card(7, 60, &[(1, 1, 2), (5, 2, 3)]);
    assert_eq!(plain.len(), score.len());
    refused(&[&plain[..6], &score[6..]].concat(), 2);
    refused(&[&score[..6], &plain[6..]].concat(), 2);
    refused(&score[..14], 7);
    refused(&[&score[..], &score[6..12]].concat(), 7);
    for (mut card, place, mark) in [(plain, 11, 0x57), (score, 13, 0x51)] {
        card[place] = mark;
        refused(&card, 2);
    }
}

/// "25, a weight of 0 or of p and more, after 9 for its record." "A spare that
/// is not 0 gives 5, after 25."
#[test]
fn weights() {
    for p in [3, 31, 251] {
        for weight in [0, p, 255] {
            refused(&score_card(p, 50, &[(1, 1, weight)]), 25);
            refused(&score_card(p, 50, &[(1, 17, weight)]), 9);
            let mut card = score_card(p, 50, &[(1, 1, weight), (0, 0, 0)]);
            card[11] = 1;
            refused(&card, 25);
            card[10] = p - 1;
            refused(&card, 5);
            card[11] = 0;
            refused(&card, 8);
        }
        assert!(forecast(&score_card(p, 50, &[(1, 1, 1)])).is_ok());
        assert!(forecast(&score_card(p, 50, &[(1, 1, p - 1)])).is_ok());
    }
}

/// "26, total weight of p or more, after 10."
#[test]
fn total_weights() {
    assert!(forecast(&score_card(3, 50, &[(5, 1, 1); 2])).is_ok());
    refused(&score_card(3, 50, &[(5, 1, 1); 3]), 26);
    refused(&score_card(251, 50, &[(5, 1, 128); 2]), 26);
    refused(&score_card(251, 50, &[(5, 1, 250); 8]), 26);
    assert!(forecast(&score_card(13, 50, &[(1, 8, 6), (5, 8, 6)])).is_ok());
    refused(&score_card(13, 50, &[(1, 8, 6), (5, 8, 7)]), 26);
    refused(&score_card(13, 50, &[(1, 8, 6), (5, 9, 7)]), 10);
    refused(&score_card(13, 50, &[(1, 8, 6), (5, 9, 13)]), 25);
}

/// "A list of u16, one for each gate: the number of the last gate that reads
/// it, or its own number where none does." "Entries beyond the first G are kept;
/// success answers G."
#[test]
fn last_use_list() {
    let mut list = [9; 10];
    assert_eq!(last_uses(&built(&BENCH), &mut list[..7]), Ok(7));
    assert_eq!(list, [2, 2, 4, 5, 6, 6, 6, 9, 9, 9]);
    list = [9; 10];
    assert_eq!(last_uses(&built(&BENCH), &mut list), Ok(7));
    assert_eq!(list, [2, 2, 4, 5, 6, 6, 6, 9, 9, 9]);
    assert_eq!(last_uses(&built(&SCORE_BENCH), &mut list), Ok(8));
    assert_eq!(list, [2, 2, 4, 5, 6, 6, 7, 7, 9, 9]);
    // "The output counts as read by itself."
    for p in PRIMES {
        let table = built(&card(p, 50, &[(2, 2)]));
        let gates = table.len() / 8 - 1;
        let mut list = vec![0; gates];
        assert_eq!(last_uses(&table, &mut list), Ok(gates as u16));
        assert_eq!(usize::from(list[gates - 1]), gates - 1);
    }
}

/// Slots and constants are no gates, nor is an unused b; the gates that the
/// output does not need are readers all the same.
#[test]
fn what_reads_a_gate() {
    let table = [
        0x47, 0x48, 7, 50, 3, 0, 9, 0, //
        0x47, 0x54, 1, 0, 0, 0, 0, 0, // 0 LEFT 0
        0x47, 0x54, 2, 0, 0, 0, 0, 0, // 1 RIGHT 0
        0x47, 0x54, 4, 0, 1, 0, 0, 0, // 2 SUB 1 0
        0x47, 0x54, 5, 0, 2, 0, 1, 0, // 3 SCALE 2 1
        0x47, 0x54, 1, 0, 2, 0, 0, 0, // 4 LEFT 2
        0x47, 0x54, 2, 0, 1, 0, 0, 0, // 5 RIGHT 1
        0x47, 0x54, 7, 0, 4, 0, 4, 0, // 6 MUL 4 4
        0x47, 0x54, 6, 0, 3, 0, 0, 0, // 7 FLIP 3
        0x47, 0x54, 5, 0, 3, 0, 0xFD, 0xFF, // 8 SCALE 3 -3
    ];
    let mut list = [0; 9];
    assert_eq!(last_uses(&table, &mut list), Ok(9));
    assert_eq!(list, [2, 2, 3, 8, 6, 5, 6, 7, 8]);
}

/// "27, list shorter than G, after all of Check's." "A refusal answers its
/// number and nothing else; every lent byte is then unaltered."
#[test]
fn last_use_refusals() {
    let table = built(&BENCH);
    let mut damaged = vec![(table[..7].to_vec(), 12), (table[..63].to_vec(), 15)];
    for (place, byte, number) in [
        (1, 0x54, 2),
        (2, 9, 3),
        (3, 49, 4),
        (4, 17, 13),
        (5, 1, 5),
        (6, 0, 14),
        (7, 32, 14),
        (6, 8, 15),
        (57, 0x48, 2),
        (59, 1, 5),
        (58, 8, 16),
        (60, 6, 17),
        (62, 6, 17),
    ] {
        let mut bytes = table.clone();
        bytes[place] = byte;
        damaged.push((bytes, number));
    }
    for room in 0..=9 {
        let mut list = vec![9; room];
        for (bytes, number) in &damaged {
            assert_eq!(check(bytes), Err(*number));
            assert_eq!(last_uses(bytes, &mut list), Err(*number));
            assert_eq!(list, vec![9; room]);
        }
        if room < 7 {
            assert_eq!(last_uses(&table, &mut list), Err(27));
            assert_eq!(list, vec![9; room]);
        } else {
            assert_eq!(last_uses(&table, &mut list), Ok(7));
        }
    }
}

/// "Later bytes are not looked at", a gate that reads among them.
#[test]
fn last_uses_before_later_bytes() {
    let mut table = built(&BENCH);
    table.extend([0x47, 0x54, 3, 0, 0, 0, 1, 0]);
    let mut list = [9; 8];
    assert_eq!(last_uses(&table, &mut list), Ok(7));
    assert_eq!(list, [2, 2, 4, 5, 6, 6, 6, 9]);
    table[6] = 8;
    assert_eq!(last_uses(&table, &mut list), Ok(8));
    assert_eq!(list, [7, 7, 4, 5, 6, 6, 6, 7]);
}

/// The first bench card as a shared card.
#[test]
fn shared_listing() {
    let bench = shared_card(3, 75, &[(1, 1, 0)]);
    assert_eq!(listing(&bench), listing(&BENCH));
    let text = listing(&shared_card(3, 75, &[(5, 1, 3), (6, 1, 3)]));
    let slots = |name| text.lines().filter(move |line| line.contains(name));
    assert!(slots("LEFT").eq(["0 LEFT 3 0", "5 LEFT 3 0"]), "{text}");
    assert!(slots("RIGHT").eq(["1 RIGHT 0 0", "6 RIGHT 1 0"]), "{text}");
    assert_eq!(listing(&shared_card(3, 75, &[(1, 1, 16)])), "refused 28\n");
}

/// "Between 20 and 40 metres": three left slots and six right ones.
#[test]
fn between_20_and_40_metres() {
    let card = shared_card(31, 75, &[(4, 3, 0), (2, 3, 0)]);
    agree(&card, report(353, 91, 48, 12_700, 8));
    let table = built(&card);
    assert_eq!(table[..8], [0x47, 0x4A, 31, 75, 3, 6, 97, 1]);
    let mut digits = [0; 9];
    let [left, low, high] = digits.get_disjoint_mut([0..3, 3..6, 6..9]).unwrap();
    encode(31, 3, 20, low).unwrap();
    encode(31, 3, 40, high).unwrap();
    let right = [&low[..], high].concat();
    for (distance, holds) in [(19, 0), (20, 1), (34, 1), (40, 1), (41, 0)] {
        encode(31, 3, distance, left).unwrap();
        assert_eq!(run(&table, left, &right, &mut [0; 353]), Ok(holds));
    }
}

/// "28, first slot plus n above 16, after 9 of its record and before a spare's
/// 5."
#[test]
fn first_slots() {
    for (n, first) in [(1, 0), (1, 15), (16, 0), (8, 8)] {
        assert!(forecast(&shared_card(3, 50, &[(5, n, first)])).is_ok());
        refused(&shared_card(3, 50, &[(5, n, 17 - n)]), 28);
        refused(&shared_card(3, 50, &[(5, n, 255)]), 28);
    }
    for n in [0, 17, 255] {
        refused(&shared_card(3, 50, &[(5, n, 255)]), 9);
    }
    let mut card = shared_card(3, 50, &[(5, 16, 1), (0, 0, 255)]);
    card[11] = 1;
    refused(&card, 28);
    card[10] = 0;
    refused(&card, 5);
    card[11] = 0;
    refused(&card, 8);
}

/// "Refusal 10 counts right slots."
#[test]
fn right_slots() {
    assert!(forecast(&shared_card(3, 50, &[(5, 2, 0); 8])).is_ok());
    refused(&shared_card(3, 50, &[(5, 8, 0), (5, 9, 0)]), 10);
    refused(&shared_card(3, 50, &[(5, 16, 0), (5, 1, 0)]), 10);
    refused(&shared_card(3, 50, &[(5, 16, 0), (5, 1, 16)]), 28);
}

/// "7 reads 6+6c", and the marks are the form's own.
#[test]
fn shared_form() {
    let plain = card(7, 60, &[(1, 1), (5, 2), (6, 1)]);
    let score = score_card(7, 60, &[(1, 1, 2), (5, 2, 3)]);
    let shared = shared_card(7, 60, &[(1, 1, 2), (5, 2, 3)]);
    for other in [plain, score] {
        refused(&[&shared[..6], &other[6..]].concat(), 2);
        refused(&[&other[..6], &shared[6..]].concat(), 2);
    }
    refused(&shared[..14], 7);
    refused(&[&shared[..], &shared[6..12]].concat(), 7);
}

/// "Byte 4 the left slot count (highest used plus 1), byte 5 the right slot
/// count."
#[test]
fn slot_counts_of_heads() {
    for (conditions, counts) in [
        (&[(5, 1, 0)][..], [1, 1]),
        (&[(5, 1, 15)], [16, 1]),
        (&[(5, 2, 3), (1, 2, 0)], [5, 4]),
        (&[(5, 1, 7), (1, 3, 2), (6, 1, 0)], [8, 5]),
        (&[(5, 2, 0); 8], [2, 16]),
    ] {
        let table = built(&shared_card(5, 50, conditions));
        assert_eq!(table[..2], [0x47, 0x4A]);
        assert_eq!(table[4..6], counts, "{conditions:?}");
    }
}

/// "Both 1 to 16 under refusal 13", in 13's place; there is no spare.
#[test]
fn slot_counts() {
    let mut table = built(&shared_card(3, 50, &[(5, 1, 0)]));
    for left in 0..=255 {
        for right in 0..=255 {
            table[4..6].copy_from_slice(&[left, right]);
            let fits = (1..=16).contains(&left) && (1..=16).contains(&right);
            assert_eq!(check(&table).err(), (!fits).then_some(13));
            assert_eq!(trim(&table).is_empty(), !fits);
        }
    }
    table[6] = 0;
    assert_eq!(check(&table), Err(13));
    table[3] = 49;
    assert_eq!(check(&table), Err(4));
    table[3..6].copy_from_slice(&[50, 1, 16]);
    assert_eq!(check(&table), Err(14));
    table[1] = 0x48;
    assert_eq!(check(&table), Err(5));
    table[4] = 0;
    assert_eq!(check(&table), Err(13));
}

/// "17 and 18 read each side against its own count": a gate that reads a slot,
/// with each pair of counts.
#[test]
fn each_side_has_its_own_count() {
    for (kind, slot) in (1..=2).flat_map(|kind| (0..=16).map(move |slot| (kind, slot))) {
        for (left, right) in (1..=16).flat_map(|left| (1..=16).map(move |right| (left, right))) {
            let table = [
                0x47, 0x4A, 31, 50, left, right, 1, 0, //
                0x47, 0x54, kind, 0, slot, 0, 0, 0,
            ];
            let lists: [Vec<u8>; 2] = [left, right].map(|count| (0..count).collect());
            let outcome = run(&table, &lists[0], &lists[1], &mut [0]);
            let count = [left, right][usize::from(kind) - 1];
            let expected = if slot < count { Ok(slot) } else { Err(17) };
            assert_eq!(outcome, expected, "{table:?}");
            assert_eq!(check(&table).err(), expected.err());
            let exchanged = run(&table, &lists[1], &lists[0], &mut [0]);
            let same = left == right;
            let expected = if slot < count && !same {
                Err(18)
            } else {
                expected
            };
            assert_eq!(exchanged, expected, "{table:?}");
        }
    }
}

#[test]
fn the_primes_are_the_odd_primes_of_a_byte() {
    let primes: Vec<u8> = (3..=255u8)
        .filter(|&x| (2..x).all(|divisor| x % divisor != 0))
        .collect();
    assert_eq!(primes, PRIMES);
}
