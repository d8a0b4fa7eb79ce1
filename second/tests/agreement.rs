//! Parts of the package against each other.

use second::card::{
    card_bytes as card, score_card_bytes as score_card, shared_card_bytes as shared_card, Card,
    Form, Relation,
};
use second::field::{half_range, near_zero, order_constants, scale, PRIMES};
use second::table::{Gate, Head, Kind, Slots, Table};
use second::{build, check, decode, encode, expected_output, forecast, run, trim, Random};
use std::collections::BTreeSet;

const RELATIONS: [u8; 6] = [1, 2, 3, 4, 5, 6];

/// A card of any form.
fn random_card(random: &mut Random) -> Vec<u8> {
    match random.below(3) {
        0 => random_plain_card(random),
        1 => random_score_card(random),
        _ => random_shared_card(random),
    }
}

/// A card of one to eight conditions with at most sixteen digits.
fn random_plain_card(random: &mut Random) -> Vec<u8> {
    let p = random.pick(&PRIMES);
    let weight = 50 + random.byte_below(51);
    let mut room = 16;
    let mut conditions = Vec::new();
    for _ in 0..1 + random.byte_below(8) {
        if room == 0 {
            break;
        }
        let n = 1 + random.byte_below(room.min(6));
        room -= n;
        conditions.push((random.pick(&RELATIONS), n));
    }
    card(p, weight, &conditions)
}

/// The same with weights whose total is at most p-1.
fn random_score_card(random: &mut Random) -> Vec<u8> {
    let plain = Card::read(&random_plain_card(random)).unwrap();
    let mut room = plain.p - 1;
    let mut conditions = Vec::new();
    for condition in &plain.conditions {
        if room == 0 {
            break;
        }
        let weight = 1 + random.byte_below(room.div_ceil(2));
        room -= weight;
        conditions.push((random.pick(&RELATIONS), condition.digits as u8, weight));
    }
    // Now and then the last weight makes the total p-1.
    if random.below(4) == 0 {
        conditions.last_mut().unwrap().2 += room;
    }
    score_card(plain.p, plain.weight, &conditions)
}

/// The conditions of a plain card in other left slots: in few of them, so that
/// most are shared, or anywhere.
fn random_shared_card(random: &mut Random) -> Vec<u8> {
    let plain = Card::read(&random_plain_card(random)).unwrap();
    let few = random.below(2) == 0;
    let mut conditions = Vec::new();
    for condition in &plain.conditions {
        let n = condition.digits as u8;
        let room = if few { 2.min(16 - n) } else { 16 - n };
        let first = random.byte_below(room + 1);
        conditions.push((random.pick(&RELATIONS), n, first));
    }
    shared_card(plain.p, plain.weight, &conditions)
}

/// Two lists for a card: about `changed` of twelve right digits are drawn anew,
/// the others are those that they are compared with.
fn random_lists(random: &mut Random, card: &[u8], changed: u64) -> (Vec<u8>, Vec<u8>) {
    let card = Card::read(card).unwrap();
    let base = half_range(card.p);
    let left = random.bytes_below(base, card.left_slots());
    let mut right = Vec::new();
    for condition in &card.conditions {
        right.extend(&left[condition.left_slots()]);
    }
    for digit in &mut right {
        if random.below(12) < changed {
            *digit = random.byte_below(base);
        }
    }
    (left, right)
}

/// Builds the card and compares what Forecast, Build, Check and Trim say.
fn built(card: &[u8]) -> Vec<u8> {
    let report = forecast(card).unwrap();
    let bytes = 8 * (usize::from(report.gates) + 1);
    let mut table = vec![0xEE; bytes + 3];
    assert_eq!(build(card, &mut table[..bytes - 1]), Err(11));
    assert!(table.iter().all(|&byte| byte == 0xEE));
    assert_eq!(build(card, &mut table), Ok(report), "{card:?}");
    assert_eq!(table[bytes..], [0xEE; 3]);
    assert_eq!(check(&table), Ok(report), "{card:?}");
    assert_eq!(trim(&table), &table[..bytes]);
    table.truncate(bytes);
    table
}

/// Runs the table and compares the output with the numbers themselves.
fn compare(card: &[u8], table: &[u8], left: &[u8], right: &[u8]) {
    let gates = table.len() / 8 - 1;
    let mut work = vec![0xEE; gates + 2];
    let output = run(table, left, right, &mut work).unwrap();
    let expected = expected_output(card, left, right).unwrap();
    assert_eq!(u16::from(output), expected, "{card:?} {left:?} {right:?}");
    assert_eq!(work[gates - 1], output);
    assert_eq!(work[gates..], [0xEE; 2]);
}

#[test]
fn forecast_is_build_for_each_prime_relation_and_digit_count() {
    for p in PRIMES {
        for relation in RELATIONS {
            for n in 1..=16 {
                built(&card(p, 50 + n, &[(relation, n)]));
                built(&score_card(p, 50 + n, &[(relation, n, p - n.min(p - 1))]));
                built(&shared_card(p, 50 + n, &[(relation, n, 16 - n)]));
            }
        }
    }
}

#[test]
fn forecast_is_build_for_random_cards() {
    let mut random = Random::new(1);
    for _ in 0..3_000 {
        built(&random_card(&mut random));
    }
}

#[test]
fn one_digit_runs_are_right_for_each_prime() {
    for p in PRIMES {
        for relation in RELATIONS {
            let card = card(p, 100, &[(relation, 1)]);
            let table = built(&card);
            // The whole range for small primes, a wide grid for large ones.
            let step = usize::from(p / 40 + 1);
            for left in (0..half_range(p)).step_by(step) {
                for right in 0..half_range(p) {
                    compare(&card, &table, &[left], &[right]);
                }
            }
        }
    }
}

#[test]
fn random_runs_are_right() {
    let mut random = Random::new(2);
    for _ in 0..600 {
        let card = random_card(&mut random);
        let table = built(&card);
        // Near numbers: from no digit drawn anew to almost all.
        for changed in 0..12 {
            let (left, right) = random_lists(&mut random, &card, changed);
            compare(&card, &table, &left, &right);
            // Where each digit has its own slot, the other way too.
            if card[1] != 0x4A {
                compare(&card, &table, &right, &left);
            }
        }
    }
}

#[test]
fn expected_outputs_are_what_the_decoded_numbers_say() {
    let mut random = Random::new(3);
    for _ in 0..3_000 {
        let p = random.pick(&PRIMES);
        let n = 1 + random.byte_below(9);
        let left = random.bytes_below(half_range(p).min(3), usize::from(n));
        let right = random.bytes_below(half_range(p).min(3), usize::from(n));
        let x = decode(p, &left).unwrap();
        let y = decode(p, &right).unwrap();
        let truths = [x < y, x <= y, x > y, x >= y, x == y, x != y];
        for (relation, truth) in (1..).zip(truths) {
            let plain = card(p, 50, &[(relation, n)]);
            let bit = expected_output(&plain, &left, &right);
            assert_eq!(bit, Some(u16::from(truth)));
            let score = score_card(p, 50, &[(relation, n, p - 1)]);
            let weight = expected_output(&score, &left, &right);
            assert_eq!(weight, Some(if truth { u16::from(p) - 1 } else { 0 }));
        }
    }
}

#[test]
fn scores_are_the_weights_that_hold() {
    let card = score_card(251, 50, &[(1, 1, 1), (5, 2, 2), (6, 1, 47), (4, 1, 200)]);
    let score = |left: [u8; 5], right: [u8; 5]| expected_output(&card, &left, &right);
    assert_eq!(score([1, 0, 9, 4, 0], [1, 0, 8, 4, 1]), Some(0));
    assert_eq!(score([0, 0, 9, 4, 0], [1, 0, 8, 4, 1]), Some(1));
    assert_eq!(score([1, 0, 9, 4, 0], [1, 0, 9, 4, 1]), Some(2));
    assert_eq!(score([1, 0, 9, 4, 0], [1, 0, 8, 5, 1]), Some(47));
    assert_eq!(score([1, 0, 9, 4, 1], [1, 0, 8, 4, 1]), Some(200));
    assert_eq!(score([0, 8, 9, 4, 2], [1, 8, 9, 3, 1]), Some(250));
}

#[test]
fn expected_outputs_are_of_what_is_accepted() {
    for card in [
        card(5, 50, &[(1, 2)]),
        score_card(5, 50, &[(1, 1, 3), (3, 1, 0)]),
        score_card(5, 50, &[(1, 1, 3), (3, 1, 1)]),
    ] {
        let accepted = forecast(&card).is_ok();
        let output = expected_output(&card, &[2, 0], &[0, 0]);
        assert_eq!(output, accepted.then_some(0));
        assert_eq!(expected_output(&card, &[3, 2], &[0, 0]), None);
        assert_eq!(expected_output(&card, &[2, 2], &[0, 3]), None);
        assert_eq!(expected_output(&card, &[2], &[0, 0]), None);
        assert_eq!(expected_output(&card, &[2, 2], &[0, 0, 0]), None);
        assert_eq!(expected_output(&card[..9], &[2, 2], &[0, 0]), None);
    }
}

/// Lists of each side's own length are asked for.
#[test]
fn expected_outputs_of_shared_cards() {
    let card = shared_card(5, 50, &[(1, 2, 1), (4, 1, 1), (6, 2, 0)]);
    let output = |left: &[u8], right: &[u8]| expected_output(&card, left, right);
    // 3 is below 4, 0 is at least 0, and 2 is not 1.
    assert_eq!(output(&[2, 0, 1], &[1, 1, 0, 1, 0]), Some(1));
    assert_eq!(output(&[2, 0, 1], &[0, 1, 0, 1, 0]), Some(0));
    assert_eq!(output(&[2, 0, 1], &[1, 1, 1, 1, 0]), Some(0));
    assert_eq!(output(&[2, 0, 1], &[1, 1, 0, 2, 0]), Some(0));
    assert_eq!(output(&[3, 0, 1], &[1, 1, 0, 1, 0]), None);
    assert_eq!(output(&[2, 0, 1], &[1, 1, 0, 1, 3]), None);
    assert_eq!(output(&[2, 0, 1, 0, 0], &[1, 1, 0, 1, 0]), None);
    assert_eq!(output(&[2, 0, 1], &[1, 1, 0]), None);
    // A slot that no condition uses is a digit all the same.
    let card = shared_card(5, 50, &[(5, 1, 2)]);
    assert_eq!(expected_output(&card, &[2, 2, 1], &[1]), Some(1));
    assert_eq!(expected_output(&card, &[3, 2, 1], &[1]), None);
    assert_eq!(expected_output(&card, &[1], &[1]), None);
}

/// Two conditions over one number: all numbers of two digits at p=3 and of one
/// at p=5, each relation beside each.
#[test]
fn small_ranges_are_right() {
    for (p, n) in [(3, 2), (5, 1)] {
        let base = u64::from(half_range(p));
        let count = base.pow(u32::from(n));
        for (first, second) in RELATIONS
            .into_iter()
            .flat_map(|r| RELATIONS.map(|s| (r, s)))
        {
            let card = shared_card(p, 100, &[(first, n, 0), (second, n, 0)]);
            let table = built(&card);
            for numbers in 0..count.pow(3) {
                let mut digits = vec![0; 3 * usize::from(n)];
                for (place, digit) in (0..).zip(&mut digits) {
                    *digit = (numbers / base.pow(place) % base) as u8;
                }
                let (left, right) = digits.split_at(usize::from(n));
                compare(&card, &table, left, right);
            }
        }
    }
}

/// A shared card with the slots of a plain card has its gates, and one with
/// other left slots has them but for the slots of its LEFTs. Its head says the
/// counts of both sides.
#[test]
fn shared_cards_have_the_gates_of_plain_cards() {
    let mut random = Random::new(9);
    for _ in 0..500 {
        let shared = random_shared_card(&mut random);
        let records = shared[6..].chunks(6);
        let (mut plain, mut own_slots) = (Vec::new(), Vec::new());
        let (mut next, mut highest) = (0, 0);
        for record in records {
            plain.push((record[2], record[3]));
            own_slots.push((record[2], record[3], next));
            next += record[3];
            highest = highest.max(record[4] + record[3]);
        }
        let plain = built(&card(shared[2], shared[3], &plain));
        let own_slots = built(&shared_card(shared[2], shared[3], &own_slots));
        let shared = built(&shared);
        assert_eq!(own_slots[..2], [0x47, 0x4A]);
        assert_eq!(own_slots[4..6], [plain[4], plain[4]]);
        assert_eq!(own_slots[6..], plain[6..]);
        assert_eq!(shared[..2], [0x47, 0x4A]);
        assert_eq!(shared[2..4], plain[2..4]);
        assert_eq!(shared[4..6], [highest, plain[4]]);
        for (gate, other) in shared[8..].chunks(8).zip(plain[8..].chunks(8)) {
            let is_left = gate[2] == 1;
            assert_eq!(gate[..4], other[..4]);
            assert!(is_left || gate == other);
        }
        assert_eq!(shared.len(), plain.len());
    }
}

/// One or two bytes of a card are others: Forecast and Build say the same, and a
/// card that is still accepted is built and run as any.
#[test]
fn damaged_shared_cards() {
    let mut random = Random::new(10);
    let mut numbers = BTreeSet::new();
    for _ in 0..20_000 {
        let mut card = random_shared_card(&mut random);
        for _ in 0..1 + random.below(2) {
            let place = random.below(card.len() as u64) as usize;
            card[place] = random.pick(&[0, 1, 2, 15, 16, 17, 255, card[place] ^ 1]);
        }
        match forecast(&card) {
            Err(number) => {
                let mut table = [7; 40];
                assert_eq!(build(&card, &mut table), Err(number));
                assert_eq!(table, [7; 40]);
                assert_eq!(expected_output(&card, &[0], &[0]), None);
                numbers.insert(number);
            }
            Ok(_) => {
                let table = built(&card);
                let (left, right) = random_lists(&mut random, &card, 1);
                compare(&card, &table, &left, &right);
            }
        }
    }
    let numbers: Vec<u8> = numbers.into_iter().collect();
    assert_eq!(numbers, [2, 3, 4, 5, 6, 7, 8, 9, 10, 28]);
}

/// All digits of two conditions, each relation beside each, with the smallest
/// weights and with those that fill p-1.
#[test]
fn small_scores_are_right() {
    for p in [3, 5, 7] {
        let base = half_range(p);
        for (first, second) in RELATIONS
            .into_iter()
            .flat_map(|r| RELATIONS.map(|s| (r, s)))
        {
            for weights in [(1, 1), (1, p - 2), (p - 2, 1)] {
                let conditions = [(first, 1, weights.0), (second, 1, weights.1)];
                let card = score_card(p, 100, &conditions);
                let table = built(&card);
                for digits in 0..u32::from(base).pow(4) {
                    let digit = |place| (digits / u32::from(base).pow(place)) as u8 % base;
                    let (left, right) = ([digit(0), digit(1)], [digit(2), digit(3)]);
                    compare(&card, &table, &left, &right);
                }
            }
        }
    }
}

/// "With all digits below B, a change in one condition's left digits moves the
/// score by at most that weight."
#[test]
fn a_condition_moves_the_score_by_its_weight_at_most() {
    let mut random = Random::new(5);
    for _ in 0..300 {
        let bytes = random_score_card(&mut random);
        let table = built(&bytes);
        let card = Card::read(&bytes).unwrap();
        let base = half_range(card.p);
        let mut work = vec![0; table.len() / 8 - 1];
        let mut left = random.bytes_below(base, card.digits());
        let right = random.bytes_below(base, card.digits());
        let mut score = run(&table, &left, &right, &mut work).unwrap();
        let mut slot = 0;
        for condition in &card.conditions {
            left[slot..slot + condition.digits].fill_with(|| random.byte_below(base));
            slot += condition.digits;
            let moved = run(&table, &left, &right, &mut work).unwrap();
            assert!(moved.abs_diff(score) <= condition.weight, "{bytes:?}");
            score = moved;
        }
    }
}

/// The conditions' own gates, products and squares and 2c-1 gates more, and the
/// depth of the deepest condition.
#[test]
fn score_reports_are_those_of_their_conditions() {
    let mut random = Random::new(6);
    for _ in 0..2_000 {
        let bytes = random_score_card(&mut random);
        let report = forecast(&bytes).unwrap();
        let (mut gates, mut products, mut squares, mut depth) = (0, 0, 0, 0);
        for record in bytes[6..].chunks(6) {
            let own = forecast(&card(bytes[2], bytes[3], &[(record[2], record[3])])).unwrap();
            gates += own.gates + 2;
            products += own.products;
            squares += own.squares;
            depth = depth.max(own.depth.0);
        }
        assert_eq!(report.gates, gates - 1);
        assert_eq!((report.products, report.squares), (products, squares));
        assert_eq!(report.depth.0, depth);
        let cost = 100 * u32::from(products) + u32::from(bytes[3]) * u32::from(squares);
        assert_eq!(report.cost.0, cost);
    }
}

/// "After all conditions' gates, each condition's output is scaled by its
/// weight, in card order, and every term after the first is followed by
/// ADD(sum, it)": SCALE, SCALE, ADD, SCALE, ADD and so on.
#[test]
fn scores_end_with_scales_and_adds() {
    let mut random = Random::new(7);
    for _ in 0..500 {
        let bytes = random_score_card(&mut random);
        let mut expected = Vec::new();
        let mut outputs = Vec::new();
        let mut number = 0;
        for record in bytes[6..].chunks(6) {
            number += forecast(&card(bytes[2], 50, &[(record[2], record[3])]))
                .unwrap()
                .gates;
            let constant = near_zero(bytes[2], record[4]);
            outputs.push((number - 1, constant.cast_unsigned()));
        }
        for (place, (a, b)) in outputs.into_iter().enumerate() {
            let kind = Kind::Scale;
            expected.push(Gate { kind, a, b });
            number += 1;
            if place > 0 {
                // The sum is the gate before the SCALE.
                let (kind, a, b) = (Kind::Add, number - 2, number - 1);
                expected.push(Gate { kind, a, b });
                number += 1;
            }
        }
        let table = built(&bytes);
        let gates: Vec<Gate> = Table::read(&table).unwrap().gates().collect();
        assert_eq!(gates.len(), usize::from(number));
        assert_eq!(gates[gates.len() - expected.len()..], expected, "{bytes:?}");
    }
}

/// A score card's conditions are written as a plain card's.
#[test]
fn the_conditions_of_both_forms_have_the_same_gates() {
    let plain = built(&card(13, 77, &[(3, 4), (6, 2), (2, 1)]));
    let score = built(&score_card(13, 77, &[(3, 4, 1), (6, 2, 10), (2, 1, 1)]));
    // Two MULs there, three SCALEs and two ADDs here.
    let shared = plain.len() - 2 * 8;
    assert_eq!(score.len(), shared + 5 * 8);
    assert_eq!(plain[..6], score[..6]);
    assert_eq!(plain[8..shared], score[8..shared]);
}

/// Each number below p has one constant near zero, which scales as it does.
#[test]
fn constants_near_zero_are_the_old_ones_modulo_p() {
    for p in PRIMES {
        let most = i16::from(p / 2);
        let mut constants: Vec<i16> = (0..p).map(|constant| near_zero(p, constant)).collect();
        for (constant, &near) in (0..p).zip(&constants) {
            for a in 0..p {
                let product = u16::from(a) * u16::from(constant);
                assert_eq!(u16::from(scale(p, a, near)), product % u16::from(p));
            }
        }
        constants.sort();
        assert!(constants.into_iter().eq(-most..=most), "{p}");
    }
}

/// Every order digit has the constants of its prime, near zero.
#[test]
fn order_digits_have_their_constants() {
    for p in PRIMES {
        let bytes = built(&card(p, 50, &[(3, 2)]));
        let gates = Table::read(&bytes).unwrap().gates();
        let scales: Vec<Gate> = gates.filter(|gate| gate.kind == Kind::Scale).collect();
        let numbers = order_constants(p);
        assert_eq!(scales.len(), 2 * numbers.len());
        for (gate, &x) in scales.iter().zip(numbers.iter().cycle()) {
            let constant = gate.constant();
            assert!(constant.abs() <= i16::from(p / 2));
            assert_eq!((constant - i16::from(x)) % i16::from(p), 0);
        }
    }
}

/// A table of gates of all kinds, with constants of both signs and either head.
fn random_table(random: &mut Random) -> Vec<u8> {
    let p = random.pick(&PRIMES);
    let [left, right] = [(); 2].map(|()| 1 + random.byte_below(16));
    let slots = match random.below(2) {
        0 => Slots::Both(left),
        _ => Slots::Each { left, right },
    };
    let gates = 2 + random.below(60) as u16;
    let weight = 50 + random.byte_below(51);
    let head = Head {
        p,
        weight,
        slots,
        gates,
    };
    let mut bytes = head.record().to_vec();
    for number in 0..gates {
        let left = u16::from(random.byte_below(slots.left()));
        let right = u16::from(random.byte_below(slots.right()));
        let constant = i16::from(random.byte_below(p)) - i16::from(p / 2);
        let mut lower = || random.below(u64::from(number.max(1))) as u16;
        let (a, b) = (lower(), lower());
        let kinds = if number == 0 { 2 } else { 9 };
        let (kind, a, b) = match random.below(kinds) {
            0 => (Kind::Left, left, 0),
            1 => (Kind::Right, right, 0),
            2 => (Kind::Add, a, b),
            3 => (Kind::Sub, a, b),
            4 => (Kind::Flip, a, 0),
            5 => (Kind::Mul, a, a),
            6 => (Kind::Mul, a, b),
            _ => (Kind::Scale, a, constant.cast_unsigned()),
        };
        bytes.extend(Gate { kind, a, b }.record());
    }
    bytes
}

/// The gates of a table, each SCALE with its old constant: the number below p
/// that is equal to the new one modulo p.
fn old_gates(table: &Table) -> Vec<Gate> {
    let p = i16::from(table.head.p);
    let old = |mut gate: Gate| {
        if gate.kind == Kind::Scale {
            let constant = gate.constant();
            let x = (0..p).find(|x| (x - constant) % p == 0).unwrap();
            gate.b = x as u16;
        }
        gate
    };
    table.gates().map(old).collect()
}

/// The kinds of the document, "SCALE gate a times constant b<p" among them.
fn old_values(p: u8, gates: &[Gate], left: &[u8], right: &[u8]) -> Vec<u8> {
    let mut values: Vec<u8> = Vec::new();
    for gate in gates {
        let value = |operand: u16| u32::from(values[usize::from(operand)]);
        let p = u32::from(p);
        let sum = match gate.kind {
            Kind::Left => u32::from(left[usize::from(gate.a)]),
            Kind::Right => u32::from(right[usize::from(gate.a)]),
            Kind::Add => value(gate.a) + value(gate.b),
            Kind::Sub => value(gate.a) + p - value(gate.b),
            Kind::Scale => value(gate.a) * u32::from(gate.b),
            Kind::Flip => 1 + p - value(gate.a),
            Kind::Mul => value(gate.a) * value(gate.b),
        };
        values.push((sum % p) as u8);
    }
    values
}

/// Products, squares, cost and depth by the document, in which a SCALE's
/// constant has no part; but only the MULs that the output needs count, and one
/// pair of gates once.
fn old_report(weight: u8, gates: &[Gate]) -> (u16, u16, u32, u16) {
    let mut depths: Vec<u16> = Vec::new();
    for gate in gates {
        let depth = |operand: u16| depths[usize::from(operand)];
        depths.push(match gate.kind {
            Kind::Left | Kind::Right => 0,
            Kind::Scale | Kind::Flip => depth(gate.a),
            Kind::Add | Kind::Sub => depth(gate.a).max(depth(gate.b)),
            Kind::Mul => 1 + depth(gate.a).max(depth(gate.b)),
        });
    }
    let pairs = needed_pairs(gates);
    let squares = pairs.iter().filter(|(lower, higher)| lower == higher);
    let squares = squares.count() as u16;
    let products = pairs.len() as u16 - squares;
    let cost = 100 * u32::from(products) + u32::from(weight) * u32::from(squares);
    (products, squares, cost, depths[depths.len() - 1])
}

/// The pairs of the MULs that are met on any way down from the output.
fn needed_pairs(gates: &[Gate]) -> BTreeSet<(u16, u16)> {
    let mut met = BTreeSet::new();
    let mut pairs = BTreeSet::new();
    let mut waiting = vec![gates.len() as u16 - 1];
    while let Some(number) = waiting.pop() {
        if met.insert(number) {
            let Gate { kind, a, b } = gates[usize::from(number)];
            match kind {
                Kind::Left | Kind::Right => {}
                Kind::Scale | Kind::Flip => waiting.push(a),
                Kind::Add | Kind::Sub => waiting.extend([a, b]),
                Kind::Mul => {
                    waiting.extend([a, b]);
                    pairs.insert((a.min(b), a.max(b)));
                }
            }
        }
    }
    pairs
}

/// "Gate values, depth and cost are the same as under the old constants."
#[test]
fn old_constants_gave_the_same() {
    let mut random = Random::new(8);
    let mut changed = 0;
    for round in 0..1_000 {
        let bytes = match round % 4 {
            0 => built(&random_card(&mut random)),
            _ => random_table(&mut random),
        };
        let table = Table::read(&bytes).unwrap();
        let head = table.head;
        let old = old_gates(&table);
        changed += usize::from(!table.gates().eq(old.iter().copied()));
        let left = random.bytes_below(head.p, usize::from(head.slots.left()));
        let right = random.bytes_below(head.p, usize::from(head.slots.right()));
        let mut work = vec![0; old.len()];
        run(&bytes, &left, &right, &mut work).unwrap();
        let values = old_values(head.p, &old, &left, &right);
        assert_eq!(work, values, "{bytes:?}");
        let report = check(&bytes).unwrap();
        let now = (
            report.products,
            report.squares,
            report.cost.0,
            report.depth.0,
        );
        assert_eq!(now, old_report(head.weight, &old), "{bytes:?}");
    }
    // Most tables have a constant below zero.
    assert!(changed > 800, "{changed}");
}

#[test]
fn numbers_read_back() {
    let mut random = Random::new(4);
    for p in PRIMES {
        for n in 1..=16usize {
            let digits = random.bytes_below(half_range(p), n);
            let mut out = vec![0xEE; n + 2];
            match decode(p, &digits) {
                Ok(number) => {
                    assert_eq!(encode(p, n, number, &mut out), Ok(()));
                    assert_eq!(out[..n], digits);
                    assert_eq!(out[n..], [0xEE; 2]);
                }
                Err(number) => assert_eq!(number, 24),
            }
        }
    }
}

#[test]
fn the_largest_number_of_n_digits() {
    for p in PRIMES {
        let base = u128::from(half_range(p));
        for n in 1..=16u32 {
            let bound = base.pow(n);
            let mut out = [0xEE; 16];
            if let Ok(bound) = u64::try_from(bound) {
                assert_eq!(encode(p, n as usize, bound, &mut out), Err(22));
                assert_eq!(out, [0xEE; 16]);
                assert_eq!(encode(p, n as usize, bound - 1, &mut out), Ok(()));
                assert_eq!(decode(p, &out[..n as usize]), Ok(bound - 1));
            } else {
                assert_eq!(encode(p, n as usize, u64::MAX, &mut out), Ok(()));
                assert_eq!(decode(p, &out[..n as usize]), Ok(u64::MAX));
            }
        }
    }
}

#[test]
fn cards_read_back() {
    let card = Card::read(&card(31, 77, &[(3, 4), (6, 12)])).unwrap();
    assert_eq!((card.p, card.weight, card.digits()), (31, 77, 16));
    assert_eq!(card.conditions[0].relation, Relation::Greater);
    assert_eq!(card.conditions[1].relation, Relation::Unequal);
    assert_eq!(card.conditions[0].digits, 4);
    assert_eq!((card.form, card.total_weight()), (Form::Plain, 0));
    let card = Card::read(&score_card(31, 77, &[(3, 4, 9), (6, 12, 21)])).unwrap();
    assert_eq!((card.p, card.weight, card.digits()), (31, 77, 16));
    assert_eq!((card.form, card.total_weight()), (Form::Score, 30));
    assert_eq!(card.conditions[1].relation, Relation::Unequal);
    assert_eq!(card.conditions[1].digits, 12);
    assert_eq!(card.conditions[1].weight, 21);
    assert_eq!((card.left_slots(), card.conditions[1].first_left), (16, 4));
    let card = Card::read(&shared_card(31, 77, &[(3, 4, 9), (6, 3, 11), (1, 5, 0)])).unwrap();
    assert_eq!((card.p, card.weight, card.digits()), (31, 77, 12));
    assert_eq!((card.form, card.total_weight()), (Form::Shared, 0));
    assert_eq!(card.conditions[1].relation, Relation::Unequal);
    assert_eq!(card.conditions[1].left_slots(), 11..14);
    assert_eq!((card.left_slots(), card.conditions[2].first_left), (14, 0));
}

#[test]
fn tables_read_back() {
    let bytes = built(&card(13, 77, &[(3, 4), (6, 2)]));
    let table = Table::read(&bytes).unwrap();
    assert_eq!(table.head.record(), bytes[..8]);
    for (gate, record) in table.gates().zip(bytes[8..].chunks(8)) {
        assert_eq!(gate.record(), record);
    }
    let lefts = table.gates().filter(|gate| gate.kind == Kind::Left);
    assert_eq!(
        lefts.map(|gate| gate.a).collect::<Vec<_>>(),
        [0, 1, 2, 3, 4, 5]
    );
    let bytes = built(&shared_card(13, 77, &[(3, 4, 5), (6, 2, 4), (1, 2, 6)]));
    let table = Table::read(&bytes).unwrap();
    assert_eq!(table.head.record(), bytes[..8]);
    assert_eq!(table.head.slots, Slots::Each { left: 9, right: 8 });
    let slots = |kind| table.gates().filter(move |gate| gate.kind == kind);
    let lefts: Vec<u16> = slots(Kind::Left).map(|gate| gate.a).collect();
    assert_eq!(lefts, [5, 6, 7, 8, 4, 5, 6, 7]);
    assert!(slots(Kind::Right).map(|gate| gate.a).eq(0..8));
}

#[test]
fn the_longest_tables_of_cards() {
    assert_eq!(built(&card(251, 50, &[(2, 16)])).len(), 8 * 7_114);
    assert_eq!(built(&score_card(251, 50, &[(2, 16, 1)])).len(), 8 * 7_115);
    let two = score_card(251, 50, &[(2, 15, 1), (4, 1, 1)]);
    assert_eq!(built(&two).len(), 8 * 7_115);
    assert_eq!(built(&shared_card(251, 50, &[(2, 16, 0)])).len(), 8 * 7_114);
    let two = shared_card(251, 50, &[(2, 8, 0), (4, 8, 0)]);
    assert_eq!(built(&two).len(), 8 * 7_110);
}

#[test]
fn the_longest_table() {
    // 8191 gates: LEFT, then squares and products in turn.
    let mut bytes = vec![0x47, 0x48, 3, 50, 1, 0, 0xFF, 0x1F];
    bytes.extend([0x47, 0x54, 1, 0, 0, 0, 0, 0]);
    for number in 1..8191u16 {
        let [a0, a1] = (number - 1).to_le_bytes();
        let [b0, b1] = if number % 2 == 1 { [a0, a1] } else { [0, 0] };
        bytes.extend([0x47, 0x54, 7, 0, a0, a1, b0, b1]);
    }
    assert_eq!(bytes.len(), 65_536);
    let report = check(&bytes).unwrap();
    assert_eq!((report.gates, report.depth.0), (8191, 8190));
    assert_eq!((report.products, report.squares), (4095, 4095));
    assert_eq!(report.cost.0, 150 * 4095);
    assert_eq!(run(&bytes, &[2], &[0], &mut [0; 8190]), Err(20));
    assert_eq!(run(&bytes, &[2], &[0], &mut [0; 8191]), Ok(2));
    assert_eq!(check(&bytes[..65_535]), Err(15));
    bytes[6..8].copy_from_slice(&[0, 0x20]);
    bytes.extend([0; 8]);
    assert_eq!(check(&bytes), Err(14));
}
