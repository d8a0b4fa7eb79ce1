//! Fewer products by a step size: against the request's sentences, read word by
//! word, at each prime and step size, and against the choice by brute force.

use second::card::{
    card_bytes as card, score_card_bytes as score_card, shared_card_bytes as shared_card,
};
use second::field::{half_range, order_constants, PRIMES};
use second::{
    answers, best_step, build, build_step, build_within, cases, check, expected_output, forecast,
    run, step_tables, trim, Depth, Offer, Random, Refusal, Report,
};
use std::collections::{BTreeMap, BTreeSet};

mod record;
use record::{operands, reads};

/// The bytes of the longest table.
const LONGEST: usize = 65_536;

/// (p-1)/2.
fn last_step(p: u8) -> u8 {
    (p - 1) / 2
}

fn base_table(card: &[u8]) -> Vec<u8> {
    let mut table = vec![0; LONGEST];
    build(card, &mut table).unwrap();
    trim(&table).to_vec()
}

fn step_table(card: &[u8], step: u8) -> Vec<u8> {
    let digits: u8 = card[6..].chunks(4).map(|record| record[3]).sum();
    // No digit takes more than 400 gates.
    let mut table = vec![0; 8 * 400 * usize::from(digits)];
    build_step(card, step, &mut table).unwrap();
    trim(&table).to_vec()
}

/// Kind, a and b of a gate.
type Gate = (u8, usize, i32);

fn gates_of(table: &[u8]) -> Vec<Gate> {
    let records = table[8..].chunks(8);
    records
        .map(|record| {
            let [a, b] = operands(record);
            let b = if record[2] == 5 {
                i32::from(b as u16 as i16)
            } else {
                b as i32
            };
            (record[2], a, b)
        })
        .collect()
}

/// Gates as the request's words put them one after the other.
struct Words {
    p: u8,
    step: usize,
    gates: Vec<Gate>,
    /// The gate of z^i, where there is one.
    powers: BTreeMap<usize, usize>,
}

/// The nonzero terms of a piece: degree and constant.
type Piece = BTreeMap<usize, i32>;

impl Words {
    fn gate(&mut self, kind: u8, a: usize, b: usize) -> usize {
        self.gates.push((kind, a, b as i32));
        self.gates.len() - 1
    }

    /// "The order digit of a plain card writes z^2 to z^k ascending (even by square,
    /// odd as in document 01), then squares to z^(2k), z^(4k), up to the highest
    /// split below."
    fn write_powers(&mut self, z: usize, whole: &Piece) {
        self.powers = BTreeMap::from([(1, z)]);
        for i in 2..=self.step {
            let low = if i % 2 == 0 { i / 2 } else { (i - 1) / 2 };
            let power = self.gate(7, self.powers[&low], self.powers[&(i - low)]);
            self.powers.insert(i, power);
        }
        let mut splits = BTreeSet::new();
        self.splits(whole, &mut splits);
        let highest = splits.last().copied().unwrap();
        let mut i = 2 * self.step;
        while i <= highest {
            let half = self.powers[&(i / 2)];
            let power = self.gate(7, half, half);
            self.powers.insert(i, power);
            i *= 2;
        }
    }

    /// All places at which a piece and the pieces of it split.
    fn splits(&self, piece: &Piece, splits: &mut BTreeSet<usize>) {
        if let Some((place, lower, upper)) = self.split(piece) {
            splits.insert(place);
            self.splits(&lower, splits);
            self.splits(&upper, splits);
        }
    }

    /// "A larger piece splits at m = k times 2^(j-1), j least such that k times 2^j
    /// reaches its degree. Terms up to z^m are the lower piece ..; the others,
    /// divided by z^m, are the upper." `None` for a piece of degree at most k.
    fn split(&self, piece: &Piece) -> Option<(usize, Piece, Piece)> {
        let degree = piece.keys().last().copied().unwrap_or(0);
        if degree <= self.step {
            return None;
        }
        let j = (0..).find(|j| self.step << j >= degree).unwrap();
        let place = self.step << (j - 1);
        let terms = |is_lower: bool| {
            let terms = piece
                .iter()
                .filter(move |&(&i, _)| (i <= place) == is_lower);
            terms.map(move |(&i, &c)| (if is_lower { i } else { i - place }, c))
        };
        Some((place, terms(true).collect(), terms(false).collect()))
    }

    /// "A piece of degree at most k is its nonzero terms, ascending, as SCALEs and
    /// ADDs." A larger one: lower, upper, "then come MUL(z^m, upper) and, if the
    /// lower is not zero, ADD(lower, it)".
    fn write_piece(&mut self, piece: &Piece) -> usize {
        if let Some((place, lower, upper)) = self.split(piece) {
            let lower = (!lower.is_empty()).then(|| self.write_piece(&lower));
            let upper = self.write_piece(&upper);
            let product = self.gate(7, self.powers[&place], upper);
            return lower.map_or(product, |lower| self.gate(3, lower, product));
        }
        let mut sum = None;
        for (i, &constant) in piece {
            self.gates.push((5, self.powers[i], constant));
            let term = self.gates.len() - 1;
            sum = Some(match sum {
                None => term,
                Some(sum) => self.gate(3, sum, term),
            });
        }
        sum.unwrap()
    }

    /// "t=p-1, bit 0 upward ..", with the FLIP.
    fn write_chain(&mut self, z: usize) -> usize {
        let t = usize::from(self.p) - 1;
        let mut running = z;
        let mut collected = None;
        for bit in 0..=t.ilog2() {
            if bit > 0 {
                running = self.gate(7, running, running);
            }
            if t >> bit & 1 == 1 {
                collected = Some(match collected {
                    None => running,
                    Some(power) => self.gate(7, power, running),
                });
            }
        }
        self.gate(6, collected.unwrap(), 0)
    }

    /// LEFT, RIGHT, left minus right, then L, and E of a digit that is not the
    /// lowest one.
    fn write_digit(&mut self, slot: usize, whole: &Piece) -> (usize, Option<usize>) {
        let left = self.gate(1, slot, 0);
        let right = self.gate(2, slot, 0);
        let z = self.gate(4, left, right);
        self.write_powers(z, whole);
        let less = self.write_piece(whole);
        (less, (slot > 0).then(|| self.write_chain(z)))
    }
}

/// The gates of a "<" condition of one or two digits by the request's words.
fn said_gates(p: u8, step: u8, n: usize) -> Vec<Gate> {
    let last = usize::from(p) - 1;
    let constants = (1..last).step_by(2).chain([last]).zip(order_constants(p));
    let near = |c: u8| i32::from(c) - if c > p / 2 { i32::from(p) } else { 0 };
    let whole: Piece = constants
        .filter(|&(_, c)| c != 0)
        .map(|(i, c)| (i, near(c)))
        .collect();
    let mut words = Words {
        p,
        step: usize::from(step),
        gates: Vec::new(),
        powers: BTreeMap::new(),
    };
    let (low, _) = words.write_digit(0, &whole);
    if n == 2 {
        let (high, equal) = words.write_digit(1, &whole);
        let decided = words.gate(7, equal.unwrap(), low);
        words.gate(3, high, decided);
    }
    words.gates
}

/// Each step size at each prime has the gates that the words say. Two digits have
/// those of one, and one alone is tried at small primes.
#[test]
fn gates_of_each_step_size() {
    for p in PRIMES {
        for step in 1..=last_step(p) {
            for n in if p < 50 { 1..=2 } else { 2..=2 } {
                let table = step_table(&card(p, 75, &[(1, n)]), step);
                let gates = said_gates(p, step, usize::from(n));
                assert_eq!(gates_of(&table), gates, "{p} {step} {n}");
                assert_eq!(table[..6], [0x47, 0x48, p, 75, n, 0]);
            }
        }
    }
}

/// p=5, k=2, "<" of two digits, written out by hand: the constants are -1, -2 and
/// -2, and the highest split is at 2.
#[test]
fn gates_of_a_small_card() {
    let digit = |slot: usize, first: usize| {
        let [left, right, z, square] = [0, 1, 2, 3].map(|i| first + i);
        vec![
            (1, slot, 0),
            (2, slot, 0),
            (4, left, right as i32),
            (7, z, z as i32),
            (5, z, -1),
            (5, z, -2),
            (5, square, -2),
            (3, first + 5, first as i32 + 6),
            (7, square, first as i32 + 7),
            (3, first + 4, first as i32 + 8),
        ]
    };
    let mut gates = [digit(0, 0), digit(1, 10)].concat();
    // z^4 by the chain, E, and the join.
    gates.extend([(7, 12, 12), (7, 20, 20), (6, 21, 0)]);
    gates.extend([(7, 22, 9), (3, 19, 23)]);
    let table = step_table(&card(5, 100, &[(1, 2)]), 2);
    assert_eq!(gates_of(&table), gates);
    // The square of gate 12 is written twice and counted once.
    let report = check(&table).unwrap();
    assert_eq!((report.products, report.squares), (3, 3));
    assert_eq!((report.cost.0, report.depth.0), (600, 3));
}

/// Zero constants are left out: p=17 has one, of z^9.
#[test]
fn zero_constants_are_left_out() {
    let mut zeros = 0;
    for p in PRIMES {
        let constants = order_constants(p);
        let nonzero = constants.iter().filter(|&&c| c != 0).count();
        zeros += constants.len() - nonzero;
        for step in 1..=last_step(p) {
            let gates = gates_of(&step_table(&card(p, 75, &[(1, 1)]), step));
            let scales: Vec<Gate> = gates.into_iter().filter(|gate| gate.0 == 5).collect();
            assert_eq!(scales.len(), nonzero, "{p} {step}");
            assert!(scales.iter().all(|scale| scale.2 != 0));
        }
    }
    assert_eq!(order_constants(17)[4], 0);
    assert!(zeros > 20);
}

/// "Only the MUL gates among the output itself and the gates it depends on, ..
/// and two MULs over the same pair of gates, in either order, once": products and
/// squares.
fn said_counts(table: &[u8]) -> (usize, usize) {
    let records: Vec<&[u8]> = table[8..].chunks(8).collect();
    let mut needed = vec![false; records.len()];
    needed[records.len() - 1] = true;
    let mut pairs = BTreeSet::new();
    for (number, record) in records.iter().enumerate().rev() {
        if needed[number] {
            reads(record)
                .into_iter()
                .for_each(|gate| needed[gate] = true);
            if record[2] == 7 {
                let [a, b] = operands(record);
                pairs.insert((a.min(b), a.max(b)));
            }
        }
    }
    let squares = pairs.iter().filter(|(a, b)| a == b).count();
    (pairs.len() - squares, squares)
}

fn said_depth(table: &[u8]) -> usize {
    let mut depths: Vec<usize> = Vec::new();
    for record in table[8..].chunks(8) {
        let deepest = reads(record).into_iter().map(|gate| depths[gate]).max();
        depths.push(deepest.unwrap_or(0) + usize::from(record[2] == 7));
    }
    depths[depths.len() - 1]
}

/// Gates, products, squares, cost and depth of a table by the words of both
/// documents.
fn said_report(table: &[u8]) -> [usize; 5] {
    let (products, squares) = said_counts(table);
    let cost = 100 * products + usize::from(table[3]) * squares;
    let gates = table.len() / 8 - 1;
    [gates, products, squares, cost, said_depth(table)]
}

fn numbers(report: Report) -> [usize; 5] {
    let cost = report.cost.0 as usize;
    let [gates, products, squares, depth] = [
        report.gates,
        report.products,
        report.squares,
        report.depth.0,
    ]
    .map(usize::from);
    [gates, products, squares, cost, depth]
}

/// The tables of all step sizes, each with its report.
fn all_steps(card: &[u8]) -> Vec<(Vec<u8>, [usize; 5])> {
    let tables = (1..=last_step(card[2])).map(|step| step_table(card, step));
    let mut all = Vec::new();
    for table in tables {
        let report = said_report(&table);
        all.push((table, report));
    }
    all
}

/// The best step size within the cap by brute force, and its table.
fn best_of(all: &[(Vec<u8>, [usize; 5])], cap: u16) -> Option<(u8, &[u8])> {
    let mut best: Option<([usize; 3], &[u8])> = None;
    for (step, (table, [_, _, _, cost, depth])) in (1..).zip(all) {
        let key = [*cost, *depth, step];
        let is_better = best.is_none_or(|(other, _)| key < other);
        if *depth <= usize::from(cap) && is_better {
            best = Some((key, table));
        }
    }
    best.map(|(key, table)| (key[2] as u8, table))
}

fn expect_offer(card: &[u8], cap: u16) {
    expect_offers(card, &[cap]);
}

/// Both buffers, what is handed back and what comes with it, by brute force, in
/// longer buffers whose later bytes are kept.
fn expect_offers(card: &[u8], caps: &[u16]) {
    let base = base_table(card);
    let all = all_steps(card);
    for &cap in caps {
        expect_best(card, cap, &base, best_of(&all, cap));
    }
}

fn expect_best(card: &[u8], cap: u16, base: &[u8], best: Option<(u8, &[u8])>) {
    assert_eq!(best_step(card, cap), Ok(best.map(|best| best.0)));
    let base_fits = said_depth(base) <= usize::from(cap);
    let room = 8 + base.len().max(best.map_or(0, |best| best.1.len()));
    let (mut first, mut second) = (vec![0xAA; room], vec![0xBB; room]);
    let outcome = build_within(card, cap, &mut first, &mut second);
    let Some((_, stepped)) = best else {
        // No base table is within a cap that no step size is within.
        assert!(!base_fits);
        assert_eq!(outcome, Err(29));
        assert!(first.iter().all(|&byte| byte == 0xAA));
        assert!(second.iter().all(|&byte| byte == 0xBB));
        return;
    };
    assert!(base_fits);
    let costs = [said_report(base)[3], said_report(stepped)[3]];
    let (which, part) = if costs[0] <= costs[1] {
        (1, base)
    } else {
        (2, stepped)
    };
    let offer = outcome.unwrap();
    assert_eq!((offer.which, offer.length), (which, part.len()));
    assert_eq!(numbers(offer.report), said_report(part));
    for (buffer, table, kept) in [(&first, base, 0xAA), (&second, stepped, 0xBB)] {
        assert_eq!(&buffer[..table.len()], table);
        assert!(buffer[table.len()..].iter().all(|&byte| byte == kept));
        assert_eq!(check(buffer).map(numbers), Ok(said_report(table)));
    }
    // Just enough bytes, and one too few for either.
    let mut again = |first_room: usize, second_room: usize| {
        let lent = (first[..first_room].to_vec(), second[..second_room].to_vec());
        let (first, second) = (&mut first[..first_room], &mut second[..second_room]);
        let outcome = build_within(card, cap, first, second);
        // Refused or not, the bytes are those of before.
        assert_eq!((first.to_vec(), second.to_vec()), lent);
        outcome
    };
    let (first_room, second_room) = (base.len(), stepped.len());
    assert_eq!(again(first_room, second_room), Ok(offer));
    assert_eq!(again(first_room - 1, second_room), Err(11));
    assert_eq!(again(first_room, second_room - 1), Err(11));
    assert_eq!(again(0, 0), Err(11));
}

/// One digit at each prime, with caps about the depth of the base table.
#[test]
fn the_best_step_size_of_one_digit() {
    for p in PRIMES {
        for weight in [50, 100] {
            let card = card(p, weight, &[(1, 1)]);
            let depth = forecast(&card).unwrap().depth.0;
            expect_offers(&card, &[depth - 1, depth, u16::MAX]);
        }
    }
}

/// Drawn conditions of at most sixteen digits together.
fn draw_conditions(random: &mut Random) -> Vec<(u8, u8)> {
    let mut room = 16;
    let mut conditions = Vec::new();
    for _ in 0..1 + random.below(8) {
        if room > 0 {
            let n = 1 + random.byte_below(room.min(5));
            room -= n;
            conditions.push((1 + random.byte_below(6), n));
        }
    }
    conditions
}

#[test]
fn the_best_step_size_of_drawn_cards() {
    let mut random = Random::new(0xE7);
    for round in 0..60 {
        let p = random.pick(&PRIMES[..25]);
        let weight = 50 + random.byte_below(51);
        let card = card(p, weight, &draw_conditions(&mut random));
        let depth = forecast(&card).unwrap().depth.0;
        expect_offer(&card, [0, depth - 1, depth, depth + 1, u16::MAX][round % 5]);
    }
}

/// Each digit count, and the largest card.
#[test]
fn the_best_step_size_of_many_digits() {
    for n in 1..=16 {
        expect_offer(&card(31, 75, &[(4, n)]), u16::MAX);
        expect_offer(&card(7, 100, &[(2, n)]), 7);
    }
    expect_offers(&card(251, 75, &[(1, 16)]), &[12, 13]);
}

/// A table answers what the numbers say: digits for each difference, one way
/// round.
fn expect_differences(card: &[u8], table: &[u8], differences: impl Iterator<Item = i16>) {
    let mut work = vec![0; 8_192];
    for difference in differences {
        let (left, right) = if difference < 0 {
            (0, -difference as u8)
        } else {
            (difference as u8, 0)
        };
        let said = expected_output(card, &[left], &[right]).unwrap();
        let output = run(table, &[left], &[right], &mut work).unwrap();
        assert_eq!(u16::from(output), said, "{card:02X?} {left} {right}");
    }
}

/// L depends on z alone, so a digit is right where it is on all differences. All
/// of them at small primes, and those about 0 and the ends at large ones.
#[test]
fn each_step_size_is_right_on_one_digit() {
    for p in PRIMES {
        let top = i16::from(half_range(p)) - 1;
        for step in 1..=last_step(p) {
            let card = card(p, 75, &[(1 + step % 4, 1)]);
            let table = step_table(&card, step);
            if p < 50 || step % 16 == 0 {
                expect_differences(&card, &table, -top..=top);
            } else {
                let some = [-top, 1 - top, -top / 2, -1, 0, 1, top / 2, top - 1, top];
                expect_differences(&card, &table, some.into_iter());
            }
        }
    }
}

/// All pairs of digits and all relations at small primes, and of two digits at the
/// smallest.
#[test]
fn each_step_size_is_right_on_all_pairs() {
    let mut work = vec![0; 8_192];
    for p in [3, 5, 7, 11, 13] {
        for step in 1..=last_step(p) {
            for relation in 1..=6 {
                let n = if p < 8 { 2 } else { 1 };
                let card = card(p, 60, &[(relation, n)]);
                let table = step_table(&card, step);
                let base = u32::from(half_range(p));
                let count = base.pow(u32::from(n));
                let digits = |number: u32| -> Vec<u8> {
                    let places = (0..u32::from(n)).map(|i| number / base.pow(i) % base);
                    places.map(|digit| digit as u8).collect()
                };
                for left in (0..count).map(digits) {
                    for right in (0..count).map(digits) {
                        let said = expected_output(&card, &left, &right).unwrap();
                        let output = run(&table, &left, &right, &mut work).unwrap();
                        assert_eq!(u16::from(output), said, "{p} {step} {left:?} {right:?}");
                    }
                }
            }
        }
    }
}

/// Both tables of drawn cards on drawn digits, few of which differ.
#[test]
fn both_tables_are_right_on_drawn_cards() {
    let mut random = Random::new(0x7E);
    let (mut first, mut second) = (vec![0; LONGEST], vec![0; LONGEST]);
    let mut work = vec![0; 8_192];
    let mut met = [0; 2];
    for _ in 0..150 {
        let p = random.pick(&PRIMES);
        let card = card(p, 75, &draw_conditions(&mut random));
        let cap = forecast(&card).unwrap().depth.0 + random.below(3) as u16;
        build_within(&card, cap, &mut first, &mut second).unwrap();
        let digits = usize::from(first[4]);
        for changed in [0, 1, 4] {
            let left = random.bytes_below(half_range(p), digits);
            let mut right = left.clone();
            for digit in &mut right {
                if random.below(8) < changed {
                    *digit = random.byte_below(half_range(p));
                }
            }
            let said = expected_output(&card, &left, &right).unwrap();
            met[usize::from(said)] += 1;
            for table in [&first, &second] {
                let output = run(table, &left, &right, &mut work).unwrap();
                assert_eq!(u16::from(output), said);
            }
        }
    }
    assert!(met[0] > 100 && met[1] > 50, "{met:?}");
}

/// No step size is less deep than the base table, and k=1 is no deeper: so the
/// base table is within a cap just where some step size is.
#[test]
fn depths_of_step_sizes() {
    for p in PRIMES {
        for n in [1, 2, 3, 5, 16] {
            let card = card(p, 75, &[(1, n)]);
            let base = forecast(&card).unwrap().depth;
            let mut table = vec![0; 3_200 * usize::from(n)];
            let one = build_step(&card, 1, &mut table).unwrap();
            assert_eq!(one.depth, base, "{p} {n}");
            if n == 1 || n == 2 && p < 100 {
                for step in 2..=last_step(p) {
                    let report = build_step(&card, step, &mut table).unwrap();
                    assert!(report.depth >= base, "{p} {step} {n}");
                    assert!(report.depth.0 <= base.0 + 1, "{p} {step} {n}");
                }
            }
        }
    }
}

/// Ties: the first table at p=3 and p=7; of step sizes the less deep one, then the
/// lower one.
#[test]
fn ties() {
    let mut buffers = (vec![0; LONGEST], vec![0; LONGEST]);
    let mut offer = |p: u8, weight: u8, n: u8, cap: u16| -> (Offer, Report, u8) {
        let card = card(p, weight, &[(1, n)]);
        let offer = build_within(&card, cap, &mut buffers.0, &mut buffers.1).unwrap();
        let step = best_step(&card, cap).unwrap().unwrap();
        (offer, check(&buffers.1).unwrap(), step)
    };
    for (p, n) in [(3, 1), (7, 2)] {
        let (offer, second, _) = offer(p, 100, n, 99);
        assert_eq!((offer.which, offer.report.cost), (1, second.cost));
    }
    let report = |p: u8, weight: u8, step: u8| {
        let table = step_table(&card(p, weight, &[(1, 1)]), step);
        let [_, _, _, cost, depth] = said_report(&table);
        (cost, depth)
    };
    // The same cost and depth: the lower one.
    assert_eq!(report(17, 75, 4), report(17, 75, 8));
    assert_eq!(offer(17, 75, 1, 99).2, 4);
    // The same cost, and the lower one is deeper.
    assert_eq!(report(101, 50, 10).0, report(101, 50, 14).0);
    assert_eq!(report(101, 50, 10).1, report(101, 50, 14).1 + 1);
    assert_eq!(offer(101, 50, 1, 99).2, 14);
    assert_eq!(offer(83, 100, 1, 99).2, 12);
    // The cap decides.
    assert_eq!(offer(31, 75, 1, 5).2, 8);
    assert_eq!(offer(31, 75, 1, 6).2, 6);
}

/// Without an order condition all step sizes write the base table.
#[test]
fn no_order_condition() {
    for p in [3, 7, 31, 251] {
        let card = card(p, 75, &[(5, 2), (6, 1)]);
        let base = base_table(&card);
        for step in 1..=last_step(p) {
            assert_eq!(step_table(&card, step), base);
        }
        assert_eq!(best_step(&card, u16::MAX), Ok(Some(1)));
        expect_offers(&card, &[forecast(&card).unwrap().depth.0, u16::MAX]);
    }
}

fn refused(card: &[u8], number: Refusal) {
    for (cap, room) in [(0, 0), (0, 900), (u16::MAX, 0), (u16::MAX, 900)] {
        let (mut first, mut second) = (vec![1; room], vec![2; room]);
        let outcome = build_within(card, cap, &mut first, &mut second);
        assert_eq!(outcome, Err(number), "{card:02X?}");
        assert!(first.iter().all(|&byte| byte == 1) && second.iter().all(|&byte| byte == 2));
    }
    assert_eq!(best_step(card, u16::MAX), Err(number));
}

/// A card's own refusals go before 29, and 29 before 11; "cards that are not plain
/// give 2", whatever else is wrong with them but 1.
#[test]
fn refusals() {
    let good = card(7, 75, &[(1, 1), (5, 2)]);
    let mut tried = 0;
    for place in 0..good.len() {
        for byte in 0..=255 {
            let mut card = good.clone();
            card[place] = byte;
            let number = match card[..2] {
                [0xC5, 0x48] => forecast(&card).err(),
                _ => Some(2),
            };
            if let Some(number) = number {
                refused(&card, number);
                tried += 1;
            }
        }
    }
    assert!(tried > 1_500);
    for length in 0..good.len() {
        refused(&good[..length], if length < 6 { 1 } else { 7 });
    }
    for other in [
        score_card(7, 75, &[(1, 1, 1)]),
        shared_card(7, 75, &[(1, 1, 0)]),
    ] {
        assert!(forecast(&other).is_ok());
        for length in 0..other.len() {
            refused(&other[..length], if length < 6 { 1 } else { 2 });
        }
        for place in 2..other.len() {
            let mut card = other.clone();
            card[place] = 255;
            refused(&card, 2);
        }
    }
    let depth = forecast(&good).unwrap().depth.0;
    assert_eq!(build_within(&good, depth - 1, &mut [], &mut []), Err(29));
    assert_eq!(build_within(&good, depth, &mut [], &mut []), Err(11));
}

/// The lines `build_within` of the script about small primes, by brute force.
#[test]
fn answers_of_the_script() {
    let text = answers(&cases());
    let mut tables = BTreeMap::new();
    let mut tried = 0;
    for line in text
        .lines()
        .filter(|line| line.starts_with("build_within "))
    {
        let (asked, answer) = line.split_once(": ").unwrap();
        let words: Vec<&str> = asked.split(' ').collect();
        let [cap, first, second] = [1, 2, 3].map(|i| words[i].parse::<usize>().unwrap());
        let card: Vec<u8> = (0..words[4].len() / 2)
            .map(|i| u8::from_str_radix(&words[4][2 * i..2 * i + 2], 16).unwrap())
            .collect();
        let is_plain = card.len() < 2 || card[..2] == [0xC5, 0x48];
        if !is_plain || forecast(&card).is_err() || card[2] > 61 {
            continue;
        }
        let (base, all) = tables
            .entry(card.clone())
            .or_insert_with(|| (base_table(&card), all_steps(&card)));
        let base = base.as_slice();
        let said = match best_of(all, cap as u16) {
            None => "refused 29".to_string(),
            Some((_, step)) if first < base.len() || second < step.len() => {
                "refused 11".to_string()
            }
            Some((_, step)) => {
                let is_first = said_report(base)[3] <= said_report(step)[3];
                let (which, part) = if is_first { (1, base) } else { (2, step) };
                let [gates, products, squares, cost, depth] = said_report(part);
                format!(
                    "part {which} length {} gates {gates} products {products} \
                     squares {squares} cost {cost} depth {depth}",
                    part.len()
                )
            }
        };
        assert!(answer.starts_with(&format!("{said}, lent ")), "{line}");
        tried += 1;
    }
    assert!(tried > 200, "{tried}");
}

/// The Markdown tables have a row for each prime, with the numbers by brute force
/// at some of them.
#[test]
fn markdown_tables() {
    let text = step_tables();
    let tables: Vec<Vec<&str>> = text.split("\n\n").map(|t| t.lines().collect()).collect();
    assert_eq!(tables.len(), 2);
    assert_eq!((tables[0].len(), tables[1].len()), (55, 7));
    let columns = |row: &str| row.matches('|').count();
    assert!(tables.iter().flatten().all(|row| columns(row) == 10));
    for (weight, rows) in [(75, &tables[0][2..20]), (100, &tables[1][2..5])] {
        for row in rows {
            let cells = row.trim_matches(|c| c == '|' || c == ' ').split(" | ");
            let cells: Vec<usize> = cells.map(|cell| cell.parse().unwrap()).collect();
            let card = card(cells[0] as u8, weight, &[(1, 1)]);
            let of = |table: &[u8]| {
                let [_, products, squares, cost, depth] = said_report(table);
                [
                    if weight == 75 {
                        cost
                    } else {
                        products + squares
                    },
                    depth,
                ]
            };
            let base = of(&base_table(&card));
            assert_eq!(cells[1..3], base);
            let all = all_steps(&card);
            for (place, cap) in [(3, u16::MAX), (6, base[1] as u16)] {
                let (step, table) = best_of(&all, cap).unwrap();
                assert_eq!(cells[place], usize::from(step));
                assert_eq!(cells[place + 1..place + 3], of(table));
            }
        }
    }
}

/// Depths are compared as levels: a cap is any u16.
#[test]
fn caps_are_levels() {
    let card = card(31, 75, &[(1, 1)]);
    for cap in 0..=300 {
        let step = best_step(&card, cap).unwrap();
        assert_eq!(step.is_some(), cap >= 5);
        if let Some(step) = step {
            let mut table = vec![0; LONGEST];
            assert!(build_step(&card, step, &mut table).unwrap().depth <= Depth(cap));
        }
    }
}
