//! Products that nothing uses: against the request's sentence, read word by
//! word, on drawn tables, on built ones and on those of the case script.

use second::card::{
    card_bytes as card, score_card_bytes as score_card, shared_card_bytes as shared_card,
};
use second::field::PRIMES;
use second::table::{Gate, Head, Kind, Slots};
use second::{answers, build, cases, check, forecast, last_uses, run, trim, Random, Report};

mod record;
mod replay;
use record::{operands, reads};
use replay::each_question;

/// The records of a table, which is given without later bytes.
fn records(table: &[u8]) -> Vec<&[u8]> {
    table[8..].chunks(8).collect()
}

/// "The output itself and the gates it depends on, directly or through others":
/// what a marked gate reads is marked too, until nothing changes.
fn needed(reads: &[Vec<usize>]) -> Vec<bool> {
    let mut marked = vec![false; reads.len()];
    marked[reads.len() - 1] = true;
    loop {
        let before = marked.clone();
        for (number, operands) in reads.iter().enumerate() {
            for &operand in operands {
                marked[operand] |= before[number];
            }
        }
        if marked == before {
            return marked;
        }
    }
}

/// The MULs that are left where those that nothing uses are left out.
fn needed_muls(table: &[u8]) -> Vec<[usize; 2]> {
    needed_muls_by(table, reads)
}

fn needed_muls_by(table: &[u8], reads: impl Fn(&[u8]) -> Vec<usize>) -> Vec<[usize; 2]> {
    let records = records(table);
    let mut reads: Vec<Vec<usize>> = records.iter().map(|record| reads(record)).collect();
    // By a wrong turn a record may read what is no gate.
    reads
        .iter_mut()
        .for_each(|operands| operands.retain(|&operand| operand < records.len()));
    let marked = needed(&reads);
    (0..records.len())
        .filter(|&number| records[number][2] == 7 && marked[number])
        .map(|number| operands(records[number]))
        .collect()
}

fn all_muls(table: &[u8]) -> Vec<[usize; 2]> {
    let muls = records(table).into_iter().filter(|record| record[2] == 7);
    muls.map(operands).collect()
}

/// "Two MULs over the same pair of gates, in either order."
fn same_pair([a, b]: [usize; 2], [c, d]: [usize; 2]) -> bool {
    (a, b) == (c, d) || (a, b) == (d, c)
}

/// Each MUL that is like no earlier one.
fn distinct(muls: &[[usize; 2]], same: impl Fn([usize; 2], [usize; 2]) -> bool) -> Vec<[usize; 2]> {
    let mut counted: Vec<[usize; 2]> = Vec::new();
    for &mul in muls {
        if !counted.iter().any(|&earlier| same(earlier, mul)) {
            counted.push(mul);
        }
    }
    counted
}

/// Products and squares: "A MUL with a=b is a square, any other MUL a product."
fn counts(muls: &[[usize; 2]]) -> (usize, usize) {
    let squares = muls.iter().filter(|[a, b]| a == b).count();
    (muls.len() - squares, squares)
}

/// "Cost, products and squares shall count only the MUL gates among the output
/// itself and the gates it depends on, directly or through others, and two MULs
/// over the same pair of gates, in either order, once."
fn said(table: &[u8]) -> (usize, usize) {
    counts(&distinct(&needed_muls(table), same_pair))
}

/// The last gate's depth.
fn depth(table: &[u8]) -> usize {
    let mut depths: Vec<usize> = Vec::new();
    for record in records(table) {
        let deepest = reads(record).into_iter().map(|gate| depths[gate]).max();
        depths.push(deepest.unwrap_or(0) + usize::from(record[2] == 7));
    }
    depths[depths.len() - 1]
}

fn said_report(table: &[u8]) -> String {
    let (products, squares) = said(table);
    let cost = 100 * products + usize::from(table[3]) * squares;
    let gates = records(table).len();
    let depth = depth(table);
    format!("gates {gates} products {products} squares {squares} cost {cost} depth {depth}")
}

/// Checks the table, and that later bytes make no difference.
fn checked(table: &[u8]) -> Report {
    let report = check(table).unwrap();
    let mut longer = table.to_vec();
    longer.extend([0x47, 0x54, 7, 0, 0, 0, 0, 0]);
    assert_eq!(check(&longer), Ok(report));
    report
}

fn pair(report: Report) -> (usize, usize) {
    (usize::from(report.products), usize::from(report.squares))
}

fn table_of(p: u8, weight: u8, slots: u8, gates: &[Gate]) -> Vec<u8> {
    let head = Head {
        p,
        weight,
        slots: Slots::Both(slots),
        gates: gates.len() as u16,
    };
    let mut bytes = head.record().to_vec();
    bytes.extend(gates.iter().flat_map(Gate::record));
    bytes
}

fn gate(kind: Kind, a: u16, b: u16) -> Gate {
    Gate { kind, a, b }
}

fn left() -> Gate {
    gate(Kind::Left, 0, 0)
}

fn right() -> Gate {
    gate(Kind::Right, 0, 0)
}

fn add(a: u16, b: u16) -> Gate {
    gate(Kind::Add, a, b)
}

fn sub(a: u16, b: u16) -> Gate {
    gate(Kind::Sub, a, b)
}

fn scale(a: u16, constant: i16) -> Gate {
    gate(Kind::Scale, a, constant.cast_unsigned())
}

fn flip(a: u16) -> Gate {
    gate(Kind::Flip, a, 0)
}

fn mul(a: u16, b: u16) -> Gate {
    gate(Kind::Mul, a, b)
}

/// These gates after a LEFT, a RIGHT and a LEFT, with the counts that a reader
/// of the request finds.
fn expect(gates: &[Gate], products: usize, squares: usize) {
    let mut all = vec![left(), right(), left()];
    all.extend(gates);
    for weight in [50, 75, 100] {
        let table = table_of(31, weight, 16, &all);
        let report = checked(&table);
        assert_eq!(pair(report), (products, squares), "{gates:?}");
        let cost = 100 * products + usize::from(weight) * squares;
        assert_eq!(report.cost.0 as usize, cost, "{gates:?}");
        assert_eq!(usize::from(report.gates), all.len());
        assert_eq!(said_report(&table), report.to_string(), "{gates:?}");
    }
}

#[test]
fn what_nothing_uses() {
    expect(&[], 0, 0);
    expect(&[mul(0, 1), add(0, 1)], 0, 0);
    expect(&[mul(0, 0), add(0, 1)], 0, 0);
    expect(&[mul(0, 1), add(3, 1)], 1, 0);
    expect(&[mul(0, 0), add(0, 3)], 0, 1);
    // Used by an unused gate, and by both.
    expect(&[mul(0, 1), flip(3), flip(0)], 0, 0);
    expect(&[mul(0, 1), mul(3, 3), mul(4, 3), flip(0)], 0, 0);
    expect(&[mul(0, 1), mul(3, 3), flip(3)], 1, 0);
    expect(&[mul(0, 1), flip(3), mul(3, 3), flip(4)], 1, 0);
    // All but the output.
    expect(&[mul(0, 1), mul(3, 3), left()], 0, 0);
    expect(&[mul(0, 1), mul(3, 3), right()], 0, 0);
}

#[test]
fn one_pair_counts_once() {
    expect(&[mul(0, 1), mul(1, 0), add(3, 4)], 1, 0);
    expect(&[mul(0, 1), mul(0, 1), add(3, 4)], 1, 0);
    expect(
        &[mul(1, 0), mul(1, 0), mul(0, 1), add(3, 4), sub(6, 5)],
        1,
        0,
    );
    expect(&[mul(1, 1), mul(1, 1), add(3, 4)], 0, 1);
    expect(
        &[mul(0, 0), mul(0, 0), mul(0, 0), add(3, 4), sub(6, 5)],
        0,
        1,
    );
    // One gate in common is not enough.
    expect(&[mul(0, 1), mul(0, 2), add(3, 4)], 2, 0);
    expect(&[mul(0, 2), mul(1, 2), add(3, 4)], 2, 0);
    expect(&[mul(0, 1), mul(1, 2), add(3, 4)], 2, 0);
    expect(
        &[mul(0, 1), mul(1, 1), mul(0, 0), add(3, 4), add(5, 6)],
        1,
        2,
    );
}

/// First what is used, then what is the same.
#[test]
fn one_of_a_pair_may_be_unused() {
    expect(&[mul(0, 1), mul(0, 1), flip(4)], 1, 0);
    expect(&[mul(0, 1), mul(1, 0), flip(4)], 1, 0);
    expect(&[mul(0, 1), mul(1, 0), flip(3)], 1, 0);
    expect(&[mul(0, 1), mul(1, 0), flip(2)], 0, 0);
    expect(&[mul(2, 2), mul(2, 2), flip(4)], 0, 1);
    expect(&[mul(2, 2), mul(2, 2), flip(3)], 0, 1);
    expect(&[mul(2, 2), mul(2, 2), flip(1)], 0, 0);
    // The output has an earlier one's pair.
    expect(&[mul(0, 1), mul(1, 0)], 1, 0);
    expect(&[mul(0, 0), flip(3), mul(0, 0)], 0, 1);
}

/// Gates 3 and 4 have one value, and so have gates 0 and 2, but not one number.
#[test]
fn pairs_are_of_gates_and_not_of_values() {
    expect(
        &[mul(0, 1), mul(1, 0), mul(3, 0), mul(4, 0), add(5, 6)],
        3,
        0,
    );
    expect(
        &[mul(0, 0), mul(0, 0), mul(3, 3), mul(4, 4), add(5, 6)],
        0,
        3,
    );
    expect(&[mul(0, 1), mul(0, 1), mul(3, 4)], 2, 0);
    expect(
        &[mul(0, 1), mul(0, 1), mul(3, 4), mul(4, 3), add(5, 6)],
        2,
        0,
    );
    expect(
        &[mul(0, 0), mul(2, 2), mul(0, 2), add(3, 4), add(5, 6)],
        1,
        2,
    );
    expect(&[mul(0, 1), mul(1, 2), add(3, 4)], 2, 0);
    expect(&[scale(0, 1), mul(0, 1), mul(3, 1), sub(4, 5)], 2, 0);
}

/// Gate 3 is a product, read or not.
#[test]
fn each_kind_that_reads() {
    for (output, products, squares) in [
        (add(3, 0), 1, 0),
        (add(0, 3), 1, 0),
        (sub(3, 0), 1, 0),
        (sub(0, 3), 1, 0),
        (sub(3, 3), 1, 0),
        (scale(3, 1), 1, 0),
        (scale(3, 0), 1, 0),
        (flip(3), 1, 0),
        (mul(3, 0), 2, 0),
        (mul(1, 3), 2, 0),
        (mul(3, 3), 1, 1),
        (gate(Kind::Left, 3, 0), 0, 0),
        (gate(Kind::Right, 3, 0), 0, 0),
        (scale(0, 3), 0, 0),
        (scale(0, -3), 0, 0),
        (flip(0), 0, 0),
    ] {
        expect(&[mul(0, 1), output], products, squares);
        expect(&[mul(0, 1), output, flip(4)], products, squares);
        expect(&[mul(0, 1), output, scale(4, 0)], products, squares);
        expect(&[mul(0, 1), output, add(4, 0), flip(5)], products, squares);
        expect(&[mul(0, 1), output, flip(0)], 0, 0);
    }
}

#[test]
fn tables_of_one_gate() {
    for kind in [Kind::Left, Kind::Right] {
        let report = checked(&table_of(3, 50, 1, &[gate(kind, 0, 0)]));
        assert_eq!(
            report.to_string(),
            "gates 1 products 0 squares 0 cost 0 depth 0"
        );
    }
}

/// Refusals, Trim, Run and the last-use list have to do with unused gates too.
#[test]
fn unused_gates_are_gates() {
    let gates = [left(), right(), mul(0, 1), mul(1, 0), flip(2), flip(0)];
    let mut table = table_of(7, 50, 1, &gates);
    assert_eq!(pair(checked(&table)), (0, 0));
    assert_eq!(trim(&table).len(), 56);
    let mut work = [0; 6];
    assert_eq!(run(&table, &[2], &[5], &mut work), Ok(6));
    assert_eq!(work, [2, 5, 3, 3, 5, 6]);
    let mut list = [0; 6];
    assert_eq!(last_uses(&table, &mut list), Ok(6));
    assert_eq!(list, [5, 3, 4, 3, 4, 5]);
    for (place, wrong, number) in [
        (33, 0, 2),
        (35, 1, 5),
        (34, 8, 16),
        (36, 3, 17),
        (38, 3, 17),
    ] {
        let good = std::mem::replace(&mut table[place], wrong);
        assert_eq!(check(&table), Err(number));
        table[place] = good;
    }
}

/// A drawn table with many MULs over few gates: the first half of the gates has
/// operands among the first ones, the last ones, or now and then all, and most
/// of the others add up what is there.
fn random_table(random: &mut Random, gates: u16, few: u16) -> Vec<u8> {
    let p = random.pick(&PRIMES);
    let slots = 1 + random.byte_below(16);
    let mut all = Vec::new();
    for number in 0..gates {
        let slot = u16::from(random.byte_below(slots));
        let constant = i16::from(random.byte_below(p)) - i16::from(p / 2);
        let mut below = |bound: u16| random.below(u64::from(bound)) as u16;
        let any = below(number.max(1));
        let mut operand = || match below(8) {
            0 => any,
            1 => number.saturating_sub(1 + below(few)),
            _ => below(few.min(number.max(1))),
        };
        let (a, b) = (operand(), operand());
        let is_late = number > gates / 2 && below(16) > 0;
        let kinds = if number == 0 { 2 } else { 12 };
        all.push(match below(kinds) {
            kind if is_late && kind < 8 => add(number - 1, any),
            _ if is_late => sub(any, number - 1),
            0 => gate(Kind::Left, slot, 0),
            1 => gate(Kind::Right, slot, 0),
            2 => add(a, b),
            3 => sub(a, b),
            4 => scale(a, constant),
            5 => flip(a),
            6 => mul(a, a),
            _ => mul(a, b),
        });
    }
    table_of(p, 50 + random.byte_below(51), slots, &all)
}

#[test]
fn counts_of_small_tables() {
    let mut random = Random::new(11);
    let (mut unused, mut repeated, mut both) = (0, 0, 0);
    for _ in 0..20_000 {
        let gates = 1 + random.below(60) as u16;
        let few = 1 + random.below(5) as u16;
        let table = random_table(&mut random, gates, few);
        assert_eq!(
            checked(&table).to_string(),
            said_report(&table),
            "{table:?}"
        );
        let all = all_muls(&table).len();
        let needed = needed_muls(&table);
        let counted = distinct(&needed, same_pair).len();
        unused += usize::from(needed.len() < all);
        repeated += usize::from(counted < needed.len());
        both += usize::from(needed.len() < all && counted < needed.len());
    }
    // Many tables have MULs that do not count, for either cause.
    assert!(unused > 10_000, "{unused}");
    assert!(repeated > 9_000, "{repeated}");
    assert!(both > 7_000, "{both}");
}

#[test]
fn counts_of_large_tables() {
    let mut random = Random::new(12);
    for gates in (250..=1_200)
        .step_by(50)
        .chain([2_047, 2_048, 8_190, 8_191])
    {
        for few in [2, 40, 700] {
            let table = random_table(&mut random, gates, few);
            assert_eq!(checked(&table).to_string(), said_report(&table));
        }
    }
}

/// 8191 gates: this many slots, these MULs, and then sums, the last of which has
/// all of the MULs.
fn longest(slots: u16, muls: &[Gate]) -> Vec<Gate> {
    let mut gates = vec![left(); usize::from(slots)];
    gates.extend(muls);
    let mut sum = slots;
    for term in slots + 1.. {
        if gates.len() == 8_191 {
            return gates;
        }
        gates.push(add(sum, term));
        sum = gates.len() as u16 - 1;
    }
    gates
}

/// The counts of a longest table at p=3, and then none with a LEFT or a FLIP of
/// the first gate as its output.
fn expect_longest(mut gates: Vec<Gate>, products: usize, squares: usize) {
    assert_eq!(gates.len(), 8_191);
    let report = checked(&table_of(3, 50, 1, &gates));
    assert_eq!(pair(report), (products, squares));
    for output in [left(), flip(0)] {
        gates[8_190] = output;
        assert_eq!(pair(checked(&table_of(3, 50, 1, &gates))), (0, 0));
    }
}

#[test]
fn counts_of_the_longest_chains() {
    // Each gate is the square of the one before it, or the product of two.
    let mut squares = vec![left()];
    squares.extend((0..8_190).map(|number| mul(number, number)));
    expect_longest(squares, 0, 8_190);
    let mut products = vec![left(), left()];
    products.extend((0..8_189).map(|number| mul(number, number + 1)));
    expect_longest(products, 8_189, 0);
    // No product at all.
    let mut flips = vec![left()];
    flips.extend((0..8_190).map(flip));
    expect_longest(flips, 0, 0);
    // Each gate is a product with the first one.
    let mut star = vec![left()];
    star.extend((0..8_190).map(|number| mul(number, 0)));
    expect_longest(star, 8_189, 1);
}

#[test]
fn counts_of_the_longest_sums() {
    // One pair over and over, in both orders, and one square.
    let pairs: Vec<Gate> = (0..4_095).map(|i| mul(i % 2, 1 - i % 2)).collect();
    expect_longest(longest(2, &pairs), 1, 0);
    expect_longest(longest(2, &[mul(1, 1); 4_095]), 0, 1);
    // One higher gate for all, one lower gate for all, each pair twice.
    let higher: Vec<Gate> = (0..2_729).map(|number| mul(2_732, number)).collect();
    expect_longest(longest(2_733, &higher), 2_729, 0);
    let lower: Vec<Gate> = (1..2_730).map(|number| mul(0, number)).collect();
    expect_longest(longest(2_733, &lower), 2_729, 0);
    let twice: Vec<Gate> = (0..3_276)
        .map(|number| match number % 2 {
            0 => mul(number / 2, 1_638),
            _ => mul(1_638, number / 2),
        })
        .collect();
    expect_longest(longest(1_640, &twice), 1_638, 0);
    // All pairs of 60 gates, in both orders.
    let all: Vec<Gate> = (0..3_600).map(|i| mul(i / 60, i % 60)).collect();
    expect_longest(longest(60, &all), 60 * 59 / 2, 60);
    let back: Vec<Gate> = all.into_iter().rev().collect();
    expect_longest(longest(60, &back), 60 * 59 / 2, 60);
}

/// The MULs above the output's reach are the last ones of the list.
#[test]
fn longest_sums_of_a_part() {
    let all: Vec<Gate> = (0..3_600).map(|i| mul(i / 60, i % 60)).collect();
    let mut gates = longest(60, &all);
    for (reach, products, squares) in [(1, 0, 1), (60, 59, 1), (62, 59, 2), (120, 117, 2)] {
        // The first sum, gate 3660, is of two MULs.
        gates[8_190] = match reach {
            1 => flip(60),
            _ => flip(3_660 + reach - 2),
        };
        let report = checked(&table_of(3, 50, 1, &gates));
        assert_eq!(pair(report), (products, squares), "{reach}");
    }
}

fn built(card: &[u8]) -> (Report, Vec<u8>) {
    let mut table = vec![0; 65_536];
    let report = build(card, &mut table).unwrap();
    table.truncate(8 * (usize::from(report.gates) + 1));
    (report, table)
}

/// "Every table that we build keeps its counts": Check answers as Build and
/// Forecast do, and these count all MULs.
fn expect_kept(card: &[u8]) {
    let (report, table) = built(card);
    assert_eq!(forecast(card), Ok(report), "{card:?}");
    assert_eq!(checked(&table), report, "{card:?}");
    assert_eq!(counts(&all_muls(&table)), pair(report), "{card:?}");
}

/// Each MUL of the table is used, and has a pair of its own.
fn expect_all_used(card: &[u8]) {
    let (_, table) = built(card);
    assert_eq!(needed_muls(&table), all_muls(&table), "{card:?}");
    assert_eq!(distinct(&needed_muls(&table), same_pair), all_muls(&table));
}

/// A card of each form with these conditions, but for those that score cards
/// have too many of at small primes. All conditions of the shared card have the
/// same left slots, as far as they have equally many.
fn all_forms(p: u8, conditions: &[(u8, u8)]) -> Vec<Vec<u8>> {
    let shared: Vec<(u8, u8, u8)> = conditions.iter().map(|&(r, n)| (r, n, 0)).collect();
    let mut cards = vec![card(p, 75, conditions), shared_card(p, 75, &shared)];
    if conditions.len() < usize::from(p) {
        let scored: Vec<(u8, u8, u8)> = conditions.iter().map(|&(r, n)| (r, n, 1)).collect();
        cards.push(score_card(p, 75, &scored));
    }
    cards
}

#[test]
fn one_condition_keeps_its_counts() {
    for p in PRIMES {
        for relation in 1..=6 {
            for n in [1, 2, 3, 5, 8, 16] {
                for card in all_forms(p, &[(relation, n)]) {
                    expect_kept(&card);
                }
            }
        }
    }
}

#[test]
fn several_conditions_keep_their_counts() {
    let mut random = Random::new(13);
    for _ in 0..1_000 {
        let p = random.pick(&PRIMES);
        for card in all_forms(p, &random_conditions(&mut random)) {
            expect_kept(&card);
        }
    }
}

/// One to eight conditions of at most sixteen digits in all.
fn random_conditions(random: &mut Random) -> Vec<(u8, u8)> {
    let mut room = 16;
    let mut conditions = Vec::new();
    for _ in 0..1 + random.byte_below(8) {
        let n = (1 + random.byte_below(5)).min(room);
        room -= n;
        if n > 0 {
            conditions.push((1 + random.byte_below(6), n));
        }
    }
    conditions
}

/// So no count could be a chance one.
#[test]
fn built_tables_use_all_products() {
    for relation in 1..=6 {
        for (p, n) in [
            (3, 16),
            (5, 7),
            (7, 5),
            (17, 4),
            (37, 3),
            (127, 2),
            (251, 1),
        ] {
            for card in all_forms(p, &[(relation, n)]) {
                expect_all_used(&card);
            }
        }
    }
    let mut random = Random::new(14);
    for _ in 0..200 {
        let p = random.pick(&PRIMES[..12]);
        for card in all_forms(p, &random_conditions(&mut random)) {
            expect_all_used(&card);
        }
    }
}

/// The accepted tables that the script's lines `check` ask about, each with its
/// answer.
fn asked<'a>(script: &str, text: &'a str) -> Vec<(Vec<u8>, &'a str)> {
    let mut answers = text.lines().filter_map(|line| line.strip_prefix("check: "));
    let mut asked = Vec::new();
    each_question(script, |words, lent| {
        if words[0] == "check" {
            let answer = answers.next().unwrap();
            let table = trim(lent);
            assert_eq!(table.is_empty(), answer.starts_with("refused "));
            if !table.is_empty() {
                asked.push((table.to_vec(), answer));
            }
        }
    });
    assert_eq!(answers.next(), None);
    asked
}

/// Each answer of the script is what the sentence says of its table.
#[test]
fn answers_of_the_script() {
    let script = cases();
    let text = answers(&script);
    let mut asked = asked(&script, &text);
    asked.dedup();
    for (table, answer) in asked {
        assert_eq!(answer, said_report(&table));
    }
}

/// Products and squares of a table by a wrong turn.
type WrongCounts = Box<dyn Fn(&[u8]) -> (usize, usize)>;

/// A wrong turn in what a record reads.
fn misread(wrong: impl Fn(&[u8]) -> Vec<usize> + 'static) -> WrongCounts {
    Box::new(move |table| counts(&distinct(&needed_muls_by(table, &wrong), same_pair)))
}

/// For records of one kind, other operands than it reads.
fn misread_kind(kind: u8, wrong: fn([usize; 2]) -> Vec<usize>) -> WrongCounts {
    misread(move |record| {
        if record[2] == kind {
            wrong(operands(record))
        } else {
            reads(record)
        }
    })
}

/// A wrong turn in which MULs are the same.
fn mistake(wrong: fn([usize; 2], [usize; 2]) -> bool) -> WrongCounts {
    Box::new(move |table| counts(&distinct(&needed_muls(table), wrong)))
}

/// Pairs that are taken for the same where a number made of them is: of the
/// lower and the higher gate.
fn mistake_key(key: fn(usize, usize) -> usize) -> WrongCounts {
    Box::new(move |table| {
        let key = |[a, b]: [usize; 2]| key(a.min(b), a.max(b));
        let same = |one, other| key(one) == key(other);
        counts(&distinct(&needed_muls(table), same))
    })
}

/// The numbers of the MULs that count, by a wrong turn that is given the records
/// and which of them are needed.
fn misnumber(wrong: fn(&[&[u8]], &[bool]) -> Vec<usize>) -> WrongCounts {
    Box::new(move |table| {
        let records = records(table);
        let all: Vec<Vec<usize>> = records.iter().map(|record| reads(record)).collect();
        let numbers = wrong(&records, &needed(&all));
        let muls: Vec<[usize; 2]> = numbers
            .into_iter()
            .map(|number| operands(records[number]))
            .collect();
        counts(&muls)
    })
}

/// The MULs of which no other before (or after) has the pair, and of these the
/// needed ones.
fn needed_of_ends(records: &[&[u8]], needed: &[bool], from_the_last: bool) -> Vec<usize> {
    let mut kept: Vec<usize> = Vec::new();
    let mut numbers: Vec<usize> = (0..records.len()).collect();
    if from_the_last {
        numbers.reverse();
    }
    for number in numbers {
        let mul = operands(records[number]);
        let is_kept = |&other: &usize| same_pair(operands(records[other]), mul);
        if records[number][2] == 7 && !kept.iter().any(is_kept) {
            kept.push(number);
        }
    }
    kept.retain(|&number| needed[number]);
    kept
}

/// Gates of the same kind over the same gates are taken for one, for all kinds
/// or for MULs alone, and so are those over them.
fn one_value(records: &[&[u8]], needed: &[bool], muls_alone: bool) -> Vec<usize> {
    let mut canonical: Vec<usize> = Vec::new();
    let mut keys: Vec<(u8, usize, usize)> = Vec::new();
    for (number, record) in records.iter().enumerate() {
        let [a, b] = operands(record);
        let key = match record[2] {
            7 => (
                7,
                canonical[a].min(canonical[b]),
                canonical[a].max(canonical[b]),
            ),
            _ if muls_alone => (0, number, 0),
            kind @ (3 | 4) => (kind, canonical[a], canonical[b]),
            kind @ (5 | 6) => (kind, canonical[a], b),
            kind => (kind, a, b),
        };
        let first = keys.iter().position(|&earlier| earlier == key);
        canonical.push(first.unwrap_or(number));
        keys.push(key);
    }
    let mut counted: Vec<usize> = (0..records.len())
        .filter(|&number| records[number][2] == 7 && needed[number])
        .map(|number| canonical[number])
        .collect();
    counted.sort();
    counted.dedup();
    counted
}

fn wrong_counts() -> Vec<(&'static str, WrongCounts)> {
    let mut wrong: Vec<(&str, WrongCounts)> = vec![
        ("all MULs", Box::new(|table| counts(&all_muls(table)))),
        (
            "unused ones",
            Box::new(|table| counts(&distinct(&all_muls(table), same_pair))),
        ),
        (
            "repeated ones",
            Box::new(|table| counts(&needed_muls(table))),
        ),
        ("one order", mistake(|one, other| one == other)),
        (
            "repeated squares",
            mistake(|one, other| same_pair(one, other) && one[0] != one[1]),
        ),
        (
            "repeated products",
            mistake(|one, other| same_pair(one, other) && one[0] == one[1]),
        ),
        (
            "a gate in common",
            mistake(|[a, b], [c, d]| a == c || a == d || b == c || b == d),
        ),
        ("a in common", mistake(|[a, _], [c, _]| a == c)),
        ("b in common", mistake(|[_, b], [_, d]| b == d)),
        ("lower gates", mistake_key(|lower, _| lower)),
        ("higher gates", mistake_key(|_, higher| higher)),
        ("sums", mistake_key(|lower, higher| lower + higher)),
        ("differences", mistake_key(|lower, higher| higher - lower)),
        ("products", mistake_key(|lower, higher| lower * higher)),
        ("exclusive or", mistake_key(|lower, higher| lower ^ higher)),
        (
            "low bytes",
            mistake_key(|lower, higher| lower % 256 * 256 + higher % 256),
        ),
        (
            "256 times the lower",
            mistake_key(|lower, higher| 256 * lower + higher),
        ),
        (
            "16 bits of 256 times the higher",
            mistake_key(|lower, higher| (256 * higher + lower) % 65_536),
        ),
        (
            "16 bits of 8192 times the lower",
            mistake_key(|lower, higher| (8_192 * lower + higher) % 65_536),
        ),
        (
            "the first of a pair, if needed",
            misnumber(|records, needed| needed_of_ends(records, needed, false)),
        ),
        (
            "the last of a pair, if needed",
            misnumber(|records, needed| needed_of_ends(records, needed, true)),
        ),
        (
            "MULs of one value",
            misnumber(|records, needed| one_value(records, needed, true)),
        ),
        (
            "gates of one value",
            misnumber(|records, needed| one_value(records, needed, false)),
        ),
        (
            "repeats side by side alone",
            Box::new(|table| {
                let mut muls = needed_muls(table);
                muls.dedup_by(|one, other| same_pair(*one, *other));
                counts(&muls)
            }),
        ),
        ("without the output", Box::new(without_output)),
        ("what any gate reads", Box::new(read_by_any)),
        ("what the output reads itself", Box::new(read_by_output)),
        ("slots of LEFT", misread_kind(1, |[a, _]| vec![a])),
        ("slots of RIGHT", misread_kind(2, |[a, _]| vec![a])),
        ("constants", misread_kind(5, |[a, b]| vec![a, b])),
        (
            "constants without sign",
            misread_kind(5, |[a, b]| vec![a, b.min(0x10000 - b)]),
        ),
        ("SCALE left out", misread_kind(5, |_| vec![])),
        (
            "SCALE by 0 left out",
            misread_kind(5, |[a, b]| if b == 0 { vec![] } else { vec![a] }),
        ),
        ("FLIP left out", misread_kind(6, |_| vec![])),
        (
            "0 as a difference",
            misread_kind(4, |[a, b]| if a == b { vec![] } else { vec![a, b] }),
        ),
        (
            "squares read none",
            misread_kind(7, |[a, b]| if a == b { vec![] } else { vec![a, b] }),
        ),
        (
            "low bytes of operands",
            misread(|record| reads(record).iter().map(|operand| operand % 256).collect()),
        ),
    ];
    for kind in [3, 4, 7] {
        wrong.push(("a alone", misread_kind(kind, |[a, _]| vec![a])));
        wrong.push(("b alone", misread_kind(kind, |[_, b]| vec![b])));
    }
    wrong
}

/// The output itself does not count.
fn without_output(table: &[u8]) -> (usize, usize) {
    let mut muls = needed_muls(table);
    if table[table.len() - 6] == 7 {
        muls.pop();
    }
    counts(&distinct(&muls, same_pair))
}

/// Whatever is read counts, whether the output needs its reader or not.
fn read_by_any(table: &[u8]) -> (usize, usize) {
    let records = records(table);
    let mut marked = vec![false; records.len()];
    marked[records.len() - 1] = true;
    for operand in records.iter().flat_map(|record| reads(record)) {
        marked[operand] = true;
    }
    let muls: Vec<[usize; 2]> = (0..records.len())
        .filter(|&number| records[number][2] == 7 && marked[number])
        .map(|number| operands(records[number]))
        .collect();
    counts(&distinct(&muls, same_pair))
}

/// Directly, but not through others.
fn read_by_output(table: &[u8]) -> (usize, usize) {
    let records = records(table);
    let output = records.len() - 1;
    let mut numbers = reads(records[output]);
    numbers.push(output);
    numbers.sort();
    numbers.dedup();
    numbers.retain(|&number| records[number][2] == 7);
    let muls: Vec<[usize; 2]> = numbers
        .into_iter()
        .map(|number| operands(records[number]))
        .collect();
    counts(&distinct(&muls, same_pair))
}

/// Each of these wrong turns gives other counts on some lines of the script.
#[test]
fn wrong_turns_come_up() {
    let script = cases();
    let text = answers(&script);
    let mut tables: Vec<Vec<u8>> = asked(&script, &text)
        .into_iter()
        .map(|(table, _)| table)
        .filter(|table| table.len() < 8_000)
        .collect();
    tables.sort();
    tables.dedup();
    for (name, wrong) in wrong_counts() {
        let told = |table: &&Vec<u8>| wrong(table) != said(table);
        let count = tables.iter().filter(told).count();
        assert!(count >= 2, "{name}: {count}");
    }
}
