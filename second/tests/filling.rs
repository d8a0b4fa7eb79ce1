//! A card filled in condition by condition: the request's sentences, on many cards
//! and drawn calls.

use second::card::{card_bytes as card, condition_bytes as record};
use second::field::{half_range, PRIMES};
use second::{
    build, check, expected_output, forecast, run, trim, Filling, Random, Refusal, Report,
};
use std::collections::BTreeSet;

/// More bytes than any table of a card takes.
const AREA: usize = 57_000;

/// Relation and n of each condition.
type Conditions = Vec<(u8, u8)>;

fn draw_conditions(random: &mut Random) -> Conditions {
    let mut slots = 16;
    let mut conditions = Vec::new();
    for _ in 0..1 + random.below(8) {
        if slots > 0 {
            let n = 1 + random.byte_below(slots.min(4));
            slots -= n;
            conditions.push((1 + random.byte_below(6), n));
        }
    }
    conditions
}

fn draw_bytes(random: &mut Random, count: usize) -> Vec<u8> {
    (0..count).map(|_| random.next_u64() as u8).collect()
}

/// The bytes of a card's table in one go.
fn one_go(card: &[u8]) -> Vec<u8> {
    let mut table = vec![0; AREA];
    build(card, &mut table).unwrap();
    trim(&table).to_vec()
}

/// The gates of the conditions, before the product tree.
fn gates_so_far(p: u8, conditions: &[(u8, u8)]) -> usize {
    match conditions.len() {
        0 => 0,
        count => usize::from(forecast(&card(p, 50, conditions)).unwrap().gates) + 1 - count,
    }
}

fn slots(conditions: &[(u8, u8)]) -> u8 {
    conditions.iter().map(|&(_, n)| n).sum()
}

/// An accepted begin and accepted adds.
fn begun(p: u8, s: u8, conditions: &[(u8, u8)], table: &mut [u8]) -> Filling {
    let mut filling = Filling::new();
    assert_eq!(filling.begin(p, s, table), Ok(()));
    for &(relation, n) in conditions {
        assert_eq!(filling.add(&record(relation, n), table), Ok(()));
    }
    filling
}

/// The document's card by hand: begin, its only record, finish.
#[test]
fn the_bench_card() {
    let mut table = [9; 65];
    let mut filling = Filling::new();
    assert_eq!(filling.begin(3, 75, &mut table), Ok(()));
    assert_eq!(table[..8], [0x47, 0x48, 3, 75, 0, 0, 0, 0]);
    assert_eq!(table[8..], [9; 57]);
    assert_eq!(check(&table), Err(13));
    assert_eq!(run(&table, &[], &[], &mut [0; 9]), Err(13));
    assert_eq!(filling.add(&[0xC5, 0x51, 1, 1], &mut table), Ok(()));
    assert_eq!(table[..8], [0x47, 0x48, 3, 75, 1, 0, 7, 0]);
    assert_eq!(
        table[56..],
        [0x47, 0x54, 3, 0, 4, 0, 5, 0, 9],
        "ADD 4 5, then a kept byte"
    );
    assert_eq!(run(&table, &[0], &[1], &mut [0; 7]), Ok(1));
    let open = table;
    let report = filling.finish(&mut table).unwrap();
    assert_eq!(
        report.to_string(),
        "gates 7 products 0 squares 1 cost 75 depth 1"
    );
    assert_eq!(table, open, "one condition has no tree");
    assert_eq!(filling, Filling::new());
}

/// "Begin gives 3, 4, or 11 under 8 bytes": each p and s in each length about it.
#[test]
fn numbers_of_begin() {
    for p in 0..=255 {
        for s in 0..=255 {
            for length in [0, 7, 8, 12] {
                let mut table = vec![0xAA; length];
                let mut filling = Filling::new();
                let said = if !PRIMES.contains(&p) {
                    Err(3)
                } else if !(50..=100).contains(&s) {
                    Err(4)
                } else if length < 8 {
                    Err(11)
                } else {
                    Ok(())
                };
                assert_eq!(filling.begin(p, s, &mut table), said);
                assert_eq!(filling == Filling::new(), said.is_err());
                let mut kept = vec![0xAA; length];
                if said.is_ok() {
                    kept[..8].copy_from_slice(&[0x47, 0x48, p, s, 0, 0, 0, 0]);
                }
                assert_eq!(table, kept);
            }
        }
    }
}

/// The number that an add gives, by the request's order.
fn said_of_add(open: Option<(u8, &[(u8, u8)])>, record: &[u8], length: usize) -> Option<Refusal> {
    let Some((p, conditions)) = open else {
        return Some(31);
    };
    if conditions.len() == 8 {
        return Some(30);
    }
    if record.len() != 4 {
        return Some(7);
    }
    let (relation, n) = (record[2], record[3]);
    if record[..2] != [0xC5, 0x51] {
        Some(2)
    } else if !(1..=6).contains(&relation) {
        Some(8)
    } else if !(1..=16).contains(&n) {
        Some(9)
    } else if slots(conditions) + n > 16 {
        Some(10)
    } else {
        let longer = [conditions, &[(relation, n)]].concat();
        (length < 8 * (gates_so_far(p, &longer) + 1)).then_some(11)
    }
}

fn draw_record(random: &mut Random) -> Vec<u8> {
    let mut record = record(1 + random.byte_below(6), random.pick(&[1, 1, 1, 1, 2, 3])).to_vec();
    for _ in 0..random.pick(&[0, 0, 1, 2]) {
        let place = random.below(4) as usize;
        record[place] = random.pick(&[0, 1, 7, 14, 16, 17, 0x51, 0x57, 0xC5, 255]);
    }
    record.resize(random.pick(&[4, 4, 4, 4, 4, 4, 4, 0, 3, 5]), 1);
    record
}

/// Drawn calls on one filling: each number is the sentences', a refused call changes
/// neither state nor bytes, and an accepted one leaves what the sentences say.
#[test]
fn drawn_calls() {
    let mut random = Random::new(81);
    let mut numbers = [0; 32];
    for _ in 0..60 {
        let mut table = draw_bytes(&mut random, 6_000);
        let mut filling = Filling::new();
        let mut open: Option<(u8, u8, Conditions)> = None;
        for _ in 0..100 {
            let length = random.pick(&[6_000, 6_000, 6_000, 900, 300, 48, 8, 7]);
            let before = (table.clone(), filling.clone());
            let lent = &mut table[..length];
            let number = match random.below(24) {
                0 => draw_begin(&mut random, &mut filling, &mut open, lent),
                1..23 => draw_add(&mut random, &mut filling, &mut open, lent),
                _ => draw_finish(&mut filling, &mut open, lent),
            };
            if number.is_some() {
                assert_eq!((&table, &filling), (&before.0, &before.1));
            }
            assert_eq!(table[length..], before.0[length..]);
            assert_eq!(filling == Filling::new(), open.is_none());
            numbers[usize::from(number.unwrap_or(0))] += 1;
        }
    }
    for number in [0, 2, 3, 4, 7, 8, 9, 10, 11, 30, 31] {
        assert!(numbers[number] >= 10, "{number}: {}", numbers[number]);
    }
}

type Open = Option<(u8, u8, Conditions)>;

fn draw_begin(
    random: &mut Random,
    filling: &mut Filling,
    open: &mut Open,
    lent: &mut [u8],
) -> Option<Refusal> {
    let (p, s) = (random.pick(&[3, 5, 7, 9]), random.pick(&[50, 77, 100, 101]));
    let mut said = lent.to_vec();
    let outcome = filling.begin(p, s, lent);
    if outcome.is_ok() {
        said[..8].copy_from_slice(&[0x47, 0x48, p, s, 0, 0, 0, 0]);
        assert_eq!(check(lent), Err(13));
        *open = Some((p, s, Vec::new()));
    }
    assert_eq!(lent, said);
    outcome.err()
}

fn draw_add(
    random: &mut Random,
    filling: &mut Filling,
    open: &mut Open,
    lent: &mut [u8],
) -> Option<Refusal> {
    let record = draw_record(random);
    let known = open
        .as_ref()
        .map(|(p, _, conditions)| (*p, conditions.as_slice()));
    let said = said_of_add(known, &record, lent.len());
    let mut expected = lent.to_vec();
    assert_eq!(filling.add(&record, lent).err(), said);
    if let (Some((p, s, conditions)), None) = (open, said) {
        conditions.push((record[2], record[3]));
        put_open_table(&mut expected, *p, *s, conditions);
    }
    assert_eq!(lent, expected);
    said
}

fn draw_finish(filling: &mut Filling, open: &mut Open, lent: &mut [u8]) -> Option<Refusal> {
    let mut expected = lent.to_vec();
    let said = match open {
        Some((p, s, conditions)) if !conditions.is_empty() => {
            build(&card(*p, *s, conditions), &mut expected)
        }
        _ => Err(31),
    };
    assert_eq!(filling.finish(lent), said);
    assert_eq!(lent, expected);
    if said.is_ok() {
        *open = None;
    }
    said.err()
}

/// "While the build is open the table's head tells the gates and slots added so
/// far": the first gates of the one-go build, under a head of their own.
fn put_open_table(table: &mut [u8], p: u8, s: u8, conditions: &[(u8, u8)]) {
    let gates = gates_so_far(p, conditions);
    let one_go = one_go(&card(p, s, conditions));
    table[8..8 * (gates + 1)].copy_from_slice(&one_go[8..8 * (gates + 1)]);
    let [low, high] = (gates as u16).to_le_bytes();
    table[..8].copy_from_slice(&[0x47, 0x48, p, s, slots(conditions), 0, low, high]);
}

/// Fills a card in over drawn bytes, with as many bytes behind as drawn, and looks
/// at the table after each call. The same number of conditions in one go leaves the
/// same bytes at the end, with the same answer.
fn expect_filling(random: &mut Random, p: u8, s: u8, conditions: &[(u8, u8)]) {
    let card_bytes = card(p, s, conditions);
    let behind = random.below(30) as usize;
    let room = one_go(&card_bytes).len() + behind;
    let found = draw_bytes(random, room);
    let mut table = found.clone();
    let mut filling = Filling::new();
    assert_eq!(filling.begin(p, s, &mut table), Ok(()));
    for count in 1..=conditions.len() {
        let (relation, n) = conditions[count - 1];
        assert_eq!(filling.add(&record(relation, n), &mut table), Ok(()));
        let mut expected = found.clone();
        put_open_table(&mut expected, p, s, &conditions[..count]);
        assert_eq!(table, expected, "{p} {conditions:?}");
        let report = check(&table).unwrap();
        let gates = gates_so_far(p, &conditions[..count]);
        assert_eq!(usize::from(report.gates), gates);
        assert_eq!(trim(&table).len(), 8 * (gates + 1));
        // What the newest condition alone costs, and its depth.
        let newest = forecast(&card(p, s, &[(relation, n)])).unwrap();
        assert_eq!((report.cost, report.depth), (newest.cost, newest.depth));
    }
    let mut built = found;
    let said: Report = build(&card_bytes, &mut built).unwrap();
    assert_eq!(filling.finish(&mut table), Ok(said));
    assert_eq!(table, built);
    assert_eq!(check(&table), Ok(said));
    assert_eq!(filling, Filling::new());
}

/// "For every accepted begin and list of accepted adds after it, an accepted finish
/// leaves exactly the bytes of the one-go build and answers as it does."
#[test]
fn finish_is_the_one_go_build() {
    let mut random = Random::new(82);
    for (i, p) in PRIMES.into_iter().enumerate() {
        for relation in 1..=6 {
            let other = 1 + (i as u8 + relation) % 6;
            expect_filling(
                &mut random,
                p,
                50 + (i % 51) as u8,
                &[(relation, 1), (other, 1)],
            );
        }
    }
    for _ in 0..150 {
        let p = random.pick(&PRIMES[..14]);
        let s = 50 + random.byte_below(51);
        let conditions = draw_conditions(&mut random);
        expect_filling(&mut random, p, s, &conditions);
    }
    for conditions in [&[(1, 16)][..], &[(2, 16)], &[(4, 2); 8], &[(6, 8), (3, 8)]] {
        expect_filling(&mut random, 251, 75, conditions);
    }
}

/// "Run answers the newest condition": what its relation says of its own slots,
/// whatever the earlier ones say.
#[test]
fn run_answers_the_newest_condition() {
    let mut random = Random::new(83);
    // Whether the newest condition holds, and whether all earlier ones do.
    let mut seen = BTreeSet::new();
    let mut work = vec![0; 8_191];
    for _ in 0..150 {
        let p = random.pick(&PRIMES[..12]);
        let conditions = draw_conditions(&mut random);
        let mut table = vec![0; 20_000];
        let mut filling = begun(p, 60, &[], &mut table);
        for count in 1..=conditions.len() {
            let (relation, n) = conditions[count - 1];
            filling.add(&record(relation, n), &mut table).unwrap();
            let (earlier, newest) = conditions[..count].split_at(count - 1);
            let start = usize::from(slots(earlier));
            for _ in 0..4 {
                let base = half_range(p).min(random.pick(&[1, 2, 255]));
                let [left, right] =
                    [(); 2].map(|()| random.bytes_below(base, start + usize::from(n)));
                let said = expected_output(&card(p, 60, newest), &left[start..], &right[start..]);
                let output = run(&table, &left, &right, &mut work).unwrap();
                assert_eq!(Some(u16::from(output)), said, "{p} {conditions:?}");
                if !earlier.is_empty() {
                    let older = &card(p, 60, earlier);
                    let older = expected_output(older, &left[..start], &right[..start]);
                    seen.insert((output, older.unwrap()));
                }
            }
            let list = vec![0; start + usize::from(n) + 1];
            assert_eq!(run(&table, &list, &list, &mut work), Err(18));
        }
    }
    assert_eq!(seen.len(), 4);
}

/// "31, add or finish with no build open, or finish with none added, before all
/// else", and the build with none added stays open.
#[test]
fn no_build() {
    let mut filling = Filling::new();
    for record in [&[][..], &[0xC5, 0x51, 1, 1], &[0; 4], &[0; 9]] {
        for length in [0, 8, 200] {
            let mut table = vec![7; length];
            assert_eq!(filling.add(record, &mut table), Err(31));
            assert_eq!(filling.finish(&mut table), Err(31));
            assert_eq!(table, vec![7; length]);
        }
    }
    let mut table = vec![7; 200];
    filling.begin(3, 50, &mut table).unwrap();
    for length in [0, 7, 8, 200] {
        assert_eq!(filling.finish(&mut table[..length]), Err(31));
    }
    assert_eq!(filling.add(&record(5, 1), &mut table), Ok(()));
    assert!(filling.finish(&mut table).is_ok());
    // Closed now.
    assert_eq!(filling.finish(&mut table), Err(31));
    assert_eq!(filling.add(&record(5, 1), &mut table), Err(31));
}

/// "30, a ninth condition, next": any record, in any length.
#[test]
fn ninth_condition() {
    let mut table = vec![0; 2_000];
    let mut filling = begun(3, 50, &[(5, 1); 8], &mut table);
    let open = table.clone();
    for ninth in [&[][..], &record(1, 1), &record(1, 0), &[0xC4; 4], &[1; 7]] {
        for length in [0, 8, 2_000] {
            assert_eq!(filling.add(ninth, &mut table[..length]), Err(30));
        }
    }
    assert_eq!(table, open);
    assert_eq!(filling.begin(3, 50, &mut table), Ok(()));
    assert_eq!(filling.add(&record(5, 16), &mut table), Ok(()));
}

/// "11 where its gates do not fit; finish gives 11 likewise": one byte decides, and
/// after it the build is open and goes on.
#[test]
fn one_byte_decides() {
    let mut random = Random::new(84);
    for _ in 0..60 {
        let p = random.pick(&PRIMES[..10]);
        let conditions = draw_conditions(&mut random);
        let mut table = vec![3; 20_000];
        let mut filling = begun(p, 90, &[], &mut table[..8]);
        for count in 1..=conditions.len() {
            let room = 8 * (gates_so_far(p, &conditions[..count]) + 1);
            let (relation, n) = conditions[count - 1];
            let record = record(relation, n);
            assert_eq!(filling.add(&record, &mut table[..room - 1]), Err(11));
            assert_eq!(filling.add(&record, &mut table[..room]), Ok(()));
            // Less than the table has already, also where finish writes no gate.
            assert_eq!(filling.finish(&mut table[..room - 1]), Err(11));
        }
        let one_go = one_go(&card(p, 90, &conditions));
        let room = one_go.len();
        assert_eq!(filling.finish(&mut table[..room - 1]), Err(11));
        assert!(filling.finish(&mut table[..room]).is_ok());
        assert_eq!(table[..room], one_go);
        assert!(table[room..].iter().all(|&byte| byte == 3));
    }
}

/// "An accepted begin starts afresh, also over an open build", while a refused one
/// leaves it open as it is.
#[test]
fn begin_over_an_open_build() {
    let mut random = Random::new(85);
    for _ in 0..60 {
        let [first, second] = [(); 2].map(|()| draw_conditions(&mut random));
        let [p, q] = [(); 2].map(|()| random.pick(&PRIMES[..8]));
        let mut table = vec![0; 20_000];
        let mut filling = begun(p, 50, &first, &mut table);
        let (open, state) = (table.clone(), filling.clone());
        assert_eq!(filling.begin(15, 50, &mut table), Err(3));
        assert_eq!(filling.begin(q, 49, &mut table), Err(4));
        assert_eq!(filling.begin(q, 50, &mut table[..7]), Err(11));
        assert_eq!((&table, &filling), (&open, &state));
        assert_eq!(filling.begin(q, 80, &mut table), Ok(()));
        assert_eq!(table[8..], open[8..]);
        assert_eq!(check(&table), Err(13));
        for &(relation, n) in &second {
            assert_eq!(filling.add(&record(relation, n), &mut table), Ok(()));
        }
        let mut built = open;
        let said = build(&card(q, 80, &second), &mut built);
        assert_eq!(filling.finish(&mut table), said);
        assert_eq!(table, built);
    }
}

/// Add and finish read no byte of the table: over other bytes they write the same
/// ones, the head and their own gates, and keep all others.
#[test]
fn no_byte_of_the_table_is_read() {
    let mut random = Random::new(86);
    for _ in 0..60 {
        let p = random.pick(&PRIMES[..8]);
        let conditions = draw_conditions(&mut random);
        let (last, earlier) = conditions.split_last().unwrap();
        let mut filling = begun(p, 50, earlier, &mut vec![0; 20_000]);
        let found = draw_bytes(&mut random, 20_000);
        let mut table = found.clone();
        assert_eq!(filling.add(&record(last.0, last.1), &mut table), Ok(()));
        let [start, end] = [earlier, &conditions].map(|c| 8 * (gates_so_far(p, c) + 1));
        let mut expected = found.clone();
        put_open_table(&mut expected, p, 50, &conditions);
        expected[8..start].copy_from_slice(&found[8..start]);
        assert_eq!(table, expected);
        let mut table = found.clone();
        let one_go = one_go(&card(p, 50, &conditions));
        assert!(filling.finish(&mut table).is_ok());
        let mut expected = found;
        expected[..8].copy_from_slice(&one_go[..8]);
        expected[end..one_go.len()].copy_from_slice(&one_go[end..]);
        assert_eq!(table, expected);
    }
}
