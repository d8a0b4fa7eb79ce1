//! The proved library against the second program: random and damaged cards, tables and lists,
//! every answer and every byte of every lent buffer, every entry of every lent list, and what is
//! around it.
//!
//! STAPLETHREAD_ROUNDS sets how many rounds each test takes, but for `each_word` and
//! `each_constant`, which take each word, and each b of a SCALE at each prime, once, and
//! `depth_caps`, which takes one round for ten of the others.

use second::card::{
    card_bytes, score_card_bytes, shared_card_bytes, Card, Form, SCORE_HEAD_MARK, SHARED_HEAD_MARK,
};
use second::Random;
use std::cmp::Ordering;
use std::collections::BTreeMap;

mod compared;
mod shapes;

use compared::*;

/// The library finds the best step size by writing the table of each: for sixteen digits at p = 251
/// that takes some five hundred times as long as Build.
const ROUNDS_FOR_ONE_CAP: u64 = 10;

/// The same of u16.
fn drawn_entries(random: &mut Random, length: usize) -> Vec<u16> {
    bytes_of(random.next_u64(), 2 * (length + 2 * MARGIN))
        .chunks_exact(2)
        .map(|pair| u16::from_le_bytes([pair[0], pair[1]]))
        .collect()
}

/// A card of any form.
fn card(random: &mut Random) -> Vec<u8> {
    match random.below(3) {
        0 => score_card(random),
        1 => shared_card(random),
        _ => plain_card(random),
    }
}

/// A plain card that is accepted but for a digit count of more than 16 in all.
fn plain_card(random: &mut Random) -> Vec<u8> {
    let count = 1 + random.byte_below(8);
    let conditions: Vec<_> = (0..count).map(|_| condition(random, count)).collect();
    card_bytes(prime(random), square_weight(random), &conditions)
}

/// A score card that is accepted but for a digit count of more than 16 in all, or a total weight
/// of p or more.
fn score_card(random: &mut Random) -> Vec<u8> {
    let p = prime(random);
    // More than p-1 conditions have no weights that are accepted.
    let most = if rarely(random, 16) { 8 } else { 8.min(p - 1) };
    let count = 1 + random.byte_below(most);
    let conditions: Vec<_> = condition_weights(random, p, count)
        .into_iter()
        .map(|weight| {
            let (relation, digits) = condition(random, count);
            (relation, digits, weight)
        })
        .collect();
    score_card_bytes(p, square_weight(random), &conditions)
}

/// A shared card that is accepted but for a digit count of more than 16 in all, or left slots
/// beyond the last one. Most first slots are low, so that conditions share slots or overlap.
fn shared_card(random: &mut Random) -> Vec<u8> {
    let count = 1 + random.byte_below(8);
    let conditions: Vec<_> = (0..count)
        .map(|_| {
            let (relation, digits) = condition(random, count);
            (relation, digits, first_slot(random, digits))
        })
        .collect();
    shared_card_bytes(prime(random), square_weight(random), &conditions)
}

/// A first left slot for so many digits: one of the first, any that leaves room for them, the last
/// such, or now and then one too high.
fn first_slot(random: &mut Random, digits: u8) -> u8 {
    let last = 16 - digits;
    match random.below(32) {
        0 => last + 1,
        1..=3 => last,
        4..=11 => random.byte_below(last + 1),
        _ => random.byte_below(3).min(last),
    }
}

/// Weights of 1 and more. Where p has room for so many, their total is below p; sometimes it is
/// just p-1, and now and then p.
fn condition_weights(random: &mut Random, p: u8, count: u8) -> Vec<u8> {
    let mut weights = vec![1; usize::from(count)];
    let mut rest = (p - 1).saturating_sub(count);
    for weight in &mut weights {
        let more = random.byte_below(rest / 2 + 1);
        *weight += more;
        rest -= more;
    }
    let place = random.below(u64::from(count)) as usize;
    match random.below(16) {
        0..=3 => weights[place] += rest,
        4 => weights[place] += rest + 1,
        _ => {}
    }
    weights
}

/// Other bytes at a few places, mostly among the first ones; sometimes cut short or made longer.
fn damage(random: &mut Random, bytes: &mut Vec<u8>) {
    for _ in 0..random.below(3) {
        if bytes.is_empty() {
            break;
        }
        let most = if rarely(random, 2) {
            bytes.len().min(16)
        } else {
            bytes.len()
        };
        let place = random.below(most as u64) as usize;
        bytes[place] = odd_byte(random);
    }
    match random.below(12) {
        0 => bytes.truncate(random.below(bytes.len() as u64 + 1) as usize),
        1 => bytes.push(odd_byte(random)),
        2 => bytes.extend_from_slice(&[0xC5, 0x51, 1, 1]),
        3 => bytes.extend_from_slice(&[0xC5, 0x57, 1, 1, 1, 0]),
        4 => bytes.extend_from_slice(&[0xC5, 0x52, 1, 1, 0, 0]),
        _ => {}
    }
}

#[test]
fn cards() {
    let mut random = Random::new(1);
    // What came up by cards with a score card's head mark, a shared card's, and by all others.
    let mut scores = (Seen::default(), Seen::default());
    let mut shared = (Seen::default(), Seen::default());
    let mut others = (Seen::default(), Seen::default());
    for _ in 0..rounds() {
        let mut card = card(&mut random);
        if rarely(&mut random, 2) {
            damage(&mut random, &mut card);
        }
        let (forecast, built) = if card.starts_with(&SCORE_HEAD_MARK) {
            &mut scores
        } else if card.starts_with(&SHARED_HEAD_MARK) {
            &mut shared
        } else {
            &mut others
        };
        let before = card.clone();
        let told = of_library(staplethread::forecast(&card));
        assert_eq!(told, of_second(second::forecast(&card)), "{card:02X?}");
        forecast.note(&told);
        let needed = told.as_ref().map_or(64, |r| 8 * (usize::from(r.0) + 1));
        let length = room(&mut random, needed);
        let (answer, _) = compare_lent(
            drawn_bytes(&mut random, length),
            &card,
            |table| of_library(staplethread::build(&card, table)),
            |table| of_second(second::build(&card, table)),
        );
        built.note(&answer);
        assert_eq!(card, before);
    }
    let (forecast, built) = others;
    forecast.expect("forecast", &[0, 1, 2, 3, 4, 5, 6, 7, 8, 9, 10]);
    built.expect("build", &[0, 1, 2, 3, 4, 5, 6, 7, 8, 9, 10, 11]);
    let (forecast, built) = scores;
    forecast.expect(
        "forecast of score cards",
        &[0, 1, 2, 3, 4, 5, 6, 7, 8, 9, 10, 25, 26],
    );
    built.expect(
        "build of score cards",
        &[0, 1, 2, 3, 4, 5, 6, 7, 8, 9, 10, 11, 25, 26],
    );
    let (forecast, built) = shared;
    forecast.expect(
        "forecast of shared cards",
        &[0, 1, 2, 3, 4, 5, 6, 7, 8, 9, 10, 28],
    );
    built.expect(
        "build of shared cards",
        &[0, 1, 2, 3, 4, 5, 6, 7, 8, 9, 10, 11, 28],
    );
}

/// A table that Build wrote.
fn built_table(random: &mut Random) -> Vec<u8> {
    loop {
        let card = card(random);
        if let Ok(report) = second::forecast(&card) {
            if report.gates < 1_000 || rarely(random, 20) {
                let mut table = vec![0; 8 * (usize::from(report.gates) + 1)];
                second::build(&card, &mut table).expect("it has room");
                return table;
            }
        }
    }
}

/// A constant of either sign, and often one at an end of the range.
fn constant(random: &mut Random, p: u8) -> i16 {
    let most = i16::from(p / 2);
    match random.below(8) {
        0 => most,
        1 => -most,
        _ => i16::from(random.byte_below(p)) - most,
    }
}

/// A constant as a record has it.
fn bits(constant: i16) -> u64 {
    constant.cast_unsigned().into()
}

/// Just beyond an end of the range, a number from there to p-1, as constants were, or any.
fn stray_constant(random: &mut Random, p: u8) -> i16 {
    let beyond = i16::from(p / 2) + 1;
    match random.below(4) {
        0 => beyond,
        1 => -beyond,
        2 => beyond + i16::from(random.byte_below(p / 2)),
        _ => random.next_u64() as i16,
    }
}

/// A table of gates that no card gives, with one slot count or two; now and then some constants of
/// it break their rule.
fn drawn_table(random: &mut Random) -> Vec<u8> {
    let most = if rarely(random, 200) { 8191 } else { 60 };
    let gates = 1 + random.below(most) as u16;
    let p = prime(random);
    let [low, high] = gates.to_le_bytes();
    let weight = 50 + random.byte_below(51);
    let has_strays = rarely(random, 8);
    let count = 1 + random.byte_below(16);
    let mut table = if rarely(random, 2) {
        vec![0x47, 0x48, p, weight, count, 0, low, high]
    } else {
        let right = 1 + random.byte_below(16);
        vec![0x47, 0x4A, p, weight, count, right, low, high]
    };
    let (left_slots, right_slots) = shapes::slot_counts(&table);
    // Now and then a slot is one that only the other side may have.
    let has_stray_slots = rarely(random, 8);
    let slots = |own: u8, other: u8| if has_stray_slots { own.max(other) } else { own };
    for number in 0..gates {
        let kind = match number {
            0 => 1 + random.byte_below(2),
            _ => 1 + random.byte_below(7),
        };
        let earlier = |random: &mut Random| random.below(u64::from(number) + 1).saturating_sub(1);
        let a = match kind {
            1 => random.below(slots(left_slots, right_slots).into()),
            2 => random.below(slots(right_slots, left_slots).into()),
            _ => earlier(random),
        };
        let b = match kind {
            3 | 4 => earlier(random),
            5 if has_strays && rarely(random, 4) => bits(stray_constant(random, p)),
            5 => bits(constant(random, p)),
            7 if rarely(random, 2) => a,
            7 => earlier(random),
            _ => 0,
        };
        table.extend_from_slice(&[0x47, 0x54, kind, 0]);
        table.extend_from_slice(&(a as u16).to_le_bytes());
        table.extend_from_slice(&(b as u16).to_le_bytes());
    }
    table
}

fn table(random: &mut Random) -> Vec<u8> {
    let mut table = if rarely(random, 2) {
        built_table(random)
    } else {
        drawn_table(random)
    };
    if rarely(random, 3) {
        damage(random, &mut table);
    } else if rarely(random, 3) {
        table.extend(bytes_of(random.next_u64(), 20));
    }
    table
}

/// A list for Run: mostly right, sometimes of another length or with a value of p or more.
fn list(random: &mut Random, p: u8, slots: usize) -> Vec<u8> {
    let length = match random.below(16) {
        0 => slots + 1,
        1 => slots.saturating_sub(1),
        _ => slots,
    };
    let mut list = random.bytes_below(p.max(1), length);
    if rarely(random, 12) && length > 0 {
        list[random.below(length as u64) as usize] = p;
    }
    list
}

/// What both sides answer to a last-use list of so many entries.
fn compare_last_uses(random: &mut Random, table: &[u8], length: usize) -> Result<u16, u8> {
    let (gates, _) = compare_lent(
        drawn_entries(random, length),
        &table,
        |list| number_of(staplethread::last_uses(table, list)),
        |list| second::last_uses(table, list),
    );
    gates
}

#[test]
fn tables() {
    let mut random = Random::new(2);
    // What came up by tables whose head mark is that of two slot counts, and by all others.
    let mut two = (Seen::default(), Seen::default(), Seen::default());
    let mut one = (Seen::default(), Seen::default(), Seen::default());
    for _ in 0..rounds() {
        let table = table(&mut random);
        let (checked, run, listed) = if table.starts_with(&shapes::TWO_COUNTS_MARK) {
            &mut two
        } else {
            &mut one
        };
        let before = table.clone();
        let answer = compare_check(&table);
        checked.note(&answer);
        let part = staplethread::trim(&table);
        assert_eq!(part, second::trim(&table));
        assert!(part.is_empty() || std::ptr::eq(part.as_ptr(), table.as_ptr()));
        let p = table.get(2).copied().unwrap_or(3);
        let mut counts = shapes::slot_counts(&table);
        if rarely(&mut random, 12) {
            // Each side's list as long as the other's should be.
            counts = (counts.1, counts.0);
        }
        let left = list(&mut random, p, usize::from(counts.0 % 32));
        let right = list(&mut random, p, usize::from(counts.1 % 32));
        let gates = answer.as_ref().map_or(7, |r| usize::from(r.0));
        let length = room(&mut random, gates);
        run.note(&compare_run(&mut random, &table, &left, &right, length));
        let length = room(&mut random, gates);
        listed.note(&compare_last_uses(&mut random, &table, length));
        assert_eq!(table, before);
    }
    for (heads, (checked, run, listed)) in [("one slot count", one), ("two slot counts", two)] {
        checked.expect(
            &format!("check, {heads}"),
            &[0, 2, 3, 4, 5, 12, 13, 14, 15, 16, 17],
        );
        run.expect(
            &format!("run, {heads}"),
            &[0, 2, 3, 4, 5, 12, 13, 14, 15, 16, 17, 18, 19, 20],
        );
        listed.expect(
            &format!("last_uses, {heads}"),
            &[0, 2, 3, 4, 5, 12, 13, 14, 15, 16, 17, 27],
        );
    }
}

/// A plain card for the search of a step size: mostly of few digits and at a small prime, as all step
/// sizes are tried; now and then of up to 16 digits, and at any prime.
fn card_to_search(random: &mut Random) -> Vec<u8> {
    if rarely(random, 8) {
        return plain_card(random);
    }
    let p = if rarely(random, 16) {
        random.pick(&second::field::PRIMES)
    } else {
        random.pick(&[3, 3, 5, 7, 7, 11, 11, 13, 17, 19, 23, 29, 31, 37])
    };
    let conditions: Vec<_> = (0..1 + random.below(3))
        .map(|_| (1 + random.byte_below(6), random.pick(&[1, 1, 2, 3])))
        .collect();
    let weight = match random.below(4) {
        0 => 50,
        1 => 100,
        _ => square_weight(random),
    };
    card_bytes(p, weight, &conditions)
}

/// A cap about the depth of a card's table, or of any size.
fn depth_cap(random: &mut Random, depth: u16) -> u16 {
    match random.below(12) {
        0 => 0,
        1 => u16::MAX,
        2 => random.below(12) as u16,
        3 => random.next_u64() as u16,
        4 => depth - 1,
        5 | 6 => depth + 1,
        7 => depth + 2,
        _ => depth,
    }
}

/// No table is longer.
const LONGEST_TABLE: usize = 65_536;

/// How many bytes the two tables take, by the second program; where it refuses, some.
fn two_lengths(card: &[u8], cap: u16) -> (usize, usize) {
    let (mut first, mut second) = (vec![0; LONGEST_TABLE], vec![0; LONGEST_TABLE]);
    match second::build_within(card, cap, &mut first, &mut second) {
        Ok(_) => (second::trim(&first).len(), second::trim(&second).len()),
        Err(_) => (64, 64),
    }
}

/// Two buffers with a margin between them, of one that is lent.
fn in_two(lent: &mut [u8], first_length: usize) -> (&mut [u8], &mut [u8]) {
    let (first, rest) = lent.split_at_mut(first_length);
    (first, &mut rest[MARGIN..])
}

/// Which table is handed back, 1 or 2, how many bytes of it, and the five numbers.
type Handed = (u8, usize, Numbers);

/// What both sides answer to two buffers of such lengths, and what they leave in the two.
fn compare_build_within(
    random: &mut Random,
    card: &[u8],
    cap: u16,
    lengths: (usize, usize),
) -> (Result<Handed, u8>, [Vec<u8>; 2]) {
    let (answer, mut lent) = compare_lent(
        drawn_bytes(random, lengths.0 + MARGIN + lengths.1),
        &(card, cap, lengths),
        |lent| {
            let (first, second) = in_two(lent, lengths.0);
            number_of(library_build_within(card, cap, first, second))
        },
        |lent| {
            let (first, second) = in_two(lent, lengths.0);
            second::build_within(card, cap, first, second)
                .map(|offer| (offer.which, offer.length, second_numbers(offer.report)))
        },
    );
    let (first, second) = in_two(&mut lent, lengths.0);
    (answer, [first.to_vec(), second.to_vec()])
}

/// The library's answer, and that the part is the start of the buffer which it says, a table from end
/// to end, and reported on as Check does.
fn library_build_within(
    card: &[u8],
    cap: u16,
    first: &mut [u8],
    second: &mut [u8],
) -> Result<Handed, staplethread::Refusal> {
    let starts = (first.as_ptr(), second.as_ptr());
    let part = staplethread::build_within(card, staplethread::Depth(cap), first, second)?;
    let (which, start) = match part.which {
        staplethread::Which::First => (1, starts.0),
        staplethread::Which::Second => (2, starts.1),
    };
    assert!(std::ptr::eq(part.bytes.as_ptr(), start), "{card:02X?}");
    assert_eq!(part.bytes.len(), part.report.table_bytes(), "{card:02X?}");
    assert_eq!(staplethread::trim(part.bytes), part.bytes, "{card:02X?}");
    assert_eq!(
        staplethread::check(part.bytes),
        Ok(part.report),
        "{card:02X?}"
    );
    Ok((which, part.bytes.len(), library_numbers(part.report)))
}

/// A table's output is the truth about a drawn record and query.
fn expect_truth(random: &mut Random, card: &[u8], table: &[u8]) {
    let base = card[2] / 2 + 1;
    let left = random.bytes_below(base, table[4].into());
    let mut right = left.clone();
    for digit in &mut right {
        if rarely(random, 3) {
            *digit = random.byte_below(base);
        }
    }
    let truth = second::expected_output(card, &left, &right).expect("digits below B");
    let mut work = vec![0; table.len() / 8 - 1];
    let output = staplethread::run(table, &left, &right, &mut work).map(u16::from);
    assert_eq!(output, Ok(truth), "{card:02X?} {left:?} {right:?}");
}

/// Two tables of a plain card within a depth cap.
#[test]
fn depth_caps() {
    let mut random = Random::new(9);
    let mut plain = Seen::default();
    let mut others = Seen::default();
    // Which table costs less, where both are written: the first, neither, the second.
    let mut cheaper = [0u64; 3];
    // Which buffer was too short: the first, the second, both.
    let mut short = [0u64; 3];
    let mut deeper = 0;
    for _ in 0..rounds() / ROUNDS_FOR_ONE_CAP {
        let mut card = match random.below(16) {
            0 => score_card(&mut random),
            1 => shared_card(&mut random),
            _ => card_to_search(&mut random),
        };
        if rarely(&mut random, 3) {
            damage(&mut random, &mut card);
        }
        let before = card.clone();
        let base = second::forecast(&card).map_or(8, |report| report.depth.0);
        let cap = depth_cap(&mut random, base);
        let needed = two_lengths(&card, cap);
        let lengths = if rarely(&mut random, 2) {
            (room(&mut random, needed.0), room(&mut random, needed.1))
        } else {
            needed
        };
        let (answer, lent) = compare_build_within(&mut random, &card, cap, lengths);
        assert_eq!(card, before);
        if card.starts_with(&SCORE_HEAD_MARK) || card.starts_with(&SHARED_HEAD_MARK) {
            others.note(&answer);
        } else {
            plain.note(&answer);
        }
        match answer {
            Ok((which, _, _)) => {
                let tables = [&lent[0][..needed.0], &lent[1][..needed.1]];
                let [first, second] = tables.map(|table| {
                    expect_truth(&mut random, &card, table);
                    compare_check(table).expect("it was written")
                });
                let (costs, depths) = ((first.3, second.3), (first.4, second.4));
                assert!(depths.0 <= cap && depths.1 <= cap, "{card:02X?} {cap}");
                assert_eq!(which == 1, costs.0 <= costs.1, "{card:02X?} {cap}");
                cheaper[match costs.0.cmp(&costs.1) {
                    Ordering::Less => 0,
                    Ordering::Equal => 1,
                    Ordering::Greater => 2,
                }] += 1;
                deeper += u64::from(depths.1 > depths.0);
            }
            Err(11) => {
                short[match (lengths.0 < needed.0, lengths.1 < needed.1) {
                    (true, false) => 0,
                    (false, true) => 1,
                    (true, true) => 2,
                    (false, false) => panic!("there is room: {card:02X?} {cap}"),
                }] += 1;
            }
            Err(_) => {}
        }
    }
    plain.expect("build_within", &[0, 1, 2, 3, 4, 5, 6, 7, 8, 9, 10, 11, 29]);
    others.expect("build_within of other forms", &[2]);
    assert!(others.0.keys().all(|answer| [1, 2].contains(answer)));
    println!("build_within: cheaper {cheaper:?}, second deeper {deeper}, too short {short:?}");
    assert!(cheaper.iter().chain(&short).all(|&count| count > 0) && deeper > 0);
}

/// A gate number below `number`: one of the first few, one of the last few, or any.
fn near_or_far(random: &mut Random, number: u16) -> u16 {
    let few = u64::from(number.min(4));
    match random.below(8) {
        0..=2 => random.below(few) as u16,
        3..=6 => number - 1 - random.below(few) as u16,
        _ => random.below(number.into()) as u16,
    }
}

/// A table of products above all, over few gates, so that many are over a pair that another has,
/// and many are not used.
fn table_of_products(random: &mut Random) -> Vec<u8> {
    let most = match random.below(400) {
        0 => 8191,
        1..=4 => 2_060,
        5..=20 => 270,
        _ => 40,
    };
    let count = 1 + random.below(most) as u16;
    let gates: Vec<shapes::Gate> = (0..count)
        .map(|number| {
            let kind = match random.below(16) {
                _ if number == 0 => 1,
                0 => 1 + random.byte_below(2),
                1..=4 => 3 + random.byte_below(4),
                _ => 7,
            };
            match kind {
                1 | 2 => (kind, 0, 0),
                5 => (5, near_or_far(random, number), 0),
                6 => (6, near_or_far(random, number), 0),
                7 if rarely(random, 3) => {
                    let a = near_or_far(random, number);
                    (7, a, a)
                }
                _ => {
                    let a = near_or_far(random, number);
                    (kind, a, near_or_far(random, number))
                }
            }
        })
        .collect();
    shapes::table_of(&gates)
}

/// How many records of a table are MULs, whatever uses them.
fn products_in_records(table: &[u8]) -> usize {
    table[8..].chunks(8).filter(|gate| gate[2] == 7).count()
}

/// Tables in which products are unused and pairs come again, in the smallest and the largest sizes.
#[test]
fn used_products() {
    let mut random = Random::new(8);
    let (mut fewer, mut none, mut all) = (0, 0, 0);
    for _ in 0..rounds() {
        let table = table_of_products(&mut random);
        let (_, products, squares, _, _) = compare_check(&table).expect("every rule is kept");
        let counted = usize::from(products) + usize::from(squares);
        let written = products_in_records(&table);
        assert!(counted <= written);
        match counted {
            0 => none += 1,
            _ if counted == written => all += 1,
            _ => fewer += 1,
        }
    }
    println!("used_products: fewer {fewer} none {none} all {all}");
    assert!(fewer > rounds() / 2 && none > rounds() / 100 && all > rounds() / 100);
}

/// One shape after the other, where arrays end and begin and at the ends of what a table may have.
#[test]
fn shapes_of_each_size() {
    let sizes = [
        6, 7, 8, 9, 255, 256, 257, 1_000, 2_047, 2_048, 2_049, 4_000, 8_190, 8_191,
    ];
    for shape in shapes::SHAPES {
        for count in sizes {
            let table = shapes::table_of(&(shape.gates)(count));
            let (gates, products, squares, _, _) = compare_check(&table).expect(shape.name);
            let expected = (count, (shape.products)(count), (shape.squares)(count));
            assert_eq!((gates, products, squares), expected, "{}", shape.name);
        }
    }
}

/// A LEFT and a second gate, whose record opens with a word and has operands that every kind may
/// have.
fn table_of_word(word: u32) -> [u8; 24] {
    let mut table = [
        0x47, 0x48, 251, 75, 1, 0, 2, 0, //
        0x47, 0x54, 1, 0, 0, 0, 0, 0, //
        0, 0, 0, 0, 0, 0, 0, 0,
    ];
    table[16..20].copy_from_slice(&word.to_le_bytes());
    table
}

/// A word that is fine, or with a bit or some bytes changed; or any.
fn word(random: &mut Random) -> u32 {
    let mut bytes = [0x47, 0x54, 1 + random.byte_below(7), 0];
    let fine = u32::from_le_bytes(bytes);
    match random.below(4) {
        0 => fine,
        1 => fine ^ (1 << random.below(32)),
        2 => {
            for _ in 0..1 + random.below(3) {
                bytes[random.below(4) as usize] = odd_byte(random);
            }
            u32::from_le_bytes(bytes)
        }
        _ => random.next_u64() as u32,
    }
}

#[test]
fn words() {
    let mut random = Random::new(6);
    let mut checked = Seen::default();
    let mut run = Seen::default();
    for _ in 0..rounds() {
        let table = table_of_word(word(&mut random));
        checked.note(&compare_check(&table));
        run.note(&compare_run(&mut random, &table, &[5], &[9], 2));
    }
    checked.expect("check of a word", &[0, 2, 5, 16]);
    run.expect("run of a word", &[0, 2, 5, 16]);
}

/// Each of the 2^32 words: the compiled library's verdict is the second program's. Seven are fine,
/// 256 less seven have another kind, 255 times 256 a spare, all others another mark.
#[test]
#[ignore = "takes minutes"]
fn each_word() {
    let mut seen = Seen::default();
    for word in 0..=u32::MAX {
        seen.note(&compare_check(&table_of_word(word)));
    }
    let counts = [
        (0, 7),
        (2, (1 << 32) - (1 << 16)),
        (5, 255 * 256),
        (16, 249),
    ];
    assert_eq!(seen.0, BTreeMap::from(counts));
}

/// A LEFT and a SCALE of it.
fn table_of_scale(p: u8, b: u16) -> [u8; 24] {
    let [low, high] = b.to_le_bytes();
    [
        0x47, 0x48, p, 75, 1, 0, 2, 0, //
        0x47, 0x54, 1, 0, 0, 0, 0, 0, //
        0x47, 0x54, 5, 0, 0, 0, low, high,
    ]
}

/// Each b of a SCALE at each prime: p of them are constants, the others give 17. Each constant
/// times each value is what the second program says.
#[test]
fn each_constant() {
    let mut random = Random::new(7);
    for p in second::field::PRIMES {
        let mut seen = Seen::default();
        for b in 0..=u16::MAX {
            let table = table_of_scale(p, b);
            let answer = compare_check(&table);
            seen.note(&answer);
            if answer.is_ok() {
                for value in 0..p {
                    let output = compare_run(&mut random, &table, &[value], &[0], 2);
                    assert!(output.is_ok());
                }
            }
        }
        let constants = u64::from(p);
        let counts = [(0, constants), (17, 65_536 - constants)];
        assert_eq!(seen.0, BTreeMap::from(counts), "{p}");
    }
}

/// 0 where the score says that no condition holds, 1 where some do, 2 where all do.
fn part_of(score: u16, total: u16) -> usize {
    usize::from(score > 0) + usize::from(score == total)
}

/// The output that the library computes is the truth about the numbers: the yes or no of a plain
/// or a shared card, the score of a score card.
#[test]
fn outputs() {
    let mut random = Random::new(3);
    let mut bits = [0u64; 2];
    let mut shared_bits = [0u64; 2];
    let mut scores = [0u64; 3];
    for _ in 0..rounds() {
        let card = card(&mut random);
        let Ok(report) = staplethread::forecast(&card) else {
            continue;
        };
        let mut table = vec![0; report.table_bytes()];
        assert_eq!(staplethread::build(&card, &mut table), Ok(report));
        let read = Card::read(&card).expect("the library has accepted it");
        let base = card[2] / 2 + 1;
        let left = random.bytes_below(base, usize::from(shapes::slot_counts(&table).0));
        // The number that each condition finds on the left, with some digits changed.
        let mut right: Vec<u8> = read
            .conditions
            .iter()
            .flat_map(|condition| left[condition.left_slots()].to_vec())
            .collect();
        for digit in &mut right {
            if rarely(&mut random, 3) {
                *digit = random.byte_below(base);
            }
        }
        let truth = second::expected_output(&card, &left, &right).expect("digits below B");
        let mut work = vec![0; usize::from(report.gates)];
        let output = staplethread::run(&table, &left, &right, &mut work).map(u16::from);
        assert_eq!(output, Ok(truth), "{card:02X?} {left:?} {right:?}");
        match read.form {
            Form::Plain => bits[usize::from(truth)] += 1,
            Form::Shared => shared_bits[usize::from(truth)] += 1,
            Form::Score => scores[part_of(truth, read.total_weight())] += 1,
        }
    }
    println!("outputs: {bits:?}, of shared cards: {shared_bits:?}, scores: {scores:?}");
    let counts = bits.iter().chain(&shared_bits).chain(&scores);
    assert!(counts.into_iter().all(|&count| count > 0));
}

fn any_prime(random: &mut Random) -> u8 {
    if rarely(random, 8) {
        odd_byte(random)
    } else {
        prime(random)
    }
}

#[test]
fn encodings() {
    let mut random = Random::new(4);
    let mut seen = Seen::default();
    for _ in 0..rounds() {
        let p = any_prime(&mut random);
        let n = random.below(18) as usize;
        let number = random.next_u64() >> random.below(64);
        let length = room(&mut random, n);
        let (answer, lent) = compare_lent(
            drawn_bytes(&mut random, length),
            &(p, n, number),
            |out| number_of(staplethread::encode(p, n, number, out)),
            |out| second::encode(p, n, number, out),
        );
        if answer.is_ok() {
            assert_eq!(staplethread::decode(p, &lent[..n]), Ok(number));
        }
        seen.note(&answer);
    }
    seen.expect("encode", &[0, 3, 9, 21, 22]);
}

#[test]
fn decodings() {
    let mut random = Random::new(5);
    let mut seen = Seen::default();
    for _ in 0..rounds() {
        let p = any_prime(&mut random);
        let n = random.below(18) as usize;
        let base = p / 2 + 1;
        let mut digits = random.bytes_below(base, n);
        if rarely(&mut random, 4) && n > 0 {
            digits[random.below(n as u64) as usize] = random.pick(&[base, base - 1, 255]);
        }
        let answer = number_of(staplethread::decode(p, &digits));
        assert_eq!(answer, second::decode(p, &digits), "{p} {digits:?}");
        seen.note(&answer);
    }
    seen.expect("decode", &[0, 3, 9, 23, 24]);
}
