//! The last-use list: against its sentence, read word by word, on drawn tables,
//! on built ones and on those of the case script.

use second::card::{
    card_bytes as card, score_card_bytes as score_card, shared_card_bytes as shared_card,
};
use second::field::PRIMES;
use second::table::{Gate, Head, Kind, Slots};
use second::{answers, build, cases, check, forecast, last_uses, trim, Random};

mod record;
mod replay;
use record::{operands, reads};
use replay::each_question;

/// What each gate of a table reads, by `reads` or by another rule. Just the
/// table, without later bytes, is given.
fn all_reads(table: &[u8], reads: impl Fn(&[u8]) -> Vec<usize>) -> Vec<Vec<usize>> {
    table[8..].chunks(8).map(reads).collect()
}

/// "The number of the last gate that reads it, or its own number where none
/// does."
fn said(reads: &[Vec<usize>]) -> Vec<u16> {
    let last_reader = |gate| (0..reads.len()).rfind(|&reader| reads[reader].contains(&gate));
    (0..reads.len())
        .map(|gate| last_reader(gate).unwrap_or(gate) as u16)
        .collect()
}

/// Walks the table with each gate released as the list says, after that gate
/// has read: whether all that is read is still held, and all is released.
fn is_enough(reads: &[Vec<usize>], list: &[u16]) -> bool {
    let mut held = vec![false; reads.len()];
    for (number, operands) in reads.iter().enumerate() {
        if operands.iter().any(|&operand| !held[operand]) {
            return false;
        }
        held[number] = true;
        for (gate, &release) in list.iter().enumerate() {
            if usize::from(release) == number {
                if !held[gate] {
                    return false;
                }
                held[gate] = false;
            }
        }
    }
    held.iter().all(|&is_held| !is_held)
}

/// "By that list no gate is read after its release, and none could be released
/// at an earlier gate."
fn is_tight(reads: &[Vec<usize>], list: &[u16]) -> bool {
    (0..list.len()).all(|gate| {
        let mut earlier = list.to_vec();
        match earlier[gate].checked_sub(1) {
            Some(release) => earlier[gate] = release,
            None => return true,
        }
        !is_enough(reads, &earlier)
    })
}

/// The list of a table, with two entries more, which are kept.
fn listed(table: &[u8]) -> Vec<u16> {
    let gates = table.len() / 8 - 1;
    let mut list = vec![0xEEEE; gates + 2];
    assert_eq!(last_uses(table, &mut list[..gates - 1]), Err(27));
    assert_eq!(list, vec![0xEEEE; gates + 2]);
    assert_eq!(last_uses(table, &mut list), Ok(gates as u16));
    assert_eq!(list[gates..], [0xEEEE; 2]);
    list.truncate(gates);
    let mut exact = vec![0; gates];
    assert_eq!(last_uses(table, &mut exact), Ok(gates as u16));
    assert_eq!(exact, list);
    list
}

fn built(card: &[u8]) -> Vec<u8> {
    let mut table = vec![0; 8 * (usize::from(forecast(card).unwrap().gates) + 1)];
    build(card, &mut table).unwrap();
    table
}

/// A table of this many gates of all kinds. Their operands are at most `reach`
/// back, or now and then any.
fn random_table(random: &mut Random, gates: u16, reach: u16) -> Vec<u8> {
    let p = random.pick(&PRIMES);
    let slots = 1 + random.byte_below(16);
    let head = Head {
        p,
        weight: 50,
        slots: Slots::Both(slots),
        gates,
    };
    let mut bytes = head.record().to_vec();
    for number in 0..gates {
        let slot = u16::from(random.byte_below(slots));
        let constant = i16::from(random.byte_below(p)) - i16::from(p / 2);
        let mut lower = || match random.below(8) {
            0 => random.below(u64::from(number.max(1))) as u16,
            _ => number.saturating_sub(1 + random.below(u64::from(reach)) as u16),
        };
        let (a, b) = (lower(), lower());
        let kinds = if number == 0 { 2 } else { 8 };
        let (kind, a, b) = match random.below(kinds) {
            0 => (Kind::Left, slot, 0),
            1 => (Kind::Right, slot, 0),
            2 => (Kind::Add, a, b),
            3 => (Kind::Sub, a, b),
            4 => (Kind::Scale, a, constant.cast_unsigned()),
            5 => (Kind::Flip, a, 0),
            6 => (Kind::Mul, a, a),
            _ => (Kind::Mul, a, b),
        };
        bytes.extend(Gate { kind, a, b }.record());
    }
    bytes
}

#[test]
fn lists_of_small_tables() {
    let mut random = Random::new(9);
    for _ in 0..3_000 {
        let gates = 1 + random.below(40) as u16;
        let reach = 1 + random.below(40) as u16;
        let table = random_table(&mut random, gates, reach);
        let reads = all_reads(&table, reads);
        let list = listed(&table);
        assert_eq!(list, said(&reads), "{table:?}");
        assert!(is_enough(&reads, &list), "{table:?}");
        assert!(is_tight(&reads, &list), "{table:?}");
    }
}

#[test]
fn lists_of_large_tables() {
    let mut random = Random::new(10);
    for gates in (250..=1_200).step_by(50).chain([8_190, 8_191]) {
        for reach in [2, 300, gates] {
            let table = random_table(&mut random, gates, reach);
            assert_eq!(listed(&table), said(&all_reads(&table, reads)));
        }
    }
}

/// Each gate reads the one before it, or all read gate 0.
#[test]
fn lists_of_the_longest_chains() {
    let mut chain = vec![0x47, 0x48, 3, 50, 1, 0, 0xFF, 0x1F];
    chain.extend([0x47, 0x54, 1, 0, 0, 0, 0, 0]);
    let mut star = chain.clone();
    for number in 1..8_191u16 {
        let [low, high] = (number - 1).to_le_bytes();
        chain.extend([0x47, 0x54, 6, 0, low, high, 0, 0]);
        star.extend([0x47, 0x54, 7, 0, 0, 0, 0, 0]);
    }
    let mut expected: Vec<u16> = (1..8_191).chain([8_190]).collect();
    assert_eq!(listed(&chain), expected);
    expected = (0..8_191).collect();
    expected[0] = 8_190;
    assert_eq!(listed(&star), expected);
}

#[test]
fn lists_of_built_tables() {
    let mut cards = Vec::new();
    for relation in 1..=6 {
        for p in PRIMES {
            cards.push(card(p, 50, &[(relation, 1)]));
        }
        for (p, n) in [(3, 16), (5, 7), (7, 4), (31, 3), (127, 2)] {
            cards.push(card(p, 50, &[(relation, n)]));
            cards.push(card(p, 50, &[(relation, n - 1), (7 - relation, 1)]));
            cards.push(score_card(p, 50, &[(relation, n, p - 1)]));
            cards.push(score_card(p, 50, &[(relation, n - 1, 1), (5, 1, 1)]));
        }
        cards.push(card(13, 50, &[(relation, 2); 8]));
        cards.push(score_card(13, 50, &[(relation, 2, 1); 8]));
        cards.push(shared_card(13, 50, &[(relation, 2, 1); 8]));
        cards.push(shared_card(
            5,
            50,
            &[(relation, 3, 2), (4, 3, 0), (5, 1, 9)],
        ));
    }
    for card in &cards {
        let table = built(card);
        let reads = all_reads(&table, reads);
        let list = listed(&table);
        assert_eq!(list, said(&reads), "{card:?}");
        assert!(is_enough(&reads, &list), "{card:?}");
        // In a built table only the output is read by none.
        let unread = (0..).zip(&list).filter(|&(gate, &last)| gate == last);
        assert_eq!(unread.count(), 1, "{card:?}");
        if list.len() <= 100 {
            assert!(is_tight(&reads, &list), "{card:?}");
        }
    }
}

/// Lists that the walk turns away, and one that could be tighter.
#[test]
fn the_walk_tells_lists_apart() {
    let reads = [vec![], vec![], vec![0, 1], vec![2, 2], vec![0]];
    assert_eq!(said(&reads), [4, 2, 3, 3, 4]);
    assert!(is_enough(&reads, &[4, 2, 3, 3, 4]));
    assert!(is_tight(&reads, &[4, 2, 3, 3, 4]));
    // Released too early, not yet written, and never.
    assert!(!is_enough(&reads, &[2, 2, 3, 3, 4]));
    assert!(!is_enough(&reads, &[4, 2, 3, 2, 4]));
    assert!(!is_enough(&reads, &[4, 2, 3, 3, 5]));
    // Held for longer than needed.
    assert!(is_enough(&reads, &[4, 3, 3, 4, 4]));
    assert!(!is_tight(&reads, &[4, 3, 3, 3, 4]));
}

/// A line `last_uses` of the case script.
struct Asked<'a> {
    table: Vec<u8>,
    room: usize,
    answer: &'a str,
}

/// These lines, each with the table that the lines before it have made.
fn asked<'a>(script: &str, text: &'a str) -> Vec<Asked<'a>> {
    let mut answers = text.lines().filter(|line| line.starts_with("last_uses "));
    let mut asked = Vec::new();
    each_question(script, |words, table| {
        if words[0] == "last_uses" {
            asked.push(Asked {
                table: table.to_vec(),
                room: words[1].parse().unwrap(),
                answer: answers.next().unwrap().split_once(": ").unwrap().1,
            });
        }
    });
    asked
}

/// The lent entries as an answer has them.
fn shown(lent: &[u16]) -> String {
    let bytes: Vec<u8> = lent.iter().flat_map(|entry| entry.to_le_bytes()).collect();
    if bytes.is_empty() {
        "-".to_string()
    } else if lent.len() <= 20 {
        bytes.iter().map(|byte| format!("{byte:02X}")).collect()
    } else {
        let step = |sum: u64, &byte: &u8| (257 * sum + u64::from(byte)) % 65_521;
        format!("checksum {}", bytes.iter().fold(1, step))
    }
}

/// Each answer of the script is what the sentence says of its table, in an area
/// that is kept from line to line; only Check's verdict is taken as it is.
#[test]
fn answers_of_the_script() {
    let script = cases();
    let text = answers(&script);
    let mut uses = vec![9; 8_200];
    for line in asked(&script, &text) {
        let outcome = match check(&line.table) {
            Err(number) => format!("refused {number}"),
            Ok(report) if line.room < usize::from(report.gates) => "refused 27".to_string(),
            Ok(report) => {
                let list = said(&all_reads(trim(&line.table), reads));
                uses[..list.len()].copy_from_slice(&list);
                format!("gates {}", report.gates)
            }
        };
        let lent = shown(&uses[..line.room]);
        assert_eq!(line.answer, format!("{outcome}, lent {lent}"));
    }
}

/// The list of a table by a wrong turn.
type WrongList = Box<dyn Fn(&[u8]) -> Vec<u16>>;

/// A wrong turn in what a record reads.
fn misread(wrong: impl Fn(&[u8]) -> Vec<usize> + 'static) -> WrongList {
    Box::new(move |table| said(&all_reads(table, &wrong)))
}

/// For one kind, other operands than it reads.
fn misread_kind(kind: u8, wrong: fn([usize; 2]) -> Vec<usize>) -> WrongList {
    misread(move |record| {
        if record[2] == kind {
            wrong(operands(record))
        } else {
            reads(record)
        }
    })
}

/// A wrong turn in a gate's entry, which is made of the last reader if there is
/// one, the gate and the count of gates.
fn misenter(wrong: fn(Option<usize>, usize, usize) -> usize) -> WrongList {
    Box::new(move |table| {
        let reads = all_reads(table, reads);
        let count = reads.len();
        let last_reader = |gate| (0..count).rfind(|&reader| reads[reader].contains(&gate));
        (0..count)
            .map(|gate| wrong(last_reader(gate), gate, count) as u16)
            .collect()
    })
}

/// The first reader in the place of the last one.
fn first_readers(table: &[u8]) -> Vec<u16> {
    let reads = all_reads(table, reads);
    let first_reader = |gate| (0..reads.len()).find(|&reader| reads[reader].contains(&gate));
    (0..reads.len())
        .map(|gate| first_reader(gate).unwrap_or(gate) as u16)
        .collect()
}

/// Only gates that the output needs are readers.
fn needed_readers(table: &[u8]) -> Vec<u16> {
    let mut reads = all_reads(table, reads);
    let mut needed = vec![false; reads.len()];
    needed[reads.len() - 1] = true;
    for number in (0..reads.len()).rev() {
        if needed[number] {
            for &operand in &reads[number] {
                needed[operand] = true;
            }
        } else {
            reads[number].clear();
        }
    }
    said(&reads)
}

fn wrong_lists() -> Vec<(&'static str, WrongList)> {
    let mut wrong: Vec<(&str, WrongList)> = vec![
        ("slots of LEFT", misread_kind(1, |[a, _]| vec![a])),
        ("slots of RIGHT", misread_kind(2, |[a, _]| vec![a])),
        ("b of LEFT", misread_kind(1, |[_, b]| vec![b])),
        ("b of RIGHT", misread_kind(2, |[_, b]| vec![b])),
        ("b of FLIP", misread_kind(6, |[a, b]| vec![a, b])),
        ("constants", misread_kind(5, |[a, b]| vec![a, b])),
        (
            "constants without sign",
            misread_kind(5, |[a, b]| vec![a, b.min(0x10000 - b)]),
        ),
        (
            "low bytes of constants",
            misread_kind(5, |[a, b]| vec![a, b % 256]),
        ),
        ("SCALE left out", misread_kind(5, |_| vec![])),
        ("FLIP left out", misread_kind(6, |_| vec![])),
        (
            "low bytes of operands",
            misread(|record| reads(record).iter().map(|operand| operand % 256).collect()),
        ),
        (
            "squares left out",
            misread(|record| match operands(record) {
                [a, b] if a == b && record[2] > 2 => vec![],
                _ => reads(record),
            }),
        ),
        ("needed readers", Box::new(needed_readers)),
        ("first readers", Box::new(first_readers)),
        (
            "one after the last reader",
            misenter(|reader, gate, _| reader.map_or(gate, |reader| reader + 1)),
        ),
        (
            "low bytes of entries",
            misenter(|reader, gate, _| reader.unwrap_or(gate) % 256),
        ),
        (
            "0 where none reads",
            misenter(|reader, _, _| reader.unwrap_or(0)),
        ),
        (
            "the output where none reads",
            misenter(|reader, _, count| reader.unwrap_or(count - 1)),
        ),
        (
            "G where none reads",
            misenter(|reader, _, count| reader.unwrap_or(count)),
        ),
    ];
    for kind in [3, 4, 7] {
        wrong.push(("a alone", misread_kind(kind, |[a, _]| vec![a])));
        wrong.push(("b alone", misread_kind(kind, |[_, b]| vec![b])));
    }
    wrong
}

/// Each of these wrong turns gives another list on some lines of the script.
#[test]
fn wrong_turns_come_up() {
    let script = cases();
    let text = answers(&script);
    let mut tables: Vec<Vec<u8>> = Vec::new();
    for line in asked(&script, &text) {
        let table = trim(&line.table);
        if line.answer.starts_with("gates ") && table.len() < 8_000 {
            tables.push(table.to_vec());
        }
    }
    tables.dedup();
    for (name, wrong) in wrong_lists() {
        let told = |table: &&Vec<u8>| wrong(table) != said(&all_reads(table, reads));
        let count = tables.iter().filter(told).count();
        assert!(count >= 2, "{name}: {count}");
    }
}
