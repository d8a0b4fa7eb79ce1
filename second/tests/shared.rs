//! Two conditions over the same field: the refusals of shared cards and of
//! tables with either head, and the heads that Build writes, read word by word.
//! They are compared on drawn cards and tables and on those of the case script,
//! which has to tell each of the wrong turns below.

use second::card::{shared_card_bytes as shared_card, SHARED_HEAD_MARK};
use second::field::PRIMES;
use second::{answers, build, cases, check, forecast, run, Random};

mod replay;
use replay::each_question;

/// A rule: its number, and whether these bytes break it.
type Rule = (u8, fn(&[u8]) -> bool);

fn first_broken(rules: &[Rule], bytes: &[u8]) -> Option<u8> {
    let broken = rules.iter().find(|(_, is_broken)| is_broken(bytes));
    broken.map(|&(number, _)| number)
}

/// "1 card under 6 bytes; 2 head mark; 3 p not listed; 4 s; 5 spare not 0; 6 c;
/// 7 length not" 6+6c.
const HEAD_RULES: [Rule; 7] = [
    (1, |card| card.len() < 6),
    (2, |card| card[..2] != [0xC5, 0x4A]),
    (3, |card| !PRIMES.contains(&card[2])),
    (4, |card| !(50..=100).contains(&card[3])),
    (5, |card| card[5] != 0),
    (6, |card| !(1..=8).contains(&card[4])),
    (7, |card| card.len() != 6 + 6 * usize::from(card[4])),
];

/// "By condition 2 mark, 8 relation, 9 n", then "28, first slot plus n above 16,
/// after 9 of its record and before a spare's 5".
const RECORD_RULES: [Rule; 5] = [MARK, RELATION, DIGITS, FIRST_SLOT, SPARE];
const MARK: Rule = (2, |record| record[..2] != [0xC5, 0x52]);
const RELATION: Rule = (8, |record| !(1..=6).contains(&record[2]));
const DIGITS: Rule = (9, |record| !(1..=16).contains(&record[3]));
const FIRST_SLOT: Rule = (28, |record| {
    u16::from(record[4]) + u16::from(record[3]) > 16
});
const SPARE: Rule = (5, |record| record[5] != 0);

/// "Refusal 10 counts right slots."
const RIGHT_SLOTS: Rule = (10, |card| right_slots(card) > 16);

fn records(card: &[u8]) -> Vec<&[u8]> {
    card[6..].chunks_exact(6).collect()
}

fn right_slots(card: &[u8]) -> u16 {
    records(card)
        .iter()
        .map(|record| u16::from(record[3]))
        .sum()
}

/// The refusal where the rules of records, or those after all records, are
/// these.
fn refusal_by(card: &[u8], of_records: &[Rule], last: &[Rule]) -> Option<u8> {
    let of_records = |record| first_broken(of_records, record);
    first_broken(&HEAD_RULES, card)
        .or_else(|| records(card).into_iter().find_map(of_records))
        .or_else(|| first_broken(last, card))
}

/// What Forecast has to refuse.
fn said(card: &[u8]) -> Option<u8> {
    refusal_by(card, &RECORD_RULES, &[RIGHT_SLOTS])
}

#[test]
fn refusals_of_drawn_cards() {
    let mut random = Random::new(15);
    let mut numbers = [0; 29];
    let borders = [0, 1, 2, 6, 7, 8, 9, 14, 15, 16, 17, 240, 255];
    for _ in 0..60_000 {
        let mut conditions = Vec::new();
        for _ in 0..1 + random.below(4) {
            let n = 1 + random.byte_below(6);
            conditions.push((1 + random.byte_below(6), n, random.byte_below(17 - n)));
        }
        let mut card = shared_card(random.pick(&PRIMES), 60, &conditions);
        for _ in 0..random.below(4) {
            let place = random.below(card.len() as u64) as usize;
            card[place] = random.pick(&borders);
        }
        card.truncate(card.len() - random.pick(&[0, 0, 0, 0, 0, 1, 6]));
        let refusal = forecast(&card).err();
        assert_eq!(refusal, said(&card), "{card:02X?}");
        numbers[usize::from(refusal.unwrap_or(0))] += 1;
    }
    for number in [0, 2, 3, 4, 5, 6, 7, 8, 9, 10, 28] {
        assert!(numbers[number] > 100, "{number}: {}", numbers[number]);
    }
}

/// The bytes of a word of the script.
fn bytes(word: &str) -> Vec<u8> {
    (0..word.len() / 2)
        .map(|i| u8::from_str_radix(&word[2 * i..2 * i + 2], 16).unwrap())
        .collect()
}

/// The number of an answer `refused K`.
fn refusal(answer: &str) -> Option<u8> {
    let rest = answer.strip_prefix("refused ")?;
    rest.split(',').next().unwrap().parse().ok()
}

/// The script's cards with this head, each with what Forecast refuses.
fn forecast_cards(text: &str) -> Vec<(Vec<u8>, Option<u8>)> {
    let lines = text
        .lines()
        .filter_map(|line| line.strip_prefix("forecast "));
    let asked = lines.map(|line| line.split_once(": ").unwrap());
    let cards = asked.map(|(card, answer)| (bytes(card), refusal(answer)));
    cards
        .filter(|(card, _)| card.starts_with(&SHARED_HEAD_MARK))
        .collect()
}

#[test]
fn forecasts_of_the_script() {
    let cards = forecast_cards(&answers(&cases()));
    assert!(cards.len() > 400);
    for (card, refusal) in cards {
        assert_eq!(refusal, said(&card), "{card:02X?}");
    }
}

/// The refusal of a card by a wrong turn.
type WrongCard = fn(&[u8]) -> Option<u8>;

/// By other rules of records.
fn records_by(card: &[u8], of_records: &[Rule]) -> Option<u8> {
    refusal_by(card, of_records, &[RIGHT_SLOTS])
}

/// By another rule in the place of 28.
fn first_slot_by(card: &[u8], is_broken: fn(&[u8]) -> bool) -> Option<u8> {
    records_by(card, &[MARK, RELATION, DIGITS, (28, is_broken), SPARE])
}

/// By another rule in the place of 10.
fn right_slots_by(card: &[u8], is_broken: fn(&[u8]) -> bool) -> Option<u8> {
    refusal_by(card, &RECORD_RULES, &[(10, is_broken)])
}

const ANY_FIRST_SLOT: Rule = (28, |card| {
    records(card)
        .into_iter()
        .any(|record| (FIRST_SLOT.1)(record))
});

fn rules_before_records(card: &[u8]) -> Option<u8> {
    let by_rule = |rule: &Rule| {
        let mut records = records(card).into_iter();
        records.find_map(|record| first_broken(&[*rule], record))
    };
    first_broken(&HEAD_RULES, card)
        .or_else(|| RECORD_RULES.iter().find_map(by_rule))
        .or_else(|| first_broken(&[RIGHT_SLOTS], card))
}

fn right_slots_before_records(card: &[u8]) -> Option<u8> {
    first_broken(&HEAD_RULES, card)
        .or_else(|| first_broken(&[RIGHT_SLOTS], card))
        .or_else(|| said(card))
}

const WRONG_CARDS: [(&str, WrongCard); 18] = [
    ("28 before 9", |card| {
        records_by(card, &[MARK, RELATION, FIRST_SLOT, DIGITS, SPARE])
    }),
    ("28 before 8", |card| {
        records_by(card, &[MARK, FIRST_SLOT, RELATION, DIGITS, SPARE])
    }),
    ("28 after 5", |card| {
        records_by(card, &[MARK, RELATION, DIGITS, SPARE, FIRST_SLOT])
    }),
    ("28 after all records", |card| {
        let of_records = [MARK, RELATION, DIGITS, SPARE];
        refusal_by(card, &of_records, &[ANY_FIRST_SLOT, RIGHT_SLOTS])
    }),
    ("28 after 10", |card| {
        let of_records = [MARK, RELATION, DIGITS, SPARE];
        refusal_by(card, &of_records, &[RIGHT_SLOTS, ANY_FIRST_SLOT])
    }),
    ("5 before 9", |card| {
        records_by(card, &[MARK, RELATION, SPARE, DIGITS, FIRST_SLOT])
    }),
    ("no spare in a record", |card| {
        records_by(card, &[MARK, RELATION, DIGITS, FIRST_SLOT])
    }),
    ("a sum in a byte", |card| {
        first_slot_by(card, |record| record[4].wrapping_add(record[3]) > 16)
    }),
    ("a sum of 17", |card| {
        first_slot_by(card, |record| {
            u16::from(record[4]) + u16::from(record[3]) > 17
        })
    }),
    ("no sum of 16", |card| {
        first_slot_by(card, |record| {
            u16::from(record[4]) + u16::from(record[3]) > 15
        })
    }),
    ("the first slot alone", |card| {
        first_slot_by(card, |record| record[4] > 15)
    }),
    ("10 counts no left slot twice", |card| {
        right_slots_by(card, |card| used_slots(card) > 16)
    }),
    ("no 16 right slots", |card| {
        right_slots_by(card, |card| right_slots(card) > 15)
    }),
    ("17 right slots", |card| {
        right_slots_by(card, |card| right_slots(card) > 17)
    }),
    ("rules in turn, not records", rules_before_records),
    ("10 before the records", right_slots_before_records),
    ("the marks of score cards", |card| {
        let mark: Rule = (2, |record| record[..2] != [0xC5, 0x57]);
        records_by(card, &[mark, RELATION, DIGITS, FIRST_SLOT, SPARE])
    }),
    ("a first slot as a weight", |card| {
        let weight: Rule = (25, |record| record[4] == 0);
        records_by(card, &[MARK, RELATION, DIGITS, weight, FIRST_SLOT, SPARE])
    }),
];

/// How many left slots some condition uses.
fn used_slots(card: &[u8]) -> u16 {
    let uses = |slot: u8| {
        let mut records = records(card).into_iter();
        records.any(|record| (record[4]..record[4] + record[3]).contains(&slot))
    };
    (0..16).filter(|&slot| uses(slot)).count() as u16
}

#[test]
fn wrong_turns_of_cards_come_up() {
    let cards = forecast_cards(&answers(&cases()));
    for (name, wrong) in WRONG_CARDS {
        let told = |card: &&(Vec<u8>, Option<u8>)| wrong(&card.0) != card.1;
        let count = cards.iter().filter(told).count();
        assert!(count >= 2, "{name}: {count}");
    }
}

/// "Byte 4 the left slot count (highest used plus 1), byte 5 the right slot
/// count": the slots are gone through one by one.
fn said_counts(card: &[u8]) -> [u8; 2] {
    let mut highest = 0;
    let mut right = 0;
    for record in records(card) {
        for digit in 0..record[3] {
            highest = highest.max(record[4] + digit);
            right += 1;
        }
    }
    [highest + 1, right]
}

type WrongCounts = fn(&[u8]) -> [u8; 2];

const WRONG_COUNTS: [(&str, WrongCounts); 7] = [
    ("used slots", |card| {
        [used_slots(card) as u8, said_counts(card)[1]]
    }),
    ("the last condition", |card| {
        let last = records(card)[records(card).len() - 1];
        [last[4] + last[3], said_counts(card)[1]]
    }),
    ("the first condition", |card| {
        [card[10] + card[9], said_counts(card)[1]]
    }),
    ("the highest slot", |card| {
        let [left, right] = said_counts(card);
        [left - 1, right]
    }),
    ("right slots on both sides", |card| {
        [said_counts(card)[1]; 2]
    }),
    ("left slots on both sides", |card| [said_counts(card)[0]; 2]),
    ("exchanged", |card| {
        let [left, right] = said_counts(card);
        [right, left]
    }),
];

/// The cards with this head that Forecast or Build accepts in the script.
fn accepted_cards(text: &str) -> Vec<Vec<u8>> {
    let lines = text.lines().filter_map(|line| line.split_once(": gates "));
    let asked =
        lines.filter(|(line, _)| line.starts_with("forecast ") || line.starts_with("build "));
    let cards = asked.map(|(line, _)| bytes(line.split(' ').next_back().unwrap()));
    cards
        .filter(|card| card.starts_with(&SHARED_HEAD_MARK))
        .collect()
}

/// The heads of their tables, and what else these could be.
#[test]
fn heads_of_the_script() {
    let cards = accepted_cards(&answers(&cases()));
    let mut table = vec![0; 65_536];
    for card in &cards {
        build(card, &mut table).unwrap();
        assert_eq!(table[..4], [0x47, 0x4A, card[2], card[3]]);
        assert_eq!(table[4..6], said_counts(card), "{card:02X?}");
    }
    for (name, wrong) in WRONG_COUNTS {
        let told = |card: &&Vec<u8>| wrong(card) != said_counts(card);
        let count = cards.iter().filter(told).count();
        assert!(count >= 5, "{name}: {count}");
    }
}

/// "12 under 8 bytes; 2; 3; 4; 13 N not 1 to 16; 5; 14 G not 1 to 8191; 15 under
/// 8(G+1) bytes"; with the new mark there are two counts and no spare.
const TABLE_RULES: [Rule; 8] = [
    (12, |table| table.len() < 8),
    (2, |table| {
        table[0] != 0x47 || (table[1] != 0x48 && table[1] != 0x4A)
    }),
    (3, |table| !PRIMES.contains(&table[2])),
    TABLE_WEIGHT,
    SLOT_COUNTS,
    TABLE_SPARE,
    GATE_COUNT,
    (15, |table| table.len() < 8 * (gate_count(table) + 1)),
];
const TABLE_WEIGHT: Rule = (4, |table| !(50..=100).contains(&table[3]));
const SLOT_COUNTS: Rule = (13, |table| {
    counts(table).iter().any(|&count| !is_count(count))
});
const TABLE_SPARE: Rule = (5, |table| table[1] == 0x48 && table[5] != 0);
const GATE_COUNT: Rule = (14, |table| !(1..=8_191).contains(&gate_count(table)));

fn gate_count(table: &[u8]) -> usize {
    two_bytes(&table[6..])
}

/// "u16 are little-endian."
fn two_bytes(bytes: &[u8]) -> usize {
    usize::from(bytes[0]) + 256 * usize::from(bytes[1])
}

fn is_count(count: u8) -> bool {
    (1..=16).contains(&count)
}

/// The slots of each side.
fn counts(table: &[u8]) -> [u8; 2] {
    match table[1] {
        0x4A => [table[4], table[5]],
        _ => [table[4], table[4]],
    }
}

/// "By gate 2 mark, 5 spare, 16 kind, 17 an operand against its kind."
fn gate_refusal(p: u8, counts: [u8; 2], number: usize, record: &[u8]) -> Option<u8> {
    let [a, b] = [4, 6].map(|place| two_bytes(&record[place..]));
    let most = usize::from(p / 2);
    let fits = match record[2] {
        1 => a < usize::from(counts[0]) && b == 0,
        2 => a < usize::from(counts[1]) && b == 0,
        3 | 4 | 7 => a < number && b < number,
        5 => a < number && (b <= most || b >= 0x10000 - most),
        _ => a < number && b == 0,
    };
    if record[..2] != [0x47, 0x54] {
        Some(2)
    } else if record[3] != 0 {
        Some(5)
    } else if !(1..=7).contains(&record[2]) {
        Some(16)
    } else {
        (!fits).then_some(17)
    }
}

/// What Check refuses where the head's rules and the counts that 17 reads are
/// these.
fn table_refusal_by(table: &[u8], rules: &[Rule], counts: impl Fn(&[u8]) -> [u8; 2]) -> Option<u8> {
    first_broken(rules, table).or_else(|| {
        let records = table[8..].chunks_exact(8).take(gate_count(table));
        let (p, counts) = (table[2], counts(table));
        let mut verdicts = records
            .enumerate()
            .map(|(number, record)| gate_refusal(p, counts, number, record));
        verdicts.find_map(|verdict| verdict)
    })
}

fn said_of_table(table: &[u8]) -> Option<u8> {
    table_refusal_by(table, &TABLE_RULES, counts)
}

#[test]
fn refusals_of_drawn_tables() {
    let mut random = Random::new(16);
    let mut numbers = [0; 18];
    for _ in 0..60_000 {
        let [left, right] = [(); 2].map(|()| 1 + random.byte_below(16));
        let mark = random.pick(&[0x48, 0x4A, 0x4A]);
        let byte5 = if mark == 0x48 { 0 } else { right };
        let mut table = vec![0x47, mark, 7, 60, left, byte5, 3, 0];
        for kind in [1, 2, random.pick(&[1, 2, 3])] {
            table.extend([0x47, 0x54, kind, 0, random.byte_below(18), 0, 0, 0]);
        }
        for _ in 0..random.below(3) {
            let place = random.below(table.len() as u64) as usize;
            table[place] = random.pick(&[0, 1, 2, 16, 17, 0x48, 0x4A, 255]);
        }
        table.truncate(table.len() - random.pick(&[0, 0, 0, 0, 1, 25]));
        let refusal = check(&table).err();
        assert_eq!(refusal, said_of_table(&table), "{table:02X?}");
        numbers[usize::from(refusal.unwrap_or(0))] += 1;
    }
    for number in [0, 2, 3, 4, 5, 12, 13, 14, 15, 16, 17] {
        assert!(numbers[number] > 100, "{number}: {}", numbers[number]);
    }
}

/// A question about a table, with the number that it is refused by.
struct Asked {
    words: Vec<String>,
    table: Vec<u8>,
    refusal: Option<u8>,
}

/// The script's lines `check` and `run`, but for those about long tables.
fn asked() -> Vec<Asked> {
    let script = cases();
    let text = answers(&script);
    let writes = ["build", "begin ", "add ", "finish"];
    let mut lines = text
        .lines()
        .filter(|line| !writes.iter().any(|word| line.starts_with(word)));
    let mut asked = Vec::new();
    each_question(&script, |words, table| {
        let (line, answer) = lines.next().unwrap().split_once(": ").unwrap();
        assert_eq!(line, words.join(" "));
        if matches!(words[0], "check" | "run") && table.len() < 4_000 {
            asked.push(Asked {
                words: words.iter().map(|word| word.to_string()).collect(),
                table: table.to_vec(),
                refusal: refusal(answer),
            });
        }
    });
    asked
}

/// What Run refuses after Check's, where the lists have to be as long as these
/// counts: "18 left or right list not N long, 19 a value of p or more, 20 work
/// buffer under G".
fn run_refusal_by(asked: &Asked, counts: impl Fn(&[u8]) -> [u8; 2]) -> Option<u8> {
    let lists = [2, 3].map(|word| bytes(asked.words[word].trim_start_matches('-')));
    let counts = counts(&asked.table).map(usize::from);
    let room: usize = asked.words[1].parse().unwrap();
    let p = asked.table[2];
    if lists[0].len() != counts[0] || lists[1].len() != counts[1] {
        Some(18)
    } else if lists.iter().flatten().any(|&value| value >= p) {
        Some(19)
    } else {
        (room < gate_count(&asked.table)).then_some(20)
    }
}

#[test]
fn tables_and_runs_of_the_script() {
    let mut shared = 0;
    for line in asked() {
        let mut said = said_of_table(&line.table);
        if said.is_none() && line.words[0] == "run" {
            said = run_refusal_by(&line, counts);
        }
        assert_eq!(line.refusal, said, "{:?} {:02X?}", line.words, line.table);
        shared += usize::from(line.table.get(1) == Some(&0x4A));
    }
    assert!(shared > 600, "{shared}");
}

/// The rules of a table's head with others in the places of the ones after the
/// weight and before the length.
fn head_by(table: &[u8], places: [Rule; 4]) -> Option<u8> {
    let rules = [&TABLE_RULES[..3], &places, &TABLE_RULES[7..]].concat();
    table_refusal_by(table, &rules, counts)
}

type WrongTable = fn(&[u8]) -> Option<u8>;

const WRONG_TABLES: [(&str, WrongTable); 9] = [
    ("13 reads byte 4 alone", |table| {
        let byte4: Rule = (13, |table| !is_count(table[4]));
        head_by(table, [TABLE_WEIGHT, byte4, TABLE_SPARE, GATE_COUNT])
    }),
    ("13 reads byte 5 alone", |table| {
        let byte5: Rule = (13, |table| !is_count(counts(table)[1]));
        head_by(table, [TABLE_WEIGHT, byte5, TABLE_SPARE, GATE_COUNT])
    }),
    ("a spare in both heads", |table| {
        let spare: Rule = (5, |table| table[5] != 0);
        head_by(table, [TABLE_WEIGHT, SLOT_COUNTS, spare, GATE_COUNT])
    }),
    ("a spare in no head", |table| {
        let none: Rule = (5, |_| false);
        head_by(table, [TABLE_WEIGHT, SLOT_COUNTS, none, GATE_COUNT])
    }),
    ("5 for a right count of 0", |table| {
        let left: Rule = (13, |table| !is_count(table[4]) || counts(table)[1] > 16);
        let right: Rule = (5, |table| TABLE_SPARE.1(table) || counts(table)[1] == 0);
        head_by(table, [TABLE_WEIGHT, left, right, GATE_COUNT])
    }),
    ("5 before 13", |table| {
        head_by(table, [TABLE_WEIGHT, TABLE_SPARE, SLOT_COUNTS, GATE_COUNT])
    }),
    ("5 after 14", |table| {
        head_by(table, [TABLE_WEIGHT, SLOT_COUNTS, GATE_COUNT, TABLE_SPARE])
    }),
    ("13 after 14", |table| {
        head_by(table, [TABLE_WEIGHT, GATE_COUNT, SLOT_COUNTS, TABLE_SPARE])
    }),
    ("13 before 4", |table| {
        head_by(table, [SLOT_COUNTS, TABLE_WEIGHT, TABLE_SPARE, GATE_COUNT])
    }),
];

/// Which counts 17 and 18 could be taken to read.
const WRONG_SIDES: [(&str, WrongCounts); 5] = [
    ("the left count", |table| [counts(table)[0]; 2]),
    ("the right count", |table| [counts(table)[1]; 2]),
    ("the other side's", |table| {
        let [left, right] = counts(table);
        [right, left]
    }),
    ("the larger one", |table| {
        let [left, right] = counts(table);
        [left.max(right); 2]
    }),
    ("the smaller one", |table| {
        let [left, right] = counts(table);
        [left.min(right); 2]
    }),
];

#[test]
fn wrong_turns_of_tables_come_up() {
    let asked = asked();
    let checks: Vec<&Asked> = asked
        .iter()
        .filter(|line| line.words[0] == "check")
        .collect();
    for (name, wrong) in WRONG_TABLES {
        let told = |line: &&&Asked| wrong(&line.table) != line.refusal;
        let count = checks.iter().filter(told).count();
        assert!(count >= 2, "{name}: {count}");
    }
    for (name, wrong) in WRONG_SIDES {
        let told =
            |line: &&&Asked| table_refusal_by(&line.table, &TABLE_RULES, wrong) != line.refusal;
        let count = checks.iter().filter(told).count();
        assert!(count >= 2, "17 by {name}: {count}");
    }
}

#[test]
fn wrong_turns_of_runs_come_up() {
    let asked = asked();
    let runs = asked.iter().filter(|line| line.words[0] == "run");
    let runs: Vec<&Asked> = runs
        .filter(|line| said_of_table(&line.table).is_none())
        .collect();
    for (name, wrong) in WRONG_SIDES {
        let told = |line: &&&Asked| run_refusal_by(line, wrong) != line.refusal;
        let count = runs.iter().filter(told).count();
        assert!(count >= 2, "18 by {name}: {count}");
    }
}

/// "19 a value of p or more", also in a left slot that no gate names.
#[test]
fn unused_left_slots() {
    let mut table = vec![0; 65_536];
    let report = build(&shared_card(7, 50, &[(5, 1, 3)]), &mut table).unwrap();
    let mut work = vec![9; usize::from(report.gates)];
    for slot in 0..3 {
        let mut left = [0, 0, 0, 2];
        left[slot] = 7;
        assert_eq!(run(&table, &left, &[2], &mut work), Err(19));
        assert!(work.iter().all(|&byte| byte == 9));
        left[slot] = 6;
        assert_eq!(run(&table, &left, &[2], &mut work.clone()), Ok(1));
    }
}
