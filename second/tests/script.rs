//! The case script and its answers.

use second::card::{Card, Form};
use second::field::PRIMES;
use second::{answers, cases, expected_output};
use std::collections::{BTreeMap, BTreeSet};

/// The script's lines, each with its answer where it has one.
fn lines_with_answers<'a>(script: &'a str, text: &'a str) -> Vec<(&'a str, Option<&'a str>)> {
    let mut answered = text.lines();
    let lines = script
        .lines()
        .map(|line| match word(line) {
            "table" | "set" | "cut" | "swap" => (line, None),
            _ => {
                let (asked, answer) = answered.next().unwrap().split_once(": ").unwrap();
                assert_eq!(asked, line);
                (line, Some(answer))
            }
        })
        .collect();
    assert_eq!(answered.next(), None);
    lines
}

fn word(line: &str) -> &str {
    line.split(' ').next().unwrap()
}

/// The number of an answer `refused K`, with or without lent bytes.
fn refusal(answer: &str) -> Option<u8> {
    let rest = answer.strip_prefix("refused ")?;
    rest.split(',').next().unwrap().parse().ok()
}

fn bytes(word: &str) -> Vec<u8> {
    if word == "-" {
        return Vec::new();
    }
    (0..word.len() / 2)
        .map(|i| u8::from_str_radix(&word[2 * i..2 * i + 2], 16).unwrap())
        .collect()
}

#[test]
fn the_example_of_two_tables() {
    let script = "build_within 1 64 66 C54803640100C5510101\nbuild_within 1 40 16 -\n\
                  build_within 0 8 0 C54803640100C5510101\nswap\ncheck\ncut 64\ncheck\n\
                  run 8 00 01\nswap\nrun 7 01 00\n";
    let expected = "build_within 1 64 66 C54803640100C5510101: part 1 length 64 \
        gates 7 products 0 squares 1 cost 100 depth 1, \
        lent checksum FIRST, lent checksum SECOND\n\
        build_within 1 40 16 -: refused 1, \
        lent 47480364010007004754010000000000475402000000000047540400000001004754070002000200, \
        lent 47480364010007004754010000000000\n\
        build_within 0 8 0 C54803640100C5510101: refused 29, lent 4748036401000700, lent -\n\
        check: refused 15\n\
        check: gates 7 products 1 squares 0 cost 100 depth 1\n\
        run 8 00 01: output 1, lent 0001020201020109\n\
        run 7 01 00: output 0, lent 01000101010200\n";
    // LEFT, RIGHT, SUB; the base table squares z, and the step size 1 has z times
    // the SCALE of z by -1.
    let (head, ends) = (
        [0x47, 0x48, 3, 100, 1, 0, 7, 0],
        [
            [(7, 2, 2), (5, 2, 1), (5, 3, -1), (3, 4, 5)],
            [(5, 2, 1), (5, 2, -1), (7, 2, 4), (3, 3, 5)],
        ],
    );
    let sums = ends.map(|end| {
        let gates = [[(1, 0, 0), (2, 0, 0), (4, 0, 1)].as_slice(), &end].concat();
        let records = gates.into_iter().flat_map(|(kind, a, b): (u8, u8, i16)| {
            let [low, high] = b.to_le_bytes();
            [0x47, 0x54, kind, 0, a, 0, low, high]
        });
        head.into_iter().chain(records).collect::<Vec<u8>>()
    });
    let [first, second] = sums;
    let second = [&second[..], &[5, 5]].concat();
    let expected = expected
        .replace("FIRST", &checksum(&first).to_string())
        .replace("SECOND", &checksum(&second).to_string());
    assert_eq!(answers(script), expected);
}

/// The build's state is kept from line to line; the current table is lent to each
/// call.
#[test]
fn the_example_of_a_filling() {
    let script = "finish\nadd -\ncut 8\nbegin 3 75\ncheck\nfinish\nadd C5510101\n\
                  cut 64\nadd C5510101\ncheck\nrun 7 00 01\nfinish\nfinish\ncut 10\nbegin 4 0\n";
    let expected = "finish: refused 31, lent -\n\
        add -: refused 31, lent -\n\
        begin 3 75: done, lent 4748034B00000000\n\
        check: refused 13\n\
        finish: refused 31, lent 4748034B00000000\n\
        add C5510101: refused 11, lent 4748034B00000000\n\
        add C5510101: done, lent checksum 35754\n\
        check: gates 7 products 0 squares 1 cost 75 depth 1\n\
        run 7 00 01: output 1, lent 00010201020201\n\
        finish: gates 7 products 0 squares 1 cost 75 depth 1, lent checksum 35754\n\
        finish: refused 31, lent checksum 35754\n\
        begin 4 0: refused 3, lent 4748034B010007004754\n";
    assert_eq!(answers(script), expected);
}

/// "S starts at 1, and each byte in turn makes it (257 S + byte) modulo 65521."
fn checksum(bytes: &[u8]) -> u32 {
    let step = |sum: u32, &byte: &u8| (257 * sum + u32::from(byte)) % 65_521;
    bytes.iter().fold(1, step)
}

#[test]
fn the_example() {
    let script = "build 64 C548034B0100C5510101\ncheck\nrun 8 00 01\n\
                  encode 5 2 8 3\ndecode 5 0202\ntrim\nlast_uses 7\nlast_uses 0\n\
                  last_uses 8\ncut 63\ntrim\nlast_uses 2\nbuild 9 -\n";
    let expected = "build 64 C548034B0100C5510101: \
        gates 7 products 0 squares 1 cost 75 depth 1, lent checksum 35754\n\
        check: gates 7 products 0 squares 1 cost 75 depth 1\n\
        run 8 00 01: output 1, lent 0001020102020109\n\
        encode 5 2 8 3: done, lent 020207\n\
        decode 5 0202: number 8\n\
        trim: length 64\n\
        last_uses 7: gates 7, lent 0200020004000500060006000600\n\
        last_uses 0: refused 27, lent -\n\
        last_uses 8: gates 7, lent 02000200040005000600060006000900\n\
        trim: length 0\n\
        last_uses 2: refused 15, lent 02000200\n\
        build 9 -: refused 1, lent 4748034B0100070047\n";
    assert_eq!(answers(script), expected);
}

#[test]
fn the_script_keeps_its_form() {
    let script = cases();
    assert!(script.is_ascii() && script.ends_with('\n') && !script.contains('\r'));
    assert!(script.len() <= 400_000);
    assert!((3_000..=17_000).contains(&script.lines().count()));
    assert_eq!(script, cases());
    for line in script.lines() {
        let words: Vec<&str> = line.split(' ').collect();
        assert!(words.iter().all(|word| !word.is_empty()), "{line}");
        let number = |i: usize| words[i].parse::<u64>().unwrap();
        let list = |i: usize| bytes(words[i]).len();
        let fits = match words[0] {
            "forecast" => words.len() == 2 && list(1) <= 64,
            "build" => words.len() == 3 && number(1) <= 65_600 && list(2) <= 64,
            "build_within" => {
                words.len() == 5
                    && number(1) <= 65_535
                    && (2..4).all(|i| number(i) <= 65_600)
                    && list(4) <= 64
            }
            "begin" => words.len() == 3 && (1..3).all(|i| number(i) <= 255),
            "add" => words.len() == 2 && list(1) <= 64,
            "check" | "trim" | "swap" | "finish" => words.len() == 1,
            "run" => words.len() == 4 && number(1) <= 8_200 && list(2) <= 64 && list(3) <= 64,
            "last_uses" => words.len() == 2 && number(1) <= 8_200,
            "encode" => {
                words.len() == 5 && number(1) <= 255 && number(2) <= 65_600 && number(4) <= 32
            }
            "decode" => words.len() == 3 && number(1) <= 255 && list(2) <= 64,
            "table" => words.len() == 2 && list(1) <= 1_024,
            "set" => words.len() == 3 && number(1) < 65_600 && number(2) <= 255,
            "cut" => words.len() == 2 && number(1) <= 65_600,
            _ => false,
        };
        assert!(fits, "{line}");
    }
}

#[test]
fn each_refusal_of_each_operation_comes_up() {
    let script = cases();
    let text = answers(&script);
    let mut counts: BTreeMap<&str, BTreeMap<u8, usize>> = BTreeMap::new();
    for (line, answer) in lines_with_answers(&script, &text) {
        if let Some(number) = answer.and_then(refusal) {
            *counts
                .entry(word(line))
                .or_default()
                .entry(number)
                .or_default() += 1;
        }
    }
    let expected: [(&str, &[u8]); 11] = [
        ("forecast", &[1, 2, 3, 4, 5, 6, 7, 8, 9, 10, 25, 26, 28]),
        ("build", &[1, 2, 3, 4, 5, 6, 7, 8, 9, 10, 11, 25, 26, 28]),
        ("build_within", &[1, 2, 3, 4, 5, 6, 7, 8, 9, 10, 11, 29]),
        ("begin", &[3, 4, 11]),
        ("add", &[2, 7, 8, 9, 10, 11, 30, 31]),
        ("finish", &[11, 31]),
        ("check", &[2, 3, 4, 5, 12, 13, 14, 15, 16, 17]),
        ("run", &[2, 3, 4, 5, 12, 13, 14, 15, 16, 17, 18, 19, 20]),
        ("last_uses", &[2, 3, 4, 5, 12, 13, 14, 15, 16, 17, 27]),
        ("encode", &[3, 9, 21, 22]),
        ("decode", &[3, 9, 23, 24]),
    ];
    assert_eq!(counts.len(), expected.len());
    for (operation, numbers) in expected {
        let found: Vec<u8> = counts[operation].keys().copied().collect();
        assert_eq!(found, numbers, "{operation}");
        assert!(counts[operation].values().all(|&n| n >= 3), "{operation}");
    }
}

/// What Forecast and Build refuse of cards with the head mark of a form, each
/// number with how often, and how many of the refusals are for a record's spare.
fn card_refusals(form: Form) -> (BTreeMap<String, BTreeMap<u8, usize>>, usize) {
    let script = cases();
    let text = answers(&script);
    let mut counts: BTreeMap<String, BTreeMap<u8, usize>> = BTreeMap::new();
    let mut record_spares = 0;
    for (line, answer) in lines_with_answers(&script, &text) {
        let Some(number) = answer.and_then(refusal) else {
            continue;
        };
        if !matches!(word(line), "forecast" | "build") {
            continue;
        }
        let card = bytes(line.split(' ').next_back().unwrap());
        if !card.starts_with(&form.head_mark()) {
            continue;
        }
        let of_operation = counts.entry(word(line).to_string()).or_default();
        *of_operation.entry(number).or_default() += 1;
        // 5 is the head's spare, or a record's where that one is 0.
        record_spares += usize::from(number == 5 && card[5] == 0);
    }
    (counts, record_spares)
}

/// Only Forecast is asked of what is too short for a head.
#[test]
fn each_refusal_of_each_form_comes_up() {
    for (form, own) in [(Form::Score, &[25, 26][..]), (Form::Shared, &[28])] {
        let (counts, record_spares) = card_refusals(form);
        let numbers = |operation: &str| counts[operation].keys().copied().collect::<Vec<u8>>();
        let forecast = [&[1, 2, 3, 4, 5, 6, 7, 8, 9, 10], own].concat();
        assert_eq!(numbers("forecast"), forecast);
        let build = [&[2, 3, 4, 5, 6, 7, 8, 9, 10, 11], own].concat();
        assert_eq!(numbers("build"), build);
        assert!(counts["forecast"].values().all(|&n| n >= 3), "{form:?}");
        assert!(record_spares >= 3, "{form:?}");
    }
}

#[test]
fn each_kind_of_answer_comes_up() {
    let script = cases();
    let text = answers(&script);
    let lines = lines_with_answers(&script, &text);
    let count = |command: &str, start: &str| {
        lines
            .iter()
            .filter(|(line, answer)| word(line) == command && answer.unwrap().starts_with(start))
            .count()
    };
    for (command, start) in [
        ("forecast", "gates "),
        ("build", "gates "),
        ("build_within", "part 1 "),
        ("build_within", "part 2 "),
        ("begin", "done"),
        ("add", "done"),
        ("finish", "gates "),
        ("check", "gates "),
        ("trim", "length 0"),
        ("trim", "length 64"),
        ("run", "output 0,"),
        ("run", "output 1,"),
        ("run", "output 2,"),
        ("last_uses", "gates "),
        ("encode", "done"),
        ("decode", "number "),
    ] {
        assert!(count(command, start) >= 10, "{command} {start}");
    }
    for form in [", lent checksum ", ", lent -", ", lent 0"] {
        assert!(text.contains(form), "{form}");
    }
}

/// Head and gates alike: each field of the bench card's table, damaged alone.
#[test]
fn each_field_of_a_table_is_turned_away() {
    let script = cases();
    let text = answers(&script);
    let lines = lines_with_answers(&script, &text);
    let mut found = BTreeSet::new();
    for pair in lines.windows(2) {
        let place = pair[0].0.strip_prefix("set ").map(word);
        if let (Some(place), "check") = (place, pair[1].0) {
            let place: usize = place.parse().unwrap();
            found.extend(refusal(pair[1].1.unwrap()).map(|number| (place, number)));
        }
    }
    let head = [(0, 2), (1, 2), (2, 3), (3, 4), (4, 13), (5, 5), (7, 14)];
    assert!(head.iter().all(|at| found.contains(at)));
    for start in (8..64).step_by(8) {
        for (field, number) in [(0, 2), (1, 2), (2, 16), (3, 5), (5, 17), (7, 17)] {
            let at = (start + field, number);
            assert!(found.contains(&at), "{at:?}");
        }
    }
}

/// The tables that lines `table` and `set` make, wherever one is checked, and
/// the refusal's number.
fn checked_tables(script: &str, text: &str) -> Vec<(Vec<u8>, Option<u8>)> {
    let mut checked = Vec::new();
    let mut table = Vec::new();
    for (line, answer) in lines_with_answers(script, text) {
        let mut parts = line.split(' ');
        match parts.next() {
            Some("table") => table = bytes(parts.next().unwrap()),
            Some("build" | "build_within" | "begin" | "add" | "finish" | "swap" | "cut") => {
                table.clear();
            }
            Some("set") => {
                let place: usize = parts.next().unwrap().parse().unwrap();
                if let Some(byte) = table.get_mut(place) {
                    *byte = parts.next().unwrap().parse().unwrap();
                }
            }
            Some("check") if !table.is_empty() => {
                checked.push((table.clone(), refusal(answer.unwrap())));
            }
            _ => {}
        }
    }
    checked
}

/// Mark, spare and kind of a gate's word, broken alone and together: the first
/// in this order is told.
#[test]
fn each_verdict_on_a_word_comes_up() {
    let script = cases();
    let text = answers(&script);
    let mut words = BTreeSet::new();
    for (table, number) in checked_tables(&script, &text) {
        // The tables of two gates.
        if table.len() == 24 && table[6] == 2 {
            let mark = table[16..18] != [0x47, 0x54];
            let (spare, kind) = (table[19] != 0, !(1..8).contains(&table[18]));
            let first = match (mark, spare, kind) {
                (true, _, _) => Some(2),
                (_, true, _) => Some(5),
                (_, _, true) => Some(16),
                _ => None,
            };
            assert_eq!(number, first, "{table:02X?}");
            words.insert((mark, spare, kind));
        }
    }
    assert_eq!(words.len(), 8);
}

/// Two SCALEs of a LEFT: 17 is told just where a constant is out of range. Both
/// sides of each border come up alone, beside a constant that is in range.
#[test]
fn each_border_of_a_constant_comes_up() {
    let script = cases();
    let text = answers(&script);
    let mut alone = BTreeSet::new();
    for (table, number) in checked_tables(&script, &text) {
        let scale = [0x47, 0x54, 5, 0, 0, 0];
        if table.len() != 32 || table[16..22] != scale || table[24..30] != scale {
            continue;
        }
        let most = i32::from(table[2] / 2);
        let constant = |place| i32::from(i16::from_le_bytes([table[place], table[place + 1]]));
        let (first, last) = (constant(22), constant(30));
        let (fits, last_fits) = (first.abs() <= most, last.abs() <= most);
        assert_eq!(number, (!fits || !last_fits).then_some(17), "{table:02X?}");
        if last_fits {
            alone.insert((table[2], first));
        }
        if fits {
            alone.insert((table[2], last));
        }
    }
    for p in [3, 5, 7, 127, 251] {
        let most = i32::from(p) / 2;
        for constant in [most, most + 1, -most, -most - 1] {
            assert!(alone.contains(&(p, constant)), "{p} {constant}");
        }
    }
    for constant in [0, -1, 250, 251, 256, -256, 32_767, -32_767, -32_768] {
        assert!(alone.contains(&(251, constant)), "{constant}");
    }
}

/// Runs meet constants of each sign at the ends of the range.
#[test]
fn the_ends_of_constants_are_run() {
    let text = answers(&cases());
    // The left value is -1, so each end makes it the other one.
    for run in [
        "run 3 02 00: output 1, lent 020201\n",
        "run 3 04 00: output 2, lent 040302\n",
        "run 3 06 00: output 3, lent 060403\n",
        "run 3 7E 00: output 63, lent 7E403F\n",
        "run 3 FA 00: output 125, lent FA7E7D\n",
    ] {
        assert!(text.contains(run), "{run}");
    }
}

/// Each kind's operands a and b are turned away, and let pass.
#[test]
fn each_operand_of_each_kind_is_turned_away() {
    let script = cases();
    let text = answers(&script);
    let lines = lines_with_answers(&script, &text);
    let mut refused = BTreeSet::new();
    let mut passed = BTreeSet::new();
    for pair in lines.windows(2) {
        let Some(table) = pair[0].0.strip_prefix("table ").map(bytes) else {
            continue;
        };
        // The tables of one third gate after LEFT 0 and RIGHT 1 at p=7.
        if table.len() != 32 || table[2] != 7 || pair[1].0 != "check" {
            continue;
        }
        let kind = table[26];
        match refusal(pair[1].1.unwrap()) {
            None => drop(passed.insert(kind)),
            Some(number) => {
                assert_eq!(number, 17);
                let a_is_small = table[28] < 2 && table[29] == 0;
                refused.insert((kind, if a_is_small { 'b' } else { 'a' }));
            }
        }
    }
    assert_eq!(passed.len(), 7);
    assert_eq!(refused.len(), 14);
}

/// A run of a table as Build left it, or as the base table or the best step size
/// was left.
struct BuiltRun<'a> {
    line: &'a str,
    card: Vec<u8>,
    /// Whether the table is the one of the second buffer.
    is_second: bool,
    left: Vec<u8>,
    right: Vec<u8>,
    output: u16,
}

/// The runs of built tables that have an output. A call that is turned away leaves
/// the table that was there, and a length alone alters none.
fn built_runs<'a>(lines: &[(&'a str, Option<&str>)]) -> Vec<BuiltRun<'a>> {
    // Which table is in an area: its card, and whether it is a second one.
    let mut area: Option<(Vec<u8>, bool)> = None;
    let mut second_area = None;
    let mut runs = Vec::new();
    for &(line, answer) in lines {
        let words: Vec<&str> = line.split(' ').collect();
        match words[0] {
            "build" if refusal(answer.unwrap()).is_none() => {
                area = Some((bytes(words[2]), false));
            }
            "build_within" if refusal(answer.unwrap()).is_none() => {
                area = Some((bytes(words[4]), false));
                second_area = Some((bytes(words[4]), true));
            }
            "swap" => std::mem::swap(&mut area, &mut second_area),
            // A table that is filled in is no card's.
            "begin" | "add" if refusal(answer.unwrap()).is_none() => area = None,
            "table" | "set" => area = None,
            "run" => {
                let output = answer.unwrap().strip_prefix("output ");
                if let (Some((card, is_second)), Some(rest)) = (&area, output) {
                    runs.push(BuiltRun {
                        line,
                        card: card.clone(),
                        is_second: *is_second,
                        left: bytes(words[2]),
                        right: bytes(words[3]),
                        output: rest.split(',').next().unwrap().parse().unwrap(),
                    });
                }
            }
            _ => {}
        }
    }
    runs
}

/// The left slots of built shared cards: in common, some in common, exchanged,
/// unused before others and between them, and those of a plain card.
#[test]
fn left_slots_of_each_kind_come_up() {
    let script = cases();
    let text = answers(&script);
    let mut counts = [0; 6];
    for run in built_runs(&lines_with_answers(&script, &text)) {
        let card = Card::read(&run.card).unwrap();
        if card.form != Form::Shared {
            continue;
        }
        let fields: Vec<_> = card.conditions.iter().map(|c| c.left_slots()).collect();
        let is_used = |slot: usize| fields.iter().any(|field| field.contains(&slot));
        let pairs = || fields.iter().zip(&fields[1..]);
        let mut next = 0;
        let kinds = [
            pairs().any(|(first, second)| first == second),
            pairs().any(|(first, second)| first != second && first.contains(&second.start)),
            pairs().any(|(first, second)| second.end <= first.start),
            !is_used(0),
            is_used(0) && (0..card.left_slots()).any(|slot| !is_used(slot)),
            fields.len() > 1
                && fields
                    .iter()
                    .all(|field| field.start == std::mem::replace(&mut next, field.end)),
        ];
        for (count, is_met) in counts.iter_mut().zip(kinds) {
            *count += usize::from(is_met);
        }
    }
    assert!(counts.iter().all(|&count| count >= 2), "{counts:?}");
}

/// Where the table is a built one, its output is what the numbers say.
#[test]
fn outputs_are_what_the_numbers_say() {
    let script = cases();
    let text = answers(&script);
    let mut plain = 0;
    let mut scores = 0;
    let mut shared = BTreeMap::new();
    let mut seconds = BTreeMap::new();
    for run in built_runs(&lines_with_answers(&script, &text)) {
        let Some(said) = expected_output(&run.card, &run.left, &run.right) else {
            continue;
        };
        assert_eq!(run.output, said, "{}", run.line);
        if run.is_second {
            *seconds.entry(said).or_insert(0) += 1;
            continue;
        }
        match Card::read(&run.card).unwrap().form {
            Form::Plain => plain += 1,
            Form::Score => scores += 1,
            Form::Shared => *shared.entry(said).or_insert(0) += 1,
        }
    }
    assert!(plain > 900, "{plain}");
    assert!(scores > 400, "{scores}");
    // Many of either answer.
    assert!(shared[&0] > 100 && shared[&1] > 80, "{shared:?}");
    assert!(seconds[&0] > 150 && seconds[&1] > 150, "{seconds:?}");
}

/// Of one to eight conditions none hold and all, and of two to eight a part.
#[test]
fn scores_of_none_some_and_all_conditions_come_up() {
    let script = cases();
    let text = answers(&script);
    let mut none = BTreeSet::new();
    let mut some = BTreeSet::new();
    let mut all = BTreeSet::new();
    for run in built_runs(&lines_with_answers(&script, &text)) {
        let Some(score) = expected_output(&run.card, &run.left, &run.right) else {
            continue;
        };
        let card = Card::read(&run.card).unwrap();
        if card.form == Form::Score {
            let scores = match score {
                0 => &mut none,
                score if score < card.total_weight() => &mut some,
                _ => &mut all,
            };
            scores.insert(card.conditions.len());
        }
    }
    assert!((1..=8).all(|count| none.contains(&count)), "{none:?}");
    assert!((1..=8).all(|count| all.contains(&count)), "{all:?}");
    assert!((2..=8).all(|count| some.contains(&count)), "{some:?}");
}

/// Each relation is built at each of these primes, and one to eight conditions
/// are, in all forms.
#[test]
fn relations_primes_and_conditions_come_up() {
    let script = cases();
    let text = answers(&script);
    for (form, primes) in [
        (Form::Plain, &[3, 5, 7, 11, 13, 17, 31, 127, 251][..]),
        (Form::Score, &[3, 5, 251][..]),
        (Form::Shared, &[3, 5, 251][..]),
    ] {
        let mut relations = BTreeSet::new();
        let mut counts = BTreeSet::new();
        for (line, answer) in lines_with_answers(&script, &text) {
            if word(line) == "build" && answer.unwrap().starts_with("gates") {
                let card = bytes(line.split(' ').nth(2).unwrap());
                if card[..2] == form.head_mark() {
                    counts.insert(card[4]);
                    let records = card[6..].chunks(form.condition_bytes());
                    relations.extend(records.map(|record| (card[2], record[2])));
                }
            }
        }
        for &p in primes {
            for relation in 1..=6 {
                assert!(relations.contains(&(p, relation)), "{p} {relation}");
            }
        }
        assert!((1..=8).all(|count| counts.contains(&count)));
    }
}

/// Each prime has a second table that is run, with order conditions, and on
/// numbers for which they hold and do not; each relation does too.
#[test]
fn second_tables_of_each_prime_are_run() {
    let script = cases();
    let text = answers(&script);
    let mut relations = BTreeSet::new();
    let mut outputs = BTreeSet::new();
    let mut counts = BTreeSet::new();
    for run in built_runs(&lines_with_answers(&script, &text)) {
        if run.is_second {
            let card = Card::read(&run.card).unwrap();
            counts.insert(card.conditions.len());
            relations.extend(run.card[6..].chunks(4).map(|record| record[2]));
            if card.conditions.iter().any(|c| c.relation.is_order()) {
                outputs.insert((card.p, run.output));
            }
        }
    }
    assert!(relations.into_iter().eq(1..=6));
    assert!(counts.into_iter().eq(1..=8));
    for p in PRIMES {
        assert!(
            outputs.contains(&(p, 0)) && outputs.contains(&(p, 1)),
            "{p}"
        );
    }
}

#[test]
fn the_longest_table_is_run() {
    let text = answers(&cases());
    assert!(text.contains("check: gates 8191 products "));
    assert!(text.contains("trim: length 65536\n"));
    assert!(text.contains("run 8190 07070707070707070707070707070707 "));
    assert!(text.contains("run 8191 07070707070707070707070707070707 "));
}

#[test]
fn the_longest_list_is_asked_for() {
    let text = answers(&cases());
    assert!(text.contains("last_uses 8190: refused 27, "));
    assert!(text.contains("last_uses 8191: gates 8191, "));
    assert!(text.contains("last_uses 8200: gates 8191, "));
    // Gate 0 is read by gate 8190.
    assert!(text.contains("last_uses 20: refused 27, lent FE1F"));
}
