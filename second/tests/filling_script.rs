//! Cards filled in condition by condition, in the script: its lines against a model
//! of the request, which may take a wrong turn.

use second::card::card_bytes;
use second::field::PRIMES;
use second::{answers, build, cases, check, expected_output, forecast, run, Report};
use std::collections::BTreeSet;

/// A wrong turn of begin, add or finish.
#[derive(Clone, Copy, Debug, PartialEq, Eq)]
enum Turn {
    /// In the numbers of a command the second one is told before the first.
    Before(&'static str, u8, u8),
    BeginAsksForAGate,
    RefusedBeginCloses,
    RefusedBeginIsTaken,
    BeginKeepsConditions,
    BeginKeepsPrimeAndWeight,
    BeginOverAnOpenBuildIsRefused,
    BeginClearsBehind,
    BeginKeepsCounts,
    OpenAtTheStart,
    EighthIsTooMany,
    NinthIsAnother,
    DigitsOfOneRecord,
    DigitsOfRefusedRecords,
    AddAsksForTheTree,
    AddForgetsTheHead,
    RefusedAddIsKept,
    RefusedAddCloses,
    RefusedAddWritesTheHead,
    AddWritesTheTree,
    AddTellsItsOwnSlots,
    AddTellsItsOwnGates,
    SlotsFromZero,
    AddClearsBehind,
    LongRecordsPass,
    OtherMarksPass,
    EmptyFinishCloses,
    EmptyFinishIsAccepted,
    FinishStaysOpen,
    RefusedFinishCloses,
    FinishOfOneAsksForNothing,
    FinishAsksForTheConditions,
    TreeInCardOrder,
    FinishKeepsTheGateCount,
    FinishAnswersAsCheckBefore,
    FinishClearsBehind,
}

use Turn::*;

const TURNS: [Turn; 45] = [
    Before("begin", 3, 4),
    Before("begin", 4, 11),
    Before("begin", 3, 11),
    BeginAsksForAGate,
    RefusedBeginCloses,
    RefusedBeginIsTaken,
    BeginKeepsConditions,
    BeginKeepsPrimeAndWeight,
    BeginOverAnOpenBuildIsRefused,
    BeginClearsBehind,
    BeginKeepsCounts,
    OpenAtTheStart,
    Before("add", 31, 7),
    Before("add", 31, 11),
    Before("add", 30, 7),
    Before("add", 30, 10),
    Before("add", 30, 11),
    Before("add", 7, 2),
    Before("add", 2, 8),
    Before("add", 8, 9),
    Before("add", 9, 10),
    Before("add", 10, 11),
    EighthIsTooMany,
    NinthIsAnother,
    DigitsOfOneRecord,
    DigitsOfRefusedRecords,
    AddAsksForTheTree,
    AddForgetsTheHead,
    RefusedAddIsKept,
    RefusedAddCloses,
    RefusedAddWritesTheHead,
    AddWritesTheTree,
    AddTellsItsOwnSlots,
    AddTellsItsOwnGates,
    SlotsFromZero,
    AddClearsBehind,
    LongRecordsPass,
    OtherMarksPass,
    Before("finish", 31, 11),
    EmptyFinishCloses,
    EmptyFinishIsAccepted,
    FinishStaysOpen,
    RefusedFinishCloses,
    FinishOfOneAsksForNothing,
    FinishAsksForTheConditions,
];

/// The wrong turns of what finish leaves and answers.
const ENDS: [Turn; 4] = [
    TreeInCardOrder,
    FinishKeepsTheGateCount,
    FinishAnswersAsCheckBefore,
    FinishClearsBehind,
];

#[derive(Clone)]
struct Open {
    p: u8,
    s: u8,
    conditions: Vec<(u8, u8)>,
    /// Digits of records that were turned away, which count only by a wrong turn.
    refused_digits: usize,
}

impl Open {
    fn new(p: u8, s: u8) -> Open {
        Open {
            p,
            s,
            conditions: Vec::new(),
            refused_digits: 0,
        }
    }

    fn digits(&self) -> usize {
        self.conditions.iter().map(|&(_, n)| usize::from(n)).sum()
    }

    fn card(&self) -> Vec<u8> {
        card_bytes(self.p, self.s, &self.conditions)
    }

    /// The gates of the conditions, before the product tree.
    fn gates(&self) -> usize {
        match self.conditions.len() {
            0 => 0,
            count => usize::from(forecast(&self.card()).unwrap().gates) + 1 - count,
        }
    }

    fn with(&self, relation: u8, n: u8) -> Open {
        let mut longer = self.clone();
        longer.conditions.push((relation, n));
        longer
    }

    /// The one-go table and its answers; where n is beyond all rules none.
    fn one_go(&self) -> (Vec<u8>, Report) {
        let card = self.card();
        let room = 8 * (usize::from(forecast(&card).unwrap().gates) + 1);
        let mut table = vec![0; room];
        let report = build(&card, &mut table).unwrap();
        (table, report)
    }

    fn head(&self, slots: usize, gates: usize) -> [u8; 8] {
        let [low, high] = (gates as u16).to_le_bytes();
        [0x47, 0x48, self.p, self.s, slots as u8, 0, low, high]
    }
}

/// The areas, the build's state, and the wrong turn that is taken.
#[derive(Clone)]
struct Model {
    turn: Option<Turn>,
    open: Option<Open>,
    area: Vec<u8>,
    second_area: Vec<u8>,
    length: usize,
}

type Outcome = Result<String, u8>;

/// The first broken rule in this order, of which a wrong turn may tell a later one
/// before an earlier one.
fn first_broken(
    turn: Option<Turn>,
    command: &str,
    mut order: Vec<u8>,
    broken: &[(u8, bool)],
) -> Result<(), u8> {
    if let Some(Before(of, first, second)) = turn {
        if of == command {
            order.retain(|&number| number != second);
            let place = order.iter().position(|&number| number == first).unwrap();
            order.insert(place, second);
        }
    }
    let is_broken = |number: &u8| broken.contains(&(*number, true));
    order.into_iter().find(is_broken).map_or(Ok(()), Err)
}

impl Model {
    fn takes(&self, turn: Turn) -> bool {
        self.turn == Some(turn)
    }

    fn begin(&mut self, p: u8, s: u8) -> Outcome {
        let least = if self.takes(BeginAsksForAGate) { 16 } else { 8 };
        let broken = [
            (3, !PRIMES.contains(&p)),
            (4, !(50..=100).contains(&s)),
            (11, self.length < least),
        ];
        let verdict = first_broken(self.turn, "begin", vec![3, 4, 11], &broken);
        self.refuse_begin(verdict, p, s);
        verdict?;
        let mut fresh = Open::new(p, s);
        if let Some(before) = self.open.take() {
            match self.turn {
                Some(BeginOverAnOpenBuildIsRefused) => {
                    self.open = Some(before);
                    return Err(30);
                }
                Some(BeginKeepsConditions) => fresh.conditions = before.conditions,
                Some(BeginKeepsPrimeAndWeight) => (fresh.p, fresh.s) = (before.p, before.s),
                _ => {}
            }
        }
        let head = fresh.head(0, 0);
        let end = if self.takes(BeginKeepsCounts) { 4 } else { 8 };
        self.area[..end].copy_from_slice(&head[..end]);
        if self.takes(BeginClearsBehind) {
            self.area[8..self.length].fill(0);
        }
        self.open = Some(fresh);
        Ok("done".to_string())
    }

    fn refuse_begin(&mut self, verdict: Result<(), u8>, p: u8, s: u8) {
        match (self.turn, verdict) {
            (Some(RefusedBeginCloses), Err(_)) => self.open = None,
            (Some(RefusedBeginIsTaken), Err(11)) => self.open = Some(Open::new(p, s)),
            _ => {}
        }
    }

    /// Whether each of add's numbers is due; a missing byte of a record counts as 0.
    fn broken_of_add(&self, open: &Open, record: &[u8]) -> [(u8, bool); 7] {
        let mut fields = record.to_vec();
        fields.resize(4, 0);
        let (relation, n) = (fields[2], fields[3]);
        let mark: &[[u8; 2]] = match self.turn {
            Some(OtherMarksPass) => &[[0xC5, 0x51], [0xC5, 0x52], [0xC5, 0x57]],
            _ => &[[0xC5, 0x51]],
        };
        let most = if self.takes(EighthIsTooMany) { 7 } else { 8 };
        let before = match self.turn {
            Some(DigitsOfOneRecord) => 0,
            Some(DigitsOfRefusedRecords) => open.digits() + open.refused_digits,
            _ => open.digits(),
        };
        let is_long = record.len() > 4 && !self.takes(LongRecordsPass);
        [
            (30, open.conditions.len() >= most),
            (7, record.len() < 4 || is_long),
            (2, !mark.contains(&[fields[0], fields[1]])),
            (8, !(1..=6).contains(&relation)),
            (9, !(1..=16).contains(&n)),
            (10, before + usize::from(n) > 16),
            (11, self.length < self.room_of_add(open, relation, n)),
        ]
    }

    fn room_of_add(&self, open: &Open, relation: u8, n: u8) -> usize {
        let longer = open.with(relation, n);
        if forecast(&longer.card()).is_err() {
            // No such gates: one at least.
            return 8 * (open.gates() + 2);
        }
        let room = 8 * (longer.gates() + 1);
        match self.turn {
            Some(AddAsksForTheTree) => room + 8 * open.conditions.len(),
            Some(AddForgetsTheHead) => room - 8,
            _ => room,
        }
    }

    fn add(&mut self, record: &[u8]) -> Outcome {
        const ORDER: [u8; 8] = [31, 30, 7, 2, 8, 9, 10, 11];
        let closed = Open::new(3, 50);
        let open = self.open.clone().unwrap_or(closed);
        let broken = self.broken_of_add(&open, record);
        let broken = [&[(31, self.open.is_none())][..], &broken].concat();
        let verdict = first_broken(self.turn, "add", ORDER.to_vec(), &broken);
        if let Err(number) = verdict {
            self.refuse_add(number, &open, record);
            let is_another = number == 30 && self.takes(NinthIsAnother);
            return Err(if is_another { 6 } else { number });
        }
        let longer = open.with(record[2], record[3]);
        // What a wrong turn has let pass is no card.
        if self.open.is_none() || forecast(&longer.card()).is_err() {
            return Ok("done".to_string());
        }
        self.write_added(&open, &longer);
        self.open = Some(longer);
        Ok("done".to_string())
    }

    fn refuse_add(&mut self, number: u8, open: &Open, record: &[u8]) {
        let Some(state) = &mut self.open else {
            return;
        };
        match self.turn {
            Some(RefusedAddCloses) => self.open = None,
            Some(RefusedAddIsKept) if number == 11 => state.conditions.push((record[2], record[3])),
            Some(DigitsOfRefusedRecords) if matches!(number, 10 | 11) => {
                state.refused_digits += usize::from(record[3]);
            }
            Some(RefusedAddWritesTheHead) if number == 11 && self.length >= 8 => {
                let longer = open.with(record[2], record[3]);
                let head = longer.head(longer.digits(), longer.gates());
                self.area[..8].copy_from_slice(&head);
            }
            _ => {}
        }
    }

    fn write_added(&mut self, open: &Open, longer: &Open) {
        let (table, report) = longer.one_go();
        let [start, mut end] = [open, longer].map(|build| 8 * (build.gates() + 1));
        let (mut slots, mut gates) = (longer.digits(), longer.gates());
        match self.turn {
            Some(AddWritesTheTree) if self.length >= table.len() => {
                (gates, end) = (usize::from(report.gates), table.len());
            }
            Some(AddTellsItsOwnSlots) => slots -= open.digits(),
            Some(AddTellsItsOwnGates) => gates -= open.gates(),
            _ => {}
        }
        // A room that forgets the head may be a gate too short.
        let end = end.min(self.length);
        self.area[start..end].copy_from_slice(&table[start..end]);
        if self.takes(SlotsFromZero) {
            for record in self.area[start..end].chunks_mut(8) {
                if matches!(record[2], 1 | 2) {
                    record[4] -= open.digits() as u8;
                }
            }
        }
        self.area[..8].copy_from_slice(&longer.head(slots, gates));
        if self.takes(AddClearsBehind) {
            self.area[end..self.length].fill(0);
        }
    }

    fn finish(&mut self) -> Outcome {
        let open = self.open.clone().unwrap_or(Open::new(3, 50));
        let is_empty = open.conditions.is_empty();
        let room = 8 * (open.gates() + open.conditions.len().max(1));
        let asked = match self.turn {
            Some(FinishOfOneAsksForNothing) if open.conditions.len() == 1 => 0,
            Some(FinishAsksForTheConditions) => 8 * (open.gates() + 1),
            _ => room,
        };
        let broken = [
            (31, self.open.is_none() || is_empty),
            (11, self.length < asked),
        ];
        let verdict = first_broken(self.turn, "finish", vec![31, 11], &broken);
        match self.turn {
            Some(EmptyFinishIsAccepted) if self.open.is_some() && is_empty => {
                self.open = None;
                return Ok("done".to_string());
            }
            Some(EmptyFinishCloses) if verdict == Err(31) => self.open = None,
            Some(RefusedFinishCloses) if verdict == Err(11) => self.open = None,
            _ => {}
        }
        verdict?;
        let before = check(&self.area[..self.length]);
        let (_, report) = open.one_go();
        self.write_finished(&open);
        if !self.takes(FinishStaysOpen) {
            self.open = None;
        }
        match (self.turn, before) {
            (Some(FinishAnswersAsCheckBefore), Ok(before)) => Ok(before.to_string()),
            _ => Ok(report.to_string()),
        }
    }

    fn write_finished(&mut self, open: &Open) {
        let (mut table, report) = open.one_go();
        let start = 8 * (open.gates() + 1);
        if self.takes(TreeInCardOrder) {
            tree_in_card_order(&mut table, open);
        }
        let end = table.len().min(self.length);
        if start < end {
            self.area[start..end].copy_from_slice(&table[start..end]);
        }
        if !self.takes(FinishKeepsTheGateCount) && self.length >= 8 {
            let head = open.head(open.digits(), usize::from(report.gates));
            self.area[..8].copy_from_slice(&head);
        }
        if self.takes(FinishClearsBehind) {
            self.area[end..self.length].fill(0);
        }
    }

    /// What a line answers, with a sum of the lent bytes; `None` for a line that is
    /// none of begin, add, finish, check, trim and run.
    fn command(&mut self, line: &str) -> Option<String> {
        let words: Vec<&str> = line.split(' ').collect();
        let number = |place: usize| words[place].parse::<usize>().unwrap();
        let outcome = match words[0] {
            "begin" => self.begin(number(1) as u8, number(2) as u8),
            "add" => self.add(&bytes(words[1])),
            "finish" => self.finish(),
            "check" => check(&self.area[..self.length]).map(|report| report.to_string()),
            "run" => {
                let (left, right) = (bytes(words[2]), bytes(words[3]));
                let mut work = vec![0; number(1)];
                let output = run(&self.area[..self.length], &left, &right, &mut work);
                output.map(|output| format!("output {output}"))
            }
            other => {
                self.lay(other, &words);
                return None;
            }
        };
        let outcome = outcome.unwrap_or_else(|number| format!("refused {number}"));
        Some(match words[0] {
            "begin" | "add" | "finish" => format!("{outcome}{}", self.lent()),
            _ => outcome,
        })
    }

    fn lay(&mut self, command: &str, words: &[&str]) {
        let number = |place: usize| words[place].parse::<usize>().unwrap();
        match command {
            "build" => {
                self.length = number(1);
                let _ = build(&bytes(words[2]), &mut self.area[..self.length]);
            }
            "build_within" => {
                self.length = number(2);
                let (card, cap) = (bytes(words[4]), number(1) as u16);
                let (first, second) = (&mut self.area, &mut self.second_area);
                let rooms = [self.length, number(3)];
                let _ = second::build_within(
                    &card,
                    cap,
                    &mut first[..rooms[0]],
                    &mut second[..rooms[1]],
                );
            }
            "table" => {
                let table = bytes(words[1]);
                self.length = table.len();
                self.area[..self.length].copy_from_slice(&table);
            }
            "set" => self.area[number(1)] = number(2) as u8,
            "cut" => self.length = number(1),
            "swap" => std::mem::swap(&mut self.area, &mut self.second_area),
            _ => {}
        }
    }

    /// The lent bytes as an answer has them.
    fn lent(&self) -> String {
        let lent = &self.area[..self.length];
        if lent.is_empty() {
            ", lent -".to_string()
        } else if lent.len() <= 40 {
            let text: String = lent.iter().map(|byte| format!("{byte:02X}")).collect();
            format!(", lent {text}")
        } else {
            let step = |sum: u32, &byte: &u8| (257 * sum + u32::from(byte)) % 65_521;
            format!(", lent checksum {}", lent.iter().fold(1, step))
        }
    }
}

/// The MULs of the tree over the outputs in card order, each with the product so
/// far.
fn tree_in_card_order(table: &mut [u8], open: &Open) {
    let mut outputs = Vec::new();
    for count in 1..=open.conditions.len() {
        let mut part = open.clone();
        part.conditions.truncate(count);
        outputs.push(part.gates() as u16 - 1);
    }
    let mut product = outputs[0];
    for (place, &output) in outputs[1..].iter().enumerate() {
        let start = 8 * (open.gates() + 1 + place);
        table[start + 4..start + 6].copy_from_slice(&product.to_le_bytes());
        table[start + 6..start + 8].copy_from_slice(&output.to_le_bytes());
        product = (open.gates() + place) as u16;
    }
}

fn bytes(word: &str) -> Vec<u8> {
    (0..word.len() / 2)
        .map(|i| u8::from_str_radix(&word[2 * i..2 * i + 2], 16).unwrap())
        .collect()
}

/// The model before the first line of a filling, and the lines from there on.
fn from_the_first_filling(script: &str) -> (Model, Vec<&str>) {
    let mut model = Model {
        turn: None,
        open: None,
        area: vec![7; 65_600],
        second_area: vec![5; 65_600],
        length: 0,
    };
    let lines: Vec<&str> = script.lines().collect();
    let is_filling = |line: &&str| matches!(word(line), "begin" | "add" | "finish");
    let first = lines.iter().position(is_filling).unwrap();
    for line in &lines[..first] {
        let word = word(line);
        if !matches!(word, "check" | "run") {
            model.lay(word, &line.split(' ').collect::<Vec<_>>());
        }
    }
    (model, lines[first..].to_vec())
}

fn word(line: &str) -> &str {
    line.split(' ').next().unwrap()
}

/// What the lines answer where this turn is taken.
fn answers_by(model: &Model, lines: &[&str], turn: Option<Turn>) -> Vec<String> {
    let open = (turn == Some(OpenAtTheStart)).then(|| Open::new(3, 50));
    let mut model = Model {
        turn,
        open,
        ..model.clone()
    };
    lines
        .iter()
        .filter_map(|line| model.command(line))
        .collect()
}

/// Each line of the script answers what the sentences say.
#[test]
fn answers_of_the_script() {
    let script = cases();
    let text = answers(&script);
    let (model, lines) = from_the_first_filling(&script);
    let said = answers_by(&model, &lines, None);
    let is_asked = |line: &&str| {
        let command = word(line).trim_end_matches(':');
        ["begin", "add", "finish", "check", "run"].contains(&command)
    };
    let answered: Vec<&str> = text.lines().filter(is_asked).collect();
    let answered = &answered[answered.len() - said.len()..];
    for (line, said) in answered.iter().zip(&said) {
        let answer = line.split_once(": ").unwrap().1;
        let answer = match word(line) {
            "run" => answer.split(',').next().unwrap(),
            _ => answer,
        };
        assert_eq!(answer, said, "{line}");
    }
    assert!(said.len() > 900, "{}", said.len());
}

/// Each wrong turn gives another answer, and more than one.
#[test]
fn wrong_turns_come_up() {
    let script = cases();
    let (model, lines) = from_the_first_filling(&script);
    let said = answers_by(&model, &lines, None);
    for turn in TURNS.into_iter().chain(ENDS) {
        let found = answers_by(&model, &lines, Some(turn));
        let others = said.iter().zip(&found).filter(|(a, b)| a != b).count();
        assert!(others >= 2, "{turn:?}: {others}");
    }
}

/// "Nobody else writes the table meanwhile."
#[test]
fn nothing_else_writes_while_a_build_is_open() {
    let script = cases();
    let (mut model, lines) = from_the_first_filling(&script);
    for line in lines {
        if model.open.is_some() {
            let writes = ["build", "build_within", "table", "set", "swap"];
            assert!(!writes.contains(&word(line)), "{line}");
        }
        model.command(line);
    }
    assert!(model.open.is_none());
}

/// Each prime, relation and count of conditions is finished, and some of them are
/// then built in one go with the same answer and bytes.
#[test]
fn what_is_finished() {
    let script = cases();
    let (mut model, lines) = from_the_first_filling(&script);
    let (mut primes, mut counts, mut relations) = Default::default();
    let mut finished: BTreeSet<(Vec<u8>, usize, String)> = BTreeSet::new();
    let mut same = BTreeSet::new();
    for line in lines {
        let open = model.open.clone();
        let answer = model.command(line);
        match (word(line), open, &model.open) {
            ("finish", Some(open), None) => {
                finished.insert((open.card(), model.length, answer.unwrap()));
                primes = with(primes, [open.p]);
                counts = with(counts, [open.conditions.len() as u8]);
                relations = with(relations, open.conditions.iter().map(|&(code, _)| code));
            }
            ("build", ..) => {
                let card = bytes(line.split(' ').nth(2).unwrap());
                if let Ok(report) = forecast(&card) {
                    let answer = format!("{report}{}", model.lent());
                    if finished.contains(&(card.clone(), model.length, answer)) {
                        same.insert(card[4]);
                    }
                }
            }
            _ => {}
        }
    }
    assert!(primes.into_iter().eq(PRIMES));
    assert!(counts.into_iter().eq(1..=8));
    assert!(relations.into_iter().eq(1..=6));
    assert!([1, 2, 3, 4, 6, 8].iter().all(|count| same.contains(count)));
}

fn with(mut set: BTreeSet<u8>, items: impl IntoIterator<Item = u8>) -> BTreeSet<u8> {
    set.extend(items);
    set
}

/// Runs of an open table answer what the newest condition says of its own slots,
/// where it holds and all, some or none of the earlier ones do, and where it does
/// not, of two to eight conditions.
#[test]
fn newest_conditions_are_run() {
    let script = cases();
    let (mut model, lines) = from_the_first_filling(&script);
    let mut seen = BTreeSet::new();
    for line in lines {
        let answer = model.command(line);
        let output = answer.and_then(|a| Some(a.strip_prefix("output ")?.parse::<u16>().unwrap()));
        let (Some(open), Some(output)) = (&model.open, output) else {
            continue;
        };
        let lists: Vec<Vec<u8>> = line.split(' ').skip(2).map(bytes).collect();
        let (newest, earlier) = open.conditions.split_last().unwrap();
        let said = |conditions: &[(u8, u8)], start: usize, end: usize| {
            let card = card_bytes(open.p, open.s, conditions);
            expected_output(&card, &lists[0][start..end], &lists[1][start..end])
        };
        let start = open.digits() - usize::from(newest.1);
        assert_eq!(
            said(&[*newest], start, open.digits()),
            Some(output),
            "{line}"
        );
        if !earlier.is_empty() {
            let earlier_hold = said(earlier, 0, start).unwrap();
            seen.insert((open.conditions.len(), output, earlier_hold));
        }
    }
    for count in 2..=8 {
        let is_seen = |output, earlier| seen.contains(&(count, output, earlier));
        assert!(is_seen(1, 0) || is_seen(0, 1), "{count}");
    }
    for count in 2..=4 {
        assert!(seen.contains(&(count, 1, 0)) && seen.contains(&(count, 0, 1)));
    }
}
