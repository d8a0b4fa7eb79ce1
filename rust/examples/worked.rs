//! "Distance at least 20 m, grade worse than 3": a question, its table, and the answer for two
//! records; then "how bad is this stretch?", a score over the same two conditions; then "between 20
//! and 40 m", two conditions over one distance; then what an owner with a deep key saves; then the first
//! question filled in condition by condition. Plain digits stand where the runner has ciphertexts, and how
//! many of these it has to hold at once is printed.

use staplethread::{
    build, build_within, encode, forecast, last_uses, run, Depth, Filling, Refusal,
};

/// B = 16: a distance of up to 4,095 m takes three digits, a grade one.
const P: u8 = 31;
const DISTANCE_DIGITS: usize = 3;
const GRADE_DIGITS: usize = 1;

/// Left at least right for the distance (relation 4), left above right for the grade (3).
const CARD: [u8; 14] = [0xC5, 0x48, P, 75, 2, 0, 0xC5, 0x51, 4, 3, 0xC5, 0x51, 3, 1];

/// The same as a score: 5 for the distance, 3 for the grade.
const SCORE_CARD: [u8; 18] = [
    0xC5, 0x53, P, 75, 2, 0, 0xC5, 0x57, 4, 3, 5, 0, 0xC5, 0x57, 3, 1, 3, 0,
];

/// Left at least the first number of the query (4) and at most the second (2): both conditions are
/// over the left slots from 0 on.
const RANGE_CARD: [u8; 18] = [
    0xC5, 0x4A, P, 75, 2, 0, 0xC5, 0x52, 4, 3, 0, 0, 0xC5, 0x52, 2, 3, 0, 0,
];

/// Left above right for the grade and nothing else.
const GRADE_CARD: [u8; 10] = [0xC5, 0x48, P, 75, 1, 0, 0xC5, 0x51, 3, 1];

/// No table is longer.
const LONGEST_TABLE: usize = 65_536;

/// The digits of a distance.
fn distance(metres: u64) -> Result<Vec<u8>, Refusal> {
    let mut digits = vec![0; DISTANCE_DIGITS];
    encode(P, DISTANCE_DIGITS, metres, &mut digits)?;
    Ok(digits)
}

/// The slots of one side: a distance's digits, then a grade's.
fn distance_and_grade(metres: u64, grade: u64) -> Result<Vec<u8>, Refusal> {
    let mut digits = distance(metres)?;
    digits.resize(DISTANCE_DIGITS + GRADE_DIGITS, 0);
    encode(P, GRADE_DIGITS, grade, &mut digits[DISTANCE_DIGITS..])?;
    Ok(digits)
}

/// How many gates are held at once, at most, where each is let go after its last use.
fn most_held(list: &[u16]) -> usize {
    let held = |k: usize| (0..=k).filter(|&i| usize::from(list[i]) >= k).count();
    (0..list.len()).map(held).max().unwrap_or(0)
}

/// A question that is ready to be asked of any record: its table, and work bytes to run it in.
struct Question {
    table: Vec<u8>,
    work: Vec<u8>,
}

impl Question {
    /// The table of a card.
    fn build(card: &[u8]) -> Result<Question, Refusal> {
        let report = forecast(card)?;
        println!(
            "depth {} levels, cost {} hundredths",
            report.depth.0, report.cost.0
        );
        let mut table = vec![0; report.table_bytes()];
        build(card, &mut table)?;
        let mut list = vec![0; usize::from(report.gates)];
        let gates = last_uses(&table, &mut list)?;
        println!("held at once: at most {} of {gates}", most_held(&list));
        let work = vec![0; usize::from(report.gates)];
        Ok(Question { table, work })
    }

    /// The output for a record and a query.
    fn ask(&mut self, record: &[u8], query: &[u8]) -> Result<u8, Refusal> {
        run(&self.table, record, query, &mut self.work)
    }
}

/// The card's answers for records of a distance and a grade.
fn stretches(card: &[u8], records: &[(u64, u64)]) -> Result<(), Refusal> {
    let mut question = Question::build(card)?;
    let query = distance_and_grade(20, 3)?;
    for &(metres, grade) in records {
        let output = question.ask(&distance_and_grade(metres, grade)?, &query)?;
        println!("distance {metres} m, grade {grade}: {output}");
    }
    Ok(())
}

/// Whether distances are from 20 to 40 m: each is sent once, the query has both ends.
fn between(distances: &[u64]) -> Result<(), Refusal> {
    let mut question = Question::build(&RANGE_CARD)?;
    let query = [distance(20)?, distance(40)?].concat();
    for &metres in distances {
        let output = question.ask(&distance(metres)?, &query)?;
        println!("distance {metres} m: {output}");
    }
    Ok(())
}

/// What a card's table costs, and the cheaper of two where keys bear so many levels.
fn deep_key(card: &[u8], caps: &[u16]) -> Result<(), Refusal> {
    let base = forecast(card)?;
    println!("base: depth {}, cost {}", base.depth.0, base.cost.0);
    let mut first = vec![0; base.table_bytes()];
    let mut second = vec![0; LONGEST_TABLE];
    for &cap in caps {
        let part = build_within(card, Depth(cap), &mut first, &mut second)?;
        println!(
            "within {cap} levels: depth {}, cost {}, {:?} table, {} bytes",
            part.report.depth.0,
            part.report.cost.0,
            part.which,
            part.bytes.len()
        );
    }
    Ok(())
}

/// A plain card as it comes in, one condition at a time, and each condition's answer for a record; then
/// the whole card's.
fn over_the_radio(card: &[u8], record: &[u8], query: &[u8]) -> Result<(), Refusal> {
    let mut table = vec![0; LONGEST_TABLE];
    let mut work = vec![0; LONGEST_TABLE / 8 - 1];
    let mut filling = Filling::over(&mut table);
    filling.begin(card[2], card[3])?;
    for condition in card[6..].chunks(4) {
        filling.add(condition)?;
        let slots = usize::from(filling.table()[4]);
        let output = run(
            filling.table(),
            &record[..slots],
            &query[..slots],
            &mut work,
        )?;
        println!("{slots} slots so far, newest condition: {output}");
    }
    let report = filling.finish()?;
    let output = run(filling.table(), record, query, &mut work)?;
    println!("depth {}, all conditions: {output}", report.depth.0);
    Ok(())
}

fn main() -> Result<(), Refusal> {
    stretches(&CARD, &[(34, 4), (12, 5)])?;
    stretches(&SCORE_CARD, &[(34, 4), (12, 5), (34, 2), (12, 1)])?;
    between(&[19, 20, 34, 40, 41])?;
    deep_key(&CARD, &[8, 9])?;
    deep_key(&GRADE_CARD, &[5, 6])?;
    over_the_radio(
        &CARD,
        &distance_and_grade(12, 5)?,
        &distance_and_grade(20, 3)?,
    )
}
