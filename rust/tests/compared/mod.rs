//! What the comparisons of the proved library with the second program share: answers of both sides as one
//! type, lent bytes with margins, and drawn bytes.

// Each test uses a part of it.
#![allow(dead_code)]

use second::Random;
use std::collections::BTreeMap;
use std::fmt::Debug;

pub const ROUNDS: u64 = 100_000;

pub fn rounds() -> u64 {
    std::env::var("STAPLETHREAD_ROUNDS").map_or(ROUNDS, |text| {
        text.parse().expect("STAPLETHREAD_ROUNDS is a number")
    })
}

/// How often each answer came up: 0 counts successes, other keys are refusals.
#[derive(Default)]
pub struct Seen(pub BTreeMap<u8, u64>);

impl Seen {
    pub fn note<T>(&mut self, answer: &Result<T, u8>) {
        let key = answer.as_ref().err().copied().unwrap_or(0);
        *self.0.entry(key).or_default() += 1;
    }

    /// A comparison that never reached an answer has not compared it.
    pub fn expect(&self, name: &str, answers: &[u8]) {
        println!("{name}: {:?}", self.0);
        for answer in answers {
            assert!(
                self.0.contains_key(answer),
                "{name}: {answer} never came up"
            );
        }
    }
}

/// The five numbers, whichever side they come from.
pub type Numbers = (u16, u16, u16, u32, u16);

pub fn library_numbers(r: staplethread::Report) -> Numbers {
    (r.gates, r.products, r.squares, r.cost.0, r.depth.0)
}

pub fn second_numbers(r: second::Report) -> Numbers {
    (r.gates, r.products, r.squares, r.cost.0, r.depth.0)
}

pub fn of_library(
    answer: Result<staplethread::Report, staplethread::Refusal>,
) -> Result<Numbers, u8> {
    number_of(answer.map(library_numbers))
}

pub fn of_second(answer: Result<second::Report, second::Refusal>) -> Result<Numbers, u8> {
    answer.map(second_numbers)
}

pub fn number_of<T>(answer: Result<T, staplethread::Refusal>) -> Result<T, u8> {
    answer.map_err(|why| why.0)
}

/// What neither side may touch, before and after what is lent.
pub const MARGIN: usize = 16;

/// Lends the same to both sides, inside a margin.
pub fn compare_lent<E: Copy + PartialEq, T: PartialEq + Debug>(
    mut ours: Vec<E>,
    input: &dyn Debug,
    library: impl FnOnce(&mut [E]) -> Result<T, u8>,
    plain: impl FnOnce(&mut [E]) -> Result<T, u8>,
) -> (Result<T, u8>, Vec<E>) {
    let mut theirs = ours.clone();
    let lent = MARGIN..ours.len() - MARGIN;
    let length = lent.len();
    let answer = library(&mut ours[lent.clone()]);
    let expected = plain(&mut theirs[lent.clone()]);
    assert_eq!(answer, expected, "{length} lent, {input:02X?}");
    if ours != theirs {
        let place = (0..ours.len()).find(|&i| ours[i] != theirs[i]);
        panic!("place {place:?} differs, {length} lent, {input:02X?}");
    }
    (answer, ours[lent].to_vec())
}

/// So many random bytes to lend, and those of the margin.
pub fn drawn_bytes(random: &mut Random, length: usize) -> Vec<u8> {
    bytes_of(random.next_u64(), length + 2 * MARGIN)
}

/// Bytes by a seed: eight from each draw, as there are many.
pub fn bytes_of(seed: u64, count: usize) -> Vec<u8> {
    let mut random = Random::new(seed);
    let mut bytes = Vec::with_capacity(count + 8);
    while bytes.len() < count {
        bytes.extend_from_slice(&random.next_u64().to_le_bytes());
    }
    bytes.truncate(count);
    bytes
}

/// One time in so many.
pub fn rarely(random: &mut Random, times: u64) -> bool {
    random.below(times) == 0
}

pub fn prime(random: &mut Random) -> u8 {
    // Small primes as often as all: their tables are quickly made.
    match random.below(4) {
        0 => random.pick(&second::field::PRIMES),
        1 => random.pick(&[3, 5, 7]),
        _ => random.pick(&[11, 13, 17, 19, 23, 29, 31]),
    }
}

/// The weight s of a square.
pub fn square_weight(random: &mut Random) -> u8 {
    50 + random.byte_below(51)
}

/// A relation and an n, for one of so many conditions; now and then n makes more than 16 in all.
pub fn condition(random: &mut Random, count: u8) -> (u8, u8) {
    let most = if rarely(random, 8) { 16 } else { 16 / count };
    let digits = 1 + random.byte_below(most);
    (1 + random.byte_below(6), digits)
}

/// A byte near the borders of the rules, or any.
pub fn odd_byte(random: &mut Random) -> u8 {
    match random.below(3) {
        0 => random.pick(&[0, 1, 2, 6, 7, 8, 9, 16, 17, 49, 50, 100, 101, 249, 251, 255]),
        1 => random.pick(&[0x47, 0x48, 0x4A, 0x54, 0xC5, 0x51, 0x52, 0x53, 0x57]),
        _ => random.next_u64() as u8,
    }
}

/// One less, just enough, or more; or none.
pub fn room(random: &mut Random, needed: usize) -> usize {
    match random.below(8) {
        0 => needed.saturating_sub(1),
        1 => 0,
        2 => random.below(needed as u64 + 1) as usize,
        3 => needed + random.below(40) as usize,
        _ => needed,
    }
}

/// What both sides answer to a Check.
pub fn compare_check(table: &[u8]) -> Result<Numbers, u8> {
    let answer = of_library(staplethread::check(table));
    assert_eq!(answer, of_second(second::check(table)), "{table:02X?}");
    answer
}

/// What both sides answer to a Run with so many work bytes.
pub fn compare_run(
    random: &mut Random,
    table: &[u8],
    left: &[u8],
    right: &[u8],
    length: usize,
) -> Result<u8, u8> {
    let (output, _) = compare_lent(
        drawn_bytes(random, length),
        &(table, left, right),
        |work| number_of(staplethread::run(table, left, right, work)),
        |work| second::run(table, left, right, work),
    );
    output
}
