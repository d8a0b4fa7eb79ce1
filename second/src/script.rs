//! Case scripts: what each line answers.

use crate::build::build;
use crate::digits::{decode, encode};
use crate::filling::Filling;
use crate::forecast::forecast;
use crate::last_use::last_uses;
use crate::refusal::Refusal;
use crate::run::run;
use crate::step::{build_within, Offer};
use crate::table::{check, trim};
use std::fmt::{Display, Formatter, Result as FormatResult, Write};
use std::str::FromStr;

const TABLE_AREA: usize = 65_600;
const WORK_AREA: usize = 8_200;
const DIGIT_AREA: usize = 32;
const USE_AREA: usize = 8_200;

/// Lent bytes are written out up to this many, and summed above it.
const SHOWN_BYTES: usize = 40;

/// What is kept from line to line.
struct Areas {
    table: Vec<u8>,
    length: usize,
    second_table: Vec<u8>,
    work: Vec<u8>,
    digits: Vec<u8>,
    uses: Vec<u16>,
    /// The build that may be open.
    filling: Filling,
}

/// The words of one line, taken from the front.
struct Words<'a> {
    line: &'a str,
    rest: std::str::Split<'a, char>,
}

/// What each line of the script answers, one line for each command that has an
/// answer. A line of another form is the caller's mistake and panics.
pub fn answers(script: &str) -> String {
    let mut areas = Areas::new();
    let mut text = String::new();
    for line in script.lines() {
        if let Some(answer) = areas.command(line) {
            writeln!(text, "{line}: {answer}").expect("a string takes all text");
        }
    }
    text
}

/// A byte list in upper-case hexadecimal, `-` where it is empty.
pub fn hex(bytes: &[u8]) -> String {
    if bytes.is_empty() {
        return "-".to_string();
    }
    let mut text = String::with_capacity(2 * bytes.len());
    for byte in bytes {
        write!(text, "{byte:02X}").expect("a string takes all text");
    }
    text
}

impl Areas {
    fn new() -> Areas {
        Areas {
            table: vec![7; TABLE_AREA],
            length: 0,
            second_table: vec![5; TABLE_AREA],
            work: vec![9; WORK_AREA],
            digits: vec![7; DIGIT_AREA],
            uses: vec![9; USE_AREA],
            filling: Filling::new(),
        }
    }

    fn current_table(&self) -> &[u8] {
        &self.table[..self.length]
    }

    /// Carries out one line; `None` where its command has no answer.
    fn command(&mut self, line: &str) -> Option<String> {
        let mut words = Words::new(line);
        let answer = match words.next() {
            "forecast" => Some(self.forecast(&mut words)),
            "build" => Some(self.build(&mut words)),
            "build_within" => Some(self.build_within(&mut words)),
            "begin" => Some(self.begin(&mut words)),
            "add" => Some(self.add(&mut words)),
            "finish" => Some(self.finish()),
            "check" => Some(answer("", check(self.current_table()))),
            "trim" => Some(format!("length {}", trim(self.current_table()).len())),
            "run" => Some(self.run(&mut words)),
            "last_uses" => Some(self.last_uses(&mut words)),
            "encode" => Some(self.encode(&mut words)),
            "decode" => Some(self.decode(&mut words)),
            other => {
                self.lay(other, &mut words);
                None
            }
        };
        words.finish();
        answer
    }

    /// The commands that lay the table area and have no answer.
    fn lay(&mut self, command: &str, words: &mut Words) {
        match command {
            "table" => self.put_table(words),
            "set" => {
                let place: usize = words.number();
                self.table[place] = words.number();
            }
            "cut" => self.length = words.number(),
            "swap" => std::mem::swap(&mut self.table, &mut self.second_table),
            _ => panic!("not a command: {}", words.line),
        }
    }

    fn forecast(&self, words: &mut Words) -> String {
        answer("", forecast(&words.bytes()))
    }

    fn build(&mut self, words: &mut Words) -> String {
        self.length = words.number();
        let card = words.bytes();
        let lent = &mut self.table[..self.length];
        let outcome = build(&card, lent);
        answer("", outcome) + &lent_bytes(lent)
    }

    fn build_within(&mut self, words: &mut Words) -> String {
        let cap = words.number();
        self.length = words.number();
        let second_room: usize = words.number();
        let card = words.bytes();
        let first = &mut self.table[..self.length];
        let second = &mut self.second_table[..second_room];
        let outcome = build_within(&card, cap, first, second);
        answer("", outcome) + &lent_bytes(first) + &lent_bytes(second)
    }

    fn begin(&mut self, words: &mut Words) -> String {
        let p = words.number();
        let weight = words.number();
        let lent = &mut self.table[..self.length];
        let outcome = self.filling.begin(p, weight, lent).map(|()| "done");
        answer("", outcome) + &lent_bytes(lent)
    }

    fn add(&mut self, words: &mut Words) -> String {
        let record = words.bytes();
        let lent = &mut self.table[..self.length];
        let outcome = self.filling.add(&record, lent).map(|()| "done");
        answer("", outcome) + &lent_bytes(lent)
    }

    fn finish(&mut self) -> String {
        let lent = &mut self.table[..self.length];
        let outcome = self.filling.finish(lent);
        answer("", outcome) + &lent_bytes(lent)
    }

    fn run(&mut self, words: &mut Words) -> String {
        let room: usize = words.number();
        let left = words.bytes();
        let right = words.bytes();
        let lent = &mut self.work[..room];
        let outcome = run(&self.table[..self.length], &left, &right, lent);
        answer("output ", outcome) + &lent_bytes(lent)
    }

    fn last_uses(&mut self, words: &mut Words) -> String {
        let room: usize = words.number();
        let lent = &mut self.uses[..room];
        let outcome = last_uses(&self.table[..self.length], lent);
        answer("gates ", outcome) + &lent_bytes(&entry_bytes(lent))
    }

    fn encode(&mut self, words: &mut Words) -> String {
        let p = words.number();
        let n = words.number();
        let number = words.number();
        let room: usize = words.number();
        let lent = &mut self.digits[..room];
        let outcome = encode(p, n, number, lent).map(|()| "done");
        answer("", outcome) + &lent_bytes(lent)
    }

    fn decode(&self, words: &mut Words) -> String {
        let p = words.number();
        answer("number ", decode(p, &words.bytes()))
    }

    fn put_table(&mut self, words: &mut Words) {
        let bytes = words.bytes();
        self.table[..bytes.len()].copy_from_slice(&bytes);
        self.length = bytes.len();
    }
}

impl Display for Offer {
    fn fmt(&self, out: &mut Formatter<'_>) -> FormatResult {
        let Offer {
            which,
            length,
            report,
        } = self;
        write!(out, "part {which} length {length} {report}")
    }
}

impl<'a> Words<'a> {
    fn new(line: &'a str) -> Words<'a> {
        Words {
            line,
            rest: line.split(' '),
        }
    }

    fn next(&mut self) -> &'a str {
        self.rest
            .next()
            .unwrap_or_else(|| panic!("a word is missing: {}", self.line))
    }

    fn number<T: FromStr>(&mut self) -> T {
        self.next()
            .parse()
            .unwrap_or_else(|_| panic!("not a number: {}", self.line))
    }

    fn bytes(&mut self) -> Vec<u8> {
        let word = self.next();
        if word == "-" {
            return Vec::new();
        }
        read_hex(word).unwrap_or_else(|| panic!("not a byte list: {}", self.line))
    }

    fn finish(mut self) {
        assert!(self.rest.next().is_none(), "too many words: {}", self.line);
    }
}

fn read_hex(word: &str) -> Option<Vec<u8>> {
    if word.is_empty() || !word.len().is_multiple_of(2) {
        return None;
    }
    word.as_bytes()
        .chunks_exact(2)
        .map(|pair| Some(hex_digit(pair[0])? << 4 | hex_digit(pair[1])?))
        .collect()
}

fn hex_digit(character: u8) -> Option<u8> {
    match character {
        b'0'..=b'9' => Some(character - b'0'),
        b'A'..=b'F' => Some(character - b'A' + 10),
        _ => None,
    }
}

/// The outcome after its word, or the refusal.
fn answer<T: Display>(word: &str, outcome: Result<T, Refusal>) -> String {
    match outcome {
        Ok(value) => format!("{word}{value}"),
        Err(number) => format!("refused {number}"),
    }
}

fn lent_bytes(lent: &[u8]) -> String {
    if lent.len() <= SHOWN_BYTES {
        format!(", lent {}", hex(lent))
    } else {
        format!(", lent checksum {}", checksum(lent))
    }
}

/// Two bytes an entry, the low one first.
fn entry_bytes(entries: &[u16]) -> Vec<u8> {
    entries
        .iter()
        .flat_map(|entry| entry.to_le_bytes())
        .collect()
}

/// Starts at 1; each byte makes it (257 * S + byte) modulo 65521.
fn checksum(bytes: &[u8]) -> u32 {
    bytes
        .iter()
        .fold(1, |sum, &byte| (257 * sum + u32::from(byte)) % 65_521)
}
