//! Cards filled in condition by condition: the proved library against the second program, over sequences of
//! calls, refused ones among them. After each call every lent byte is compared, and what Check and Run
//! answer; after an accepted finish, what Build leaves of the whole card.
//!
//! STAPLETHREAD_ROUNDS sets how many calls are made, about.

use second::Random;

mod compared;

use compared::*;

/// Calls over one lent table.
const CALLS: usize = 24;

/// Both sides over a table of their own, and what the accepted calls were.
struct Both<'a> {
    library: staplethread::Filling<'a>,
    second: second::Filling,
    table: Vec<u8>,
    /// While a build is open: the card so far, with its count at 0, and the table as begin found it.
    open: Option<(Vec<u8>, Vec<u8>)>,
}

impl Both<'_> {
    /// Both sides have the same bytes; Check and Run answer alike.
    fn compare(&self, random: &mut Random) {
        assert_eq!(self.library.table(), self.table);
        let checked = compare_check(&self.table);
        match &self.open {
            Some((card, _)) if card.len() == 6 => assert_eq!(checked, Err(13)),
            Some(_) => self.compare_newest(random, checked.expect("conditions make a table").0),
            None => {}
        }
    }

    /// Run answers whether the newest condition holds.
    fn compare_newest(&self, random: &mut Random, gates: u16) {
        let (card, _) = self.open.as_ref().expect("a build is open");
        let [.., relation, digits] = card[..] else {
            panic!("the card has a record")
        };
        let slots = usize::from(self.table[4]);
        let base = card[2] / 2 + 1;
        let left = random.bytes_below(base, slots);
        let mut right = random.bytes_below(base, slots);
        let newest = slots - usize::from(digits)..slots;
        if rarely(random, 2) {
            right[newest.clone()].copy_from_slice(&left[newest.clone()]);
        }
        let output = compare_run(random, &self.table, &left, &right, gates.into());
        let alone = [
            0xC5, 0x48, card[2], card[3], 1, 0, 0xC5, 0x51, relation, digits,
        ];
        let truth = second::expected_output(&alone, &left[newest.clone()], &right[newest])
            .expect("digits below B");
        assert_eq!(
            output.map(u16::from),
            Ok(truth),
            "{card:02X?} {left:?} {right:?}"
        );
    }

    fn begin(&mut self, p: u8, s: u8) -> Result<(), u8> {
        let found = self.table.clone();
        let answer = number_of(self.library.begin(p, s));
        assert_eq!(answer, self.second.begin(p, s, &mut self.table), "{p} {s}");
        if answer.is_ok() {
            self.open = Some((vec![0xC5, 0x48, p, s, 0, 0], found));
        }
        answer
    }

    fn add(&mut self, record: &[u8]) -> Result<(), u8> {
        let answer = number_of(self.library.add(record));
        let expected = self.second.add(record, &mut self.table);
        assert_eq!(answer, expected, "{record:02X?} after {:02X?}", self.open);
        if answer.is_ok() {
            let (card, _) = self.open.as_mut().expect("an accepted add");
            card.extend_from_slice(record);
        }
        answer
    }

    fn finish(&mut self) -> Result<Numbers, u8> {
        let answer = of_library(self.library.finish());
        let expected = of_second(self.second.finish(&mut self.table));
        assert_eq!(answer, expected, "{:02X?}", self.open);
        if answer.is_ok() {
            let (mut card, mut found) = self.open.take().expect("an accepted finish");
            card[4] = (card.len() / 4 - 1) as u8;
            assert_eq!(of_library(staplethread::build(&card, &mut found)), answer);
            assert_eq!(found, self.table, "{card:02X?}");
        }
        answer
    }
}

/// A record: mostly of a small condition, sometimes with a rule broken or of another length.
fn record(random: &mut Random) -> Vec<u8> {
    let most = if rarely(random, 6) { 16 } else { 2 };
    let digits = 1 + random.byte_below(most);
    let mut record = vec![0xC5, 0x51, 1 + random.byte_below(6), digits];
    if rarely(random, 6) {
        record[random.below(4) as usize] = odd_byte(random);
    }
    match random.below(32) {
        0 => record.truncate(random.below(4) as usize),
        1 => record.push(0),
        2 => record = vec![0xC5, 0x57, 1, 1, 1, 0],
        _ => {}
    }
    record
}

/// How many bytes are lent: too few for a head, for some conditions, or enough for most.
fn length(random: &mut Random) -> usize {
    match random.below(16) {
        0 => random.below(9) as usize,
        1..=5 => random.below(400) as usize,
        6..=9 => random.below(4_000) as usize,
        _ => 30_000,
    }
}

#[test]
fn fillings() {
    let mut random = Random::new(10);
    let (mut begun, mut added, mut finished) = (Seen::default(), Seen::default(), Seen::default());
    let mut conditions = [0u64; 9];
    for _ in 0..rounds() / CALLS as u64 + 1 {
        let length = length(&mut random);
        let mut ours = bytes_of(random.next_u64(), length);
        let theirs = ours.clone();
        let mut both = Both {
            library: staplethread::Filling::over(&mut ours),
            second: second::Filling::new(),
            table: theirs,
            open: None,
        };
        for _ in 0..CALLS {
            match random.below(16) {
                _ if both.open.is_none() && !rarely(&mut random, 3) => {
                    begun.note(&both.begin(prime(&mut random), square_weight(&mut random)));
                }
                0 => begun.note(&both.begin(odd_byte(&mut random), odd_byte(&mut random))),
                1 => begun.note(&both.begin(prime(&mut random), square_weight(&mut random))),
                2 | 3 => {
                    let count = both.open.as_ref().map_or(0, |(card, _)| card.len() / 4 - 1);
                    let answer = both.finish();
                    if answer.is_ok() {
                        conditions[count] += 1;
                    }
                    finished.note(&answer);
                }
                _ => added.note(&both.add(&record(&mut random))),
            }
            both.compare(&mut random);
        }
    }
    begun.expect("begin", &[0, 3, 4, 11]);
    added.expect("add", &[0, 2, 7, 8, 9, 10, 11, 30, 31]);
    finished.expect("finish", &[0, 11, 31]);
    println!("finish: conditions {:?}", &conditions[1..]);
    assert!(conditions[1..].iter().all(|&count| count > 0));
}
