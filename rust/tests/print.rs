//! The print program as it is run: a card's bytes on standard input, the listing on standard
//! output, compared with the second program's. `tools/build` writes the program.

use second::card::{card_bytes, score_card_bytes, shared_card_bytes};
use second::Random;
use std::io::{ErrorKind, Write};
use std::process::{Command, Stdio};

/// What the program writes for some input.
fn printed(input: &[u8]) -> String {
    let mut child = Command::new(concat!(env!("CARGO_MANIFEST_DIR"), "/../target/bin/print"))
        .stdin(Stdio::piped())
        .stdout(Stdio::piped())
        .spawn()
        .expect("`tools/build` has written the program");
    let mut pipe = child.stdin.take().expect("it is piped");
    match pipe.write_all(input) {
        // It stops reading where the input is longer than any card.
        Err(why) if why.kind() == ErrorKind::BrokenPipe => {}
        outcome => outcome.expect("the pipe takes the card"),
    }
    drop(pipe);
    let output = child.wait_with_output().expect("it ends");
    assert!(output.status.success());
    String::from_utf8(output.stdout).expect("a listing is ASCII")
}

fn compare(input: &[u8]) {
    assert!(printed(input) == second::listing(input), "{input:02X?}");
}

#[test]
fn first_bench_card() {
    let card = [0xC5, 0x48, 3, 75, 1, 0, 0xC5, 0x51, 1, 1];
    let text = printed(&card);
    assert!(text.starts_with("gates 7 products 0 squares 1 cost 75 depth 1\n0 LEFT 0 0\n"));
    assert!(text.ends_with("\n4 SCALE 2 1\n5 SCALE 3 -1\n6 ADD 4 5\n"));
    compare(&card);
}

#[test]
fn every_relation() {
    for relation in 0..8 {
        for n in [1, 2, 3, 7, 16, 17] {
            for p in [3, 5, 7, 31] {
                compare(&card_bytes(p, 80, &[(relation, n)]));
                compare(&score_card_bytes(p, 80, &[(relation, n, p - 1)]));
                compare(&shared_card_bytes(p, 80, &[(relation, n, 1), (1, 1, 0)]));
            }
        }
    }
}

#[test]
fn largest_cards() {
    compare(&card_bytes(251, 100, &[(2, 16)]));
    compare(&score_card_bytes(251, 100, &[(2, 16, 250)]));
    compare(&shared_card_bytes(251, 100, &[(2, 8, 0), (4, 8, 0)]));
}

/// Conditions over the same left slots, over some of them, and over others.
#[test]
fn left_slots() {
    for first in [0, 1, 2, 13, 14, 15, 255] {
        compare(&shared_card_bytes(11, 80, &[(4, 2, 1), (2, 2, first)]));
        compare(&shared_card_bytes(11, 80, &[(5, 3, first), (6, 1, 0)]));
    }
}

/// 5 and 6 are 5 and -5 as constants.
#[test]
fn weights() {
    for weight in [0, 1, 5, 6, 10, 11, 255] {
        compare(&score_card_bytes(11, 80, &[(4, 2, weight)]));
        compare(&score_card_bytes(11, 80, &[(4, 2, 1), (6, 1, weight)]));
    }
}

/// A card, each length up to its own, and longer ones.
fn compare_lengths(card: Vec<u8>) {
    for length in 0..=card.len() {
        compare(&card[..length]);
    }
    for length in [1, 4, 6, 1_000, 100_000] {
        let mut longer = card.clone();
        longer.resize(card.len() + length, 0);
        compare(&longer);
        longer[0] = 0;
        compare(&longer);
    }
}

/// The longest cards of each form: eight conditions.
#[test]
fn every_length() {
    let relations = [6, 1, 5, 4, 2, 3, 5, 1];
    compare_lengths(card_bytes(11, 90, &relations.map(|r| (r, 2))));
    compare_lengths(score_card_bytes(11, 90, &relations.map(|r| (r, 2, 1))));
    compare_lengths(shared_card_bytes(11, 90, &relations.map(|r| (r, 2, 3))));
}

#[test]
fn damaged_cards() {
    let mut random = Random::new(6);
    let plain = card_bytes(13, 60, &[(4, 2), (5, 3)]);
    let score = score_card_bytes(13, 60, &[(4, 2, 5), (5, 3, 7)]);
    let shared = shared_card_bytes(13, 60, &[(4, 2, 0), (5, 3, 1)]);
    for round in 0..450 {
        let mut card = [&plain, &score, &shared][round % 3].clone();
        let place = random.below(card.len() as u64) as usize;
        card[place] = random.next_u64() as u8;
        compare(&card);
    }
}
