//! The case script, by topics.

mod cards;
mod coding;
mod constants;
mod filling_records;
mod filling_runs;
mod fillings;
mod last_uses;
mod relations;
mod runs;
mod score_cards;
mod score_runs;
mod shared_cards;
mod shared_runs;
mod shared_tables;
mod step_cards;
mod step_runs;
mod tables;
mod used_products;
mod words;
mod writer;

use writer::Script;

/// The card of "Bench cards": p=3, s=75, one "<" of 1.
const BENCH: [u8; 10] = [0xC5, 0x48, 0x03, 0x4B, 1, 0, 0xC5, 0x51, 1, 1];

/// The same card as a score card, with a weight of 1.
const SCORE_BENCH: [u8; 12] = [0xC5, 0x53, 0x03, 0x4B, 1, 0, 0xC5, 0x57, 1, 1, 1, 0];

/// The same card as a shared card, with its first left slot 0.
const SHARED_BENCH: [u8; 12] = [0xC5, 0x4A, 0x03, 0x4B, 1, 0, 0xC5, 0x52, 1, 1, 0, 0];

/// The primes at which each relation is tried.
const SOME_PRIMES: [u8; 9] = [3, 5, 7, 11, 13, 17, 31, 127, 251];

const RELATIONS: [u8; 6] = [1, 2, 3, 4, 5, 6];

/// The case script: the same text each time. What a request adds comes last, so
/// that the lines before it answer as they did, whatever it leaves in the areas.
pub fn cases() -> String {
    let mut script = Script::new();
    cards::write(&mut script);
    tables::write(&mut script);
    runs::write(&mut script);
    relations::write(&mut script);
    coding::write(&mut script);
    tables::longest(&mut script);
    score_cards::write(&mut script);
    score_runs::write(&mut script);
    words::write(&mut script);
    constants::write(&mut script);
    last_uses::write(&mut script);
    used_products::write(&mut script);
    shared_cards::write(&mut script);
    shared_tables::write(&mut script);
    shared_runs::write(&mut script);
    step_cards::write(&mut script);
    step_runs::write(&mut script);
    fillings::write(&mut script);
    filling_records::write(&mut script);
    filling_runs::write(&mut script);
    script.finish()
}
