//! Encode and Decode.

use super::writer::Script;
use super::SOME_PRIMES;
use crate::digits::encode;
use crate::field::{half_range, PRIMES};
use crate::random::Random;

pub fn write(script: &mut Script) {
    coding_of_the_document(script);
    encode_mended_one_rule_at_a_time(script);
    decode_mended_one_rule_at_a_time(script);
    encode_borders(script);
    decode_borders(script);
    largest_numbers(script);
    ends_of_u64(script);
    drawn_numbers(script);
}

fn coding_of_the_document(script: &mut Script) {
    script.encode(5, 2, 8, 3);
    script.encode(5, 2, 9, 3);
    script.decode(5, &[2, 2]);
    script.decode(5, &[3, 2]);
    script.decode(5, &[2, 3]);
    script.decode(251, &[125; 16]);
}

fn encode_mended_one_rule_at_a_time(script: &mut Script) {
    for p in [0, 1, 2, 4, 9, 249, 255] {
        script.encode(p, 0, u64::MAX, 0);
        script.encode(p, 2, 1, 2);
    }
    for n in [0, 17, 256, 257, 65_600] {
        script.encode(5, n, u64::MAX, 0);
        script.encode(5, n, 0, 32);
    }
    for n in [1, 2, 16] {
        script.encode(5, n, u64::MAX, 0);
        script.encode(5, n, u64::MAX, n - 1);
        script.encode(5, n, 0, n - 1);
        script.encode(5, n, u64::MAX, n);
        script.encode(5, n, 2, n);
        script.encode(5, n, 1, n + 1);
    }
}

fn decode_mended_one_rule_at_a_time(script: &mut Script) {
    for p in [0, 1, 2, 4, 9, 249, 253, 255] {
        script.decode(p, &[]);
        script.decode(p, &[0, 0]);
    }
    script.decode(251, &[]);
    script.decode(251, &[126; 17]);
    script.decode(251, &[0; 17]);
    script.decode(251, &[0; 64]);
    let mut digits = [125; 16];
    digits[0] = 126;
    script.decode(251, &digits);
    digits[0] = 125;
    digits[15] = 255;
    script.decode(251, &digits);
    digits[15] = 1;
    script.decode(251, &digits);
    digits[10..].fill(0);
    script.decode(251, &digits);
    digits[9] = 0;
    script.decode(251, &digits);
}

/// Every number of a digit or two, and the first that is too large.
fn encode_borders(script: &mut Script) {
    for number in 0..=10 {
        script.encode(5, 2, number, 2);
        script.encode(3, 3, number, 4);
        script.encode(7, 1, number, 1);
    }
    for n in [1, 2, 15, 16] {
        script.encode(127, n, 64, 17);
        script.encode(127, n, 63, 17);
    }
}

fn decode_borders(script: &mut Script) {
    for p in SOME_PRIMES {
        let base = half_range(p);
        for digit in [base - 1, base, p, 255] {
            script.decode(p, &[0, 0, digit]);
            script.decode(p, &[digit, 1, 0]);
        }
    }
    for n in 1..=16 {
        script.decode(3, &vec![1; n]);
    }
}

/// B^n-1 is the largest number of n digits.
fn largest_numbers(script: &mut Script) {
    for p in SOME_PRIMES.into_iter().chain([29, 37]) {
        for n in [1, 2, 10, 16u32] {
            let digits = n as usize;
            if let Some(bound) = u64::from(half_range(p)).checked_pow(n) {
                script.encode(p, digits, bound, 16);
                script.encode(p, digits, bound - 1, 16);
            } else {
                script.encode(p, digits, u64::MAX, 16);
            }
        }
    }
}

/// 2^64-1 and 2^64 as digits, where sixteen digits reach that far. At p=31
/// sixteen digits 15 are just 2^64-1.
fn ends_of_u64(script: &mut Script) {
    script.decode(29, &[14; 16]);
    script.encode(29, 16, u64::MAX, 16);
    script.decode(31, &[15; 16]);
    script.encode(31, 16, u64::MAX, 16);
    script.encode(31, 15, u64::MAX, 16);
    for p in [37, 41, 61, 89, 127, 199, 251] {
        let mut digits = [0; 16];
        encode(p, 16, u64::MAX, &mut digits).expect("sixteen digits reach 2^64-1");
        script.encode(p, 16, u64::MAX, 16);
        script.decode(p, &digits);
        add_one(p, &mut digits);
        script.decode(p, &digits);
        digits[15] = half_range(p) - 1;
        script.decode(p, &digits);
    }
}

fn add_one(p: u8, digits: &mut [u8]) {
    for digit in digits {
        if *digit + 1 < half_range(p) {
            *digit += 1;
            return;
        }
        *digit = 0;
    }
}

fn drawn_numbers(script: &mut Script) {
    let mut random = Random::new(0xD161);
    for _ in 0..40 {
        let p = random.pick(&PRIMES);
        let n = 1 + random.below(16) as usize;
        let number = random.next_u64() >> random.below(64);
        script.encode(p, n, number, n + 1);
        script.decode(p, &random.bytes_below(half_range(p), n));
    }
}
