//! Encode and Decode: "A number has n digits, each below B, lowest first, and
//! stands for the sum of digit j times B^j."

use crate::field::{half_range, is_listed, MOST_DIGITS};
use crate::refusal::{self, demand, Refusal};

/// Encode: "3, 9 n, 21 out under n, 22 number not below B^n. Fills n bytes
/// only."
pub fn encode(p: u8, n: usize, number: u64, out: &mut [u8]) -> Result<(), Refusal> {
    demand(is_listed(p), refusal::PRIME)?;
    demand((1..=MOST_DIGITS).contains(&n), refusal::DIGIT_COUNT)?;
    let out = out.get_mut(..n).ok_or(refusal::OUT_ROOM)?;
    let base = u64::from(half_range(p));
    demand(is_below_power(number, base, n), refusal::NUMBER_LARGE)?;
    let mut rest = number;
    for digit in out {
        *digit = (rest % base) as u8;
        rest /= base;
    }
    Ok(())
}

/// Decode: "3, 9 list length, 23 a digit of B or more, 24 number above
/// 2^64-1."
pub fn decode(p: u8, digits: &[u8]) -> Result<u64, Refusal> {
    demand(is_listed(p), refusal::PRIME)?;
    demand(
        (1..=MOST_DIGITS).contains(&digits.len()),
        refusal::DIGIT_COUNT,
    )?;
    let base = half_range(p);
    demand(
        digits.iter().all(|&digit| digit < base),
        refusal::DIGIT_LARGE,
    )?;
    digits
        .iter()
        .rev()
        .try_fold(0u64, |number, &digit| {
            number
                .checked_mul(u64::from(base))?
                .checked_add(u64::from(digit))
        })
        .ok_or(refusal::NUMBER_OVERFLOW)
}

/// Whether number is below base^n: n divisions leave nothing.
fn is_below_power(number: u64, base: u64, n: usize) -> bool {
    (0..n).fold(number, |rest, _| rest / base) == 0
}
