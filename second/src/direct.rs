//! What a card asks, taken directly from the numbers.

use crate::card::{Card, Form, Relation};
use crate::field::half_range;
use std::cmp::Ordering;

/// The output that the card's table has to have: on a plain or shared card 1
/// where all conditions hold and else 0, on a score card "the sum of the weights
/// of the conditions that hold", as a number. `None` where the card is refused,
/// or a list has not the digits below B that its side takes.
pub fn expected_output(card: &[u8], left: &[u8], right: &[u8]) -> Option<u16> {
    let card = Card::read(card).ok()?;
    if !are_digits(&card, card.left_slots(), left) || !are_digits(&card, card.digits(), right) {
        return None;
    }
    let truths = truths(&card, left, right);
    Some(match card.form {
        Form::Plain | Form::Shared => u16::from(truths.iter().all(|&holds| holds)),
        Form::Score => score(&card, &truths),
    })
}

/// This many digits below B.
fn are_digits(card: &Card, count: usize, list: &[u8]) -> bool {
    let base = half_range(card.p);
    list.len() == count && list.iter().all(|&digit| digit < base)
}

/// Which conditions hold: "A condition holds where its relation is true of the
/// number in its left slots and the number in its right slots." The right list
/// is used up from the front, by one condition after the other.
fn truths(card: &Card, left: &[u8], right: &[u8]) -> Vec<bool> {
    let mut right = right;
    let mut truths = Vec::with_capacity(card.conditions.len());
    for condition in &card.conditions {
        let (asked, later) = right.split_at(condition.digits);
        right = later;
        let ordering = compare(&left[condition.left_slots()], asked);
        truths.push(is_true(condition.relation, ordering));
    }
    truths
}

/// The weights of the conditions that hold, added up and not reduced.
fn score(card: &Card, truths: &[bool]) -> u16 {
    let mut score = 0;
    for (condition, &holds) in card.conditions.iter().zip(truths) {
        if holds {
            score += u16::from(condition.weight);
        }
    }
    score
}

/// Compares two numbers of equally many digits, from the top digit down.
fn compare(left: &[u8], right: &[u8]) -> Ordering {
    left.iter().rev().cmp(right.iter().rev())
}

fn is_true(relation: Relation, ordering: Ordering) -> bool {
    match relation {
        Relation::Less => ordering == Ordering::Less,
        Relation::AtMost => ordering != Ordering::Greater,
        Relation::Greater => ordering == Ordering::Greater,
        Relation::AtLeast => ordering != Ordering::Less,
        Relation::Equal => ordering == Ordering::Equal,
        Relation::Unequal => ordering != Ordering::Equal,
    }
}
