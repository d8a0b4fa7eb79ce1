//! "Card", "Scored queries" and "Two conditions over the same field": reading a
//! card's bytes, with Build's refusals but 11.

use crate::field::{is_listed, MOST_DIGITS};
use crate::refusal::{self, demand, Refusal};
use std::ops::Range;

pub const HEAD_BYTES: usize = 6;
pub const CONDITION_BYTES: usize = 4;
pub const HEAD_MARK: [u8; 2] = [0xC5, 0x48];
pub const CONDITION_MARK: [u8; 2] = [0xC5, 0x51];
/// c is 1 to 8.
pub const MOST_CONDITIONS: usize = 8;

/// "A score card has head mark 0xC5 0x53 and condition records of 6 bytes: mark
/// 0xC5 0x57, relation, n, weight, spare 0."
pub const SCORE_HEAD_MARK: [u8; 2] = [0xC5, 0x53];
pub const SCORE_CONDITION_MARK: [u8; 2] = [0xC5, 0x57];
pub const SCORE_CONDITION_BYTES: usize = 6;

/// "With head mark 0xC5 0x4A a card has condition records of 6 bytes: mark 0xC5
/// 0x52, relation, n, first left slot, spare 0."
pub const SHARED_HEAD_MARK: [u8; 2] = [0xC5, 0x4A];
pub const SHARED_CONDITION_MARK: [u8; 2] = [0xC5, 0x52];
pub const SHARED_CONDITION_BYTES: usize = 6;

/// What a card asks for: a plain card for a yes or no, a score card for "how
/// bad", and a shared card for a yes or no where conditions may share left
/// slots.
#[derive(Clone, Copy, Debug, PartialEq, Eq)]
pub enum Form {
    Plain,
    Score,
    Shared,
}

/// "Relations between left (record) and right (query)."
#[derive(Clone, Copy, Debug, PartialEq, Eq)]
pub enum Relation {
    Less,
    AtMost,
    Greater,
    AtLeast,
    Equal,
    Unequal,
}

#[derive(Clone, Copy, Debug, PartialEq, Eq)]
pub struct Condition {
    pub relation: Relation,
    pub digits: usize,
    /// What the condition adds to a score where it holds; 0 on a card that is no
    /// score card, which has no such weights.
    pub weight: u8,
    /// The left slot of its lowest digit. A shared card says which; on the other
    /// cards it is the next one, as it is on the right of all cards.
    pub first_left: usize,
}

#[derive(Clone, Debug, PartialEq, Eq)]
pub struct Card {
    pub form: Form,
    pub p: u8,
    /// s, the weight of a square.
    pub weight: u8,
    pub conditions: Vec<Condition>,
}

impl Form {
    /// The form that the head's mark tells.
    pub fn from_mark(mark: [u8; 2]) -> Option<Form> {
        match mark {
            HEAD_MARK => Some(Form::Plain),
            SCORE_HEAD_MARK => Some(Form::Score),
            SHARED_HEAD_MARK => Some(Form::Shared),
            _ => None,
        }
    }

    pub fn head_mark(self) -> [u8; 2] {
        match self {
            Form::Plain => HEAD_MARK,
            Form::Score => SCORE_HEAD_MARK,
            Form::Shared => SHARED_HEAD_MARK,
        }
    }

    pub fn condition_mark(self) -> [u8; 2] {
        match self {
            Form::Plain => CONDITION_MARK,
            Form::Score => SCORE_CONDITION_MARK,
            Form::Shared => SHARED_CONDITION_MARK,
        }
    }

    pub fn condition_bytes(self) -> usize {
        match self {
            Form::Plain => CONDITION_BYTES,
            Form::Score => SCORE_CONDITION_BYTES,
            Form::Shared => SHARED_CONDITION_BYTES,
        }
    }
}

impl Condition {
    /// The left slots that the condition reads, lowest digit first.
    pub fn left_slots(&self) -> Range<usize> {
        self.first_left..self.first_left + self.digits
    }
}

impl Relation {
    pub fn from_code(code: u8) -> Option<Relation> {
        match code {
            1 => Some(Relation::Less),
            2 => Some(Relation::AtMost),
            3 => Some(Relation::Greater),
            4 => Some(Relation::AtLeast),
            5 => Some(Relation::Equal),
            6 => Some(Relation::Unequal),
            _ => None,
        }
    }

    /// Relations 1 to 4 compare by order, 5 and 6 by equality.
    pub fn is_order(self) -> bool {
        !matches!(self, Relation::Equal | Relation::Unequal)
    }

    /// z is "right minus left for 2, 3", left minus right for the others.
    pub fn swaps(self) -> bool {
        matches!(self, Relation::AtMost | Relation::Greater)
    }

    /// "Relations 2 and 4 end with FLIP", "Relation 6 ends with FLIP".
    pub fn ends_with_flip(self) -> bool {
        matches!(
            self,
            Relation::AtMost | Relation::AtLeast | Relation::Unequal
        )
    }
}

impl Card {
    /// Reads a card in the order of Build's refusals.
    pub fn read(bytes: &[u8]) -> Result<Card, Refusal> {
        demand(bytes.len() >= HEAD_BYTES, refusal::CARD_SHORT)?;
        let (head, rest) = bytes.split_at(HEAD_BYTES);
        let (p, weight, count, spare) = (head[2], head[3], head[4], head[5]);
        let form = Form::from_mark([head[0], head[1]]).ok_or(refusal::MARK)?;
        demand(is_listed(p), refusal::PRIME)?;
        demand(is_weight(weight), refusal::WEIGHT)?;
        demand(spare == 0, refusal::SPARE)?;
        demand(
            (1..=MOST_CONDITIONS).contains(&usize::from(count)),
            refusal::CONDITION_COUNT,
        )?;
        demand(
            rest.len() == form.condition_bytes() * usize::from(count),
            refusal::CARD_LENGTH,
        )?;
        let conditions = match form {
            Form::Plain => read_conditions::<CONDITION_BYTES>(form, p, rest)?,
            Form::Score => read_conditions::<SCORE_CONDITION_BYTES>(form, p, rest)?,
            Form::Shared => read_conditions::<SHARED_CONDITION_BYTES>(form, p, rest)?,
        };
        let card = Card {
            form,
            p,
            weight,
            conditions,
        };
        demand(card.digits() <= MOST_DIGITS, refusal::ALL_DIGITS)?;
        demand(card.total_weight() < u16::from(p), refusal::TOTAL_WEIGHT)?;
        Ok(card)
    }

    /// Reads a card where none but plain ones are taken: "cards that are not
    /// plain give 2", in the place of the head's mark.
    pub fn read_plain(bytes: &[u8]) -> Result<Card, Refusal> {
        demand(bytes.len() >= HEAD_BYTES, refusal::CARD_SHORT)?;
        demand(bytes[..2] == HEAD_MARK, refusal::MARK)?;
        Card::read(bytes)
    }

    /// N, the digits of all conditions together. Each has a right slot of its
    /// own on cards of all forms, so "refusal 10 counts right slots" is this.
    pub fn digits(&self) -> usize {
        self.conditions.iter().map(|c| c.digits).sum()
    }

    /// "The left slot count (highest used plus 1)": slots below the highest one
    /// that no condition uses are counted. N where each digit has its own.
    pub fn left_slots(&self) -> usize {
        let ends = self.conditions.iter().map(|c| c.left_slots().end);
        ends.max().unwrap_or(0)
    }

    /// The weights of all conditions together: the score where all hold, and 0
    /// on a card that is no score card.
    pub fn total_weight(&self) -> u16 {
        self.conditions.iter().map(|c| u16::from(c.weight)).sum()
    }
}

/// The bytes of a plain card with these conditions, each a relation and an n;
/// nothing is looked at, so that refused cards can be made too.
pub fn card_bytes(p: u8, weight: u8, conditions: &[(u8, u8)]) -> Vec<u8> {
    let mut card = head_bytes(Form::Plain, p, weight, conditions.len());
    for &(relation, n) in conditions {
        card.extend(condition_bytes(relation, n));
    }
    card
}

/// One condition's record of a plain card.
pub fn condition_bytes(relation: u8, n: u8) -> [u8; CONDITION_BYTES] {
    let [m0, m1] = CONDITION_MARK;
    [m0, m1, relation, n]
}

/// The bytes of a score card with these conditions, each a relation, an n and
/// its own weight; nothing is looked at here either.
pub fn score_card_bytes(p: u8, weight: u8, conditions: &[(u8, u8, u8)]) -> Vec<u8> {
    let mut card = head_bytes(Form::Score, p, weight, conditions.len());
    for &(relation, n, condition_weight) in conditions {
        card.extend(SCORE_CONDITION_MARK);
        card.extend([relation, n, condition_weight, 0]);
    }
    card
}

/// The bytes of a shared card with these conditions, each a relation, an n and
/// its first left slot; nothing is looked at here either.
pub fn shared_card_bytes(p: u8, weight: u8, conditions: &[(u8, u8, u8)]) -> Vec<u8> {
    let mut card = head_bytes(Form::Shared, p, weight, conditions.len());
    for &(relation, n, first_left) in conditions {
        card.extend(SHARED_CONDITION_MARK);
        card.extend([relation, n, first_left, 0]);
    }
    card
}

/// "Head, 6 bytes: mark .., p, weight s .., condition count c .., spare 0."
fn head_bytes(form: Form, p: u8, weight: u8, count: usize) -> Vec<u8> {
    let [m0, m1] = form.head_mark();
    vec![m0, m1, p, weight, count as u8, 0]
}

/// The weight s is 50 to 100 hundredths.
pub fn is_weight(weight: u8) -> bool {
    (50..=100).contains(&weight)
}

/// The conditions of records of this size, each whole before the next.
fn read_conditions<const SIZE: usize>(
    form: Form,
    p: u8,
    records: &[u8],
) -> Result<Vec<Condition>, Refusal> {
    let mut next_slot = 0;
    let mut conditions = Vec::new();
    for record in records.chunks_exact(SIZE) {
        let condition = read_condition(form, p, record, next_slot)?;
        next_slot += condition.digits;
        conditions.push(condition);
    }
    Ok(conditions)
}

/// "By condition 2 mark, 8 relation, 9 n"; the record of a score card or of a
/// shared card goes on. Without a first left slot of its own a condition has the
/// next one.
fn read_condition(
    form: Form,
    p: u8,
    record: &[u8],
    next_slot: usize,
) -> Result<Condition, Refusal> {
    demand(record[..2] == form.condition_mark(), refusal::MARK)?;
    let relation = Relation::from_code(record[2]).ok_or(refusal::RELATION)?;
    let digits = usize::from(record[3]);
    demand((1..=MOST_DIGITS).contains(&digits), refusal::DIGIT_COUNT)?;
    let (weight, first_left) = match form {
        Form::Plain => (0, next_slot),
        Form::Score => (read_weight(p, record[4], record[5])?, next_slot),
        Form::Shared => (0, read_first_slot(digits, record[4], record[5])?),
    };
    Ok(Condition {
        relation,
        digits,
        weight,
        first_left,
    })
}

/// "25, a weight of 0 or of p and more, after 9 for its record"; "a spare that
/// is not 0 gives 5, after 25".
fn read_weight(p: u8, weight: u8, spare: u8) -> Result<u8, Refusal> {
    demand((1..p).contains(&weight), refusal::CONDITION_WEIGHT)?;
    demand(spare == 0, refusal::SPARE)?;
    Ok(weight)
}

/// "28, first slot plus n above 16, after 9 of its record and before a spare's
/// 5."
fn read_first_slot(digits: usize, first_slot: u8, spare: u8) -> Result<usize, Refusal> {
    let first_slot = usize::from(first_slot);
    demand(first_slot + digits <= MOST_DIGITS, refusal::FIRST_SLOT)?;
    demand(spare == 0, refusal::SPARE)?;
    Ok(first_slot)
}
