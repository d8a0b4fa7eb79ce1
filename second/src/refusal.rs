//! The numbers of "Operations and what they turn away", and those of scored
//! queries, of the last-use list, of two conditions over the same field, of step
//! sizes and of cards filled in condition by condition.

/// A refusal answers its number and nothing else.
pub type Refusal = u8;

pub const CARD_SHORT: Refusal = 1;
pub const MARK: Refusal = 2;
pub const PRIME: Refusal = 3;
pub const WEIGHT: Refusal = 4;
pub const SPARE: Refusal = 5;
pub const CONDITION_COUNT: Refusal = 6;
pub const CARD_LENGTH: Refusal = 7;
pub const RELATION: Refusal = 8;
pub const DIGIT_COUNT: Refusal = 9;
pub const ALL_DIGITS: Refusal = 10;
pub const TABLE_ROOM: Refusal = 11;
pub const TABLE_SHORT: Refusal = 12;
pub const SLOT_COUNT: Refusal = 13;
pub const GATE_COUNT: Refusal = 14;
pub const TABLE_LENGTH: Refusal = 15;
pub const KIND: Refusal = 16;
pub const OPERAND: Refusal = 17;
pub const LIST_LENGTH: Refusal = 18;
pub const LIST_VALUE: Refusal = 19;
pub const WORK_ROOM: Refusal = 20;
pub const OUT_ROOM: Refusal = 21;
pub const NUMBER_LARGE: Refusal = 22;
pub const DIGIT_LARGE: Refusal = 23;
pub const NUMBER_OVERFLOW: Refusal = 24;
pub const CONDITION_WEIGHT: Refusal = 25;
pub const TOTAL_WEIGHT: Refusal = 26;
pub const USES_ROOM: Refusal = 27;
pub const FIRST_SLOT: Refusal = 28;
pub const DEPTH_CAP: Refusal = 29;
pub const NINTH_CONDITION: Refusal = 30;
pub const NO_BUILD: Refusal = 31;

/// `Ok` where the condition holds, else the refusal.
pub fn demand(condition: bool, refusal: Refusal) -> Result<(), Refusal> {
    if condition {
        Ok(())
    } else {
        Err(refusal)
    }
}
