//! "A card filled in condition by condition": begin, add and finish, with Check
//! and Run between them.
//!
//! The one-go build writes the conditions in order and the product tree last, so
//! the gates of the conditions so far are the first ones of its table, whatever
//! comes after them. Each call works that table out anew from p, s and the records
//! accepted so far, and copies its own part of it; no byte of the lent table is
//! read.

use crate::build::write_base;
use crate::card::{is_weight, Card, CONDITION_BYTES, HEAD_BYTES, HEAD_MARK, MOST_CONDITIONS};
use crate::field::is_listed;
use crate::forecast::card_report;
use crate::refusal::{self, demand, Refusal};
use crate::report::Report;
use crate::table::{table_bytes, Head, Slots, RECORD_BYTES};

/// The build's state "as the last accepted begin, add or finish left it; at the
/// start no build is open".
#[derive(Clone, Debug, Default, PartialEq, Eq)]
pub struct Filling {
    open: Option<OpenBuild>,
}

/// What the accepted begin was given, and the records accepted since.
#[derive(Clone, Debug, PartialEq, Eq)]
struct OpenBuild {
    p: u8,
    /// s, the weight of a square.
    weight: u8,
    records: Vec<[u8; CONDITION_BYTES]>,
}

impl Filling {
    pub fn new() -> Filling {
        Filling::default()
    }

    /// "Begin gives 3, 4, or 11 under 8 bytes"; "an accepted begin starts afresh,
    /// also over an open build". Only the head is written: no slot and no gate, so
    /// that "before the first one, check gives 13".
    pub fn begin(&mut self, p: u8, s: u8, table: &mut [u8]) -> Result<(), Refusal> {
        demand(is_listed(p), refusal::PRIME)?;
        demand(is_weight(s), refusal::WEIGHT)?;
        let fresh = OpenBuild {
            p,
            weight: s,
            records: Vec::new(),
        };
        room_for(0, table)?.copy_from_slice(&fresh.head().record());
        self.open = Some(fresh);
        Ok(())
    }

    /// "31, add .. with no build open .., before all else; 30, a ninth condition,
    /// next"; then "7 for a length not 4, then 2, 8, 9, 10", which are Build's for
    /// the card so far with this record; "and 11 where its gates do not fit".
    pub fn add(&mut self, record: &[u8], table: &mut [u8]) -> Result<(), Refusal> {
        let open = self.open.as_mut().ok_or(refusal::NO_BUILD)?;
        demand(
            open.records.len() < MOST_CONDITIONS,
            refusal::NINTH_CONDITION,
        )?;
        let record = record.try_into().map_err(|_| refusal::CARD_LENGTH)?;
        let longer = open.with(record);
        let (one_go, _) = one_go_build(&longer.card()?);
        let head = longer.head();
        let table = room_for(head.gates, table)?;
        put(table, &head, &one_go, table_bytes(open.head().gates));
        *open = longer;
        Ok(())
    }

    /// "31, .. finish with no build open, or finish with none added, before all
    /// else"; then 11. "An accepted finish leaves exactly the bytes of the one-go
    /// build and answers as it does", and "closes the build".
    pub fn finish(&mut self, table: &mut [u8]) -> Result<Report, Refusal> {
        let open = self.open.as_ref().ok_or(refusal::NO_BUILD)?;
        demand(!open.records.is_empty(), refusal::NO_BUILD)?;
        let (one_go, report) = one_go_build(&open.card()?);
        let table = room_for(report.gates, table)?;
        let before_tree = open.head();
        let head = Head {
            gates: report.gates,
            ..before_tree
        };
        put(table, &head, &one_go, table_bytes(before_tree.gates));
        self.open = None;
        Ok(report)
    }
}

impl OpenBuild {
    /// The build with one more record.
    fn with(&self, record: [u8; CONDITION_BYTES]) -> OpenBuild {
        let mut longer = self.clone();
        longer.records.push(record);
        longer
    }

    /// The card of the records so far, read as Build reads it.
    fn card(&self) -> Result<Card, Refusal> {
        let [m0, m1] = HEAD_MARK;
        let count = self.records.len() as u8;
        let head: [u8; HEAD_BYTES] = [m0, m1, self.p, self.weight, count, 0];
        Card::read_plain(&[&head[..], &self.records.concat()].concat())
    }

    /// "The table's head tells the gates and slots added so far." The gates are
    /// those of the card but for the product tree, which has one fewer than there
    /// are conditions.
    fn head(&self) -> Head {
        let (slots, gates) = if self.records.is_empty() {
            (0, 0)
        } else {
            let card = self.card().expect("accepted records make a card");
            let tree = self.records.len() as u16 - 1;
            (card.digits() as u8, card_report(&card).gates - tree)
        };
        Head {
            p: self.p,
            weight: self.weight,
            slots: Slots::Both(slots),
            gates,
        }
    }
}

/// The table of the one-go build, and what it answers.
fn one_go_build(card: &Card) -> (Vec<u8>, Report) {
    let mut table = vec![0; table_bytes(card_report(card).gates)];
    let report = write_base(card, &mut table);
    (table, report)
}

/// The bytes that a table of so many gates takes: 11 where they are not all lent.
fn room_for(gates: u16, table: &mut [u8]) -> Result<&mut [u8], Refusal> {
    table
        .get_mut(..table_bytes(gates))
        .ok_or(refusal::TABLE_ROOM)
}

/// Puts the head and, from the one-go build's table, the gates after `kept` bytes.
fn put(table: &mut [u8], head: &Head, one_go: &[u8], kept: usize) {
    let end = table.len();
    table[..RECORD_BYTES].copy_from_slice(&head.record());
    table[kept..].copy_from_slice(&one_go[kept..end]);
}
