//! "Fewer products by a step size": two tables of a plain card, and which of
//! them is handed back.

use crate::build::{
    equality_digit, write_base, write_power, write_sum, write_table, Order, OrderDigits, Wire,
    Writer,
};
use crate::card::Card;
use crate::forecast::card_report;
use crate::refusal::{self, demand, Refusal};
use crate::report::{Depth, Report};
use crate::step_count::{
    best_choice, last_step, order_terms, piece_of, split_place, step_report, Choice,
};
use crate::table::{check, table_bytes};

/// What is handed back: the buffer, the first one or the second, how many bytes of
/// it the part has, and "Build's answers for the table handed back".
#[derive(Clone, Copy, Debug, PartialEq, Eq)]
pub struct Offer {
    pub which: u8,
    pub length: usize,
    pub report: Report,
}

/// "The caller lends two tables and a depth cap. The base table goes into the
/// first, the best step size into the second, and the part handed back is that of
/// the cheaper one within the cap, ties to the first."
///
/// Build's refusals up to 10, with 2 for a card that is not plain; then "29,
/// neither the base table nor any k within the cap, before 11"; then 11. "If no k
/// fits the cap the second buffer is not written; otherwise 11 reads both buffers.
/// Bytes after either table are kept."
pub fn build_within(
    card: &[u8],
    cap: u16,
    first: &mut [u8],
    second: &mut [u8],
) -> Result<Offer, Refusal> {
    let card = Card::read_plain(card)?;
    let base = card_report(&card);
    let choice = best_choice(&card, cap);
    let base_fits = base.depth <= Depth(cap);
    demand(base_fits || choice.is_some(), refusal::DEPTH_CAP)?;
    let first = room_for(&base, first)?;
    let Some(choice) = choice else {
        return Ok(offer(1, write_base(&card, first)));
    };
    let second = room_for(&choice.report, second)?;
    let base = write_base(&card, first);
    let stepped = write_stepped(&card, choice.step, second);
    Ok(if base_fits && base.cost <= stepped.cost {
        offer(1, base)
    } else {
        offer(2, stepped)
    })
}

/// The step size that goes into the second buffer, or `None` where no k fits the
/// cap; the refusals of the card alone.
pub fn best_step(card: &[u8], cap: u16) -> Result<Option<u8>, Refusal> {
    let choice = best_choice(&Card::read_plain(card)?, cap);
    Ok(choice.map(|Choice { step, .. }| step))
}

/// The table of a plain card with a step size from 1 to (p-1)/2, whatever its
/// depth: Build's refusals, and what Check answers for it. Another step size is
/// the caller's mistake and panics.
pub fn build_step(card: &[u8], step: u8, table: &mut [u8]) -> Result<Report, Refusal> {
    let card = Card::read_plain(card)?;
    assert!((1..=last_step(card.p)).contains(&step), "no step size");
    let table = room_for(&step_report(&card, step), table)?;
    Ok(write_stepped(&card, step, table))
}

fn offer(which: u8, report: Report) -> Offer {
    Offer {
        which,
        length: table_bytes(report.gates),
        report,
    }
}

/// The bytes that a table with this report takes.
fn room_for<'a>(report: &Report, table: &'a mut [u8]) -> Result<&'a mut [u8], Refusal> {
    let room = table_bytes(report.gates);
    table.get_mut(..room).ok_or(refusal::TABLE_ROOM)
}

/// Writes the table with a step size. "Cost is E5's count", since not all of its
/// MULs are used, and "a chain may repeat a square": so the counts are Check's.
fn write_stepped(card: &Card, step: u8, table: &mut [u8]) -> Report {
    write_table(card, table, &mut StepDigits::new(card, step));
    check(table).expect("a table that Check accepts")
}

/// The order digits with a step size.
struct StepDigits {
    step: usize,
    /// The constants of z^1 to z^(p-1).
    terms: Vec<u8>,
}

/// The powers of one digit that its sum is made of.
struct Powers {
    /// z^i at place i, for i from 1 to k. Place 0 holds z and is never used.
    small: Vec<Wire>,
    /// z^(k 2^e) at place e.
    large: Vec<Wire>,
}

impl StepDigits {
    fn new(card: &Card, step: u8) -> StepDigits {
        StepDigits {
            step: usize::from(step),
            terms: order_terms(card.p),
        }
    }

    /// "Writes z^2 to z^k ascending .., then squares to z^(2k), z^(4k), up to the
    /// highest split below", which is the first one of the whole sum.
    fn write_powers(&self, writer: &mut Writer, z: Wire) -> Powers {
        let mut small = vec![z; 2];
        for i in 2..=self.step {
            small.push(write_power(writer, &small, i));
        }
        let highest = split_place(self.step, piece_of(&self.terms).len());
        let mut power = small[self.step];
        let mut large = vec![power];
        for _ in 0..self.doublings(highest) {
            power = writer.square(power);
            large.push(power);
        }
        Powers { small, large }
    }

    /// e of a split's place, which is k 2^e.
    fn doublings(&self, place: usize) -> usize {
        (place / self.step).ilog2() as usize
    }

    /// Writes a piece that is not zero and has no zero terms at its end.
    fn write_piece(&self, writer: &mut Writer, powers: &Powers, piece: &[u8]) -> Wire {
        if piece.len() <= self.step {
            // "Its nonzero terms, ascending, as SCALEs and ADDs."
            let terms = powers.small[1..].iter().copied().zip(piece.iter().copied());
            return write_sum(writer, terms.filter(|&(_, constant)| constant != 0));
        }
        let place = split_place(self.step, piece.len());
        let power = powers.large[self.doublings(place)];
        // "Terms up to z^m are the lower piece, written first; the others, divided
        // by z^m, are the upper."
        let (lower, upper) = piece.split_at(place);
        let lower = match piece_of(lower) {
            [] => None,
            lower => Some(self.write_piece(writer, powers, lower)),
        };
        let upper = self.write_piece(writer, powers, upper);
        // "Then come MUL(z^m, upper) and, if the lower is not zero, ADD(lower, it)."
        let product = writer.mul(power, upper);
        match lower {
            None => product,
            Some(lower) => writer.add(lower, product),
        }
    }
}

impl OrderDigits for StepDigits {
    /// "z^(p-1) for E" uses "the binary chain, written after the sum": just the
    /// gates of an equality digit, with its FLIP.
    fn write_digit(&mut self, writer: &mut Writer, z: Wire, is_lowest: bool) -> Order {
        let powers = self.write_powers(writer, z);
        let less = self.write_piece(writer, &powers, piece_of(&self.terms));
        let equal = (!is_lowest).then(|| equality_digit(writer, z));
        Order { less, equal }
    }
}
