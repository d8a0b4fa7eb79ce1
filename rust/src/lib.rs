//! The query builder for encrypted records: twelve operations of a proved library, called safely.
//!
//! Every function answers for all inputs. A refusal is the rules' number and nothing else, and
//! leaves every lent byte and entry as it was. A card is a plain one, which asks for a yes or no, a score
//! card, which asks for the sum of the weights of the conditions that hold, or a shared card, which
//! asks for a yes or no and whose conditions may be over the same left slots; `build` and `forecast`
//! take all three, `build_within` plain ones. A [`Filling`] fills a plain card in condition by condition.
//!
//! The head of a shared card's table has a slot count for each side, byte 4 the left one and byte 5 the
//! right one; that of any other has one for both, byte 4. `run` takes lists of these lengths.
//!
//! The b of a SCALE in a table is its constant: a signed number of 16 bits, two's complement, from
//! -(p-1)/2 to (p-1)/2. A table that was kept from before constants had signs, with one above
//! (p-1)/2, is refused with 17 by `check`, `run` and `last_uses`, and `trim` hands back its empty part: build it
//! anew from its card.
//!
//! Each `unsafe` call is sound: a slice is passed as its pointer and its length, no reference is
//! null, and Rust keeps what is lent for writing apart from everything else.

use std::fmt;

mod exports;

/// Levels of products.
#[derive(Clone, Copy, Debug, PartialEq, Eq, PartialOrd, Ord)]
pub struct Depth(pub u16);

/// Hundredths of a product.
#[derive(Clone, Copy, Debug, PartialEq, Eq, PartialOrd, Ord)]
pub struct Cost(pub u32);

/// What Build, Forecast and Check tell of a table.
#[derive(Clone, Copy, Debug, PartialEq, Eq)]
pub struct Report {
    pub gates: u16,
    pub products: u16,
    pub squares: u16,
    pub cost: Cost,
    pub depth: Depth,
}

impl Report {
    /// How many bytes the table has: a record for the head and for each gate.
    pub fn table_bytes(&self) -> usize {
        8 * (usize::from(self.gates) + 1)
    }

    /// A report to be lent.
    const BLANK: Report = Report {
        gates: 0,
        products: 0,
        squares: 0,
        cost: Cost(0),
        depth: Depth(0),
    };
}

/// One of two lent tables.
#[derive(Clone, Copy, Debug, PartialEq, Eq)]
pub enum Which {
    First,
    Second,
}

/// The table that is handed back of two lent ones: which it is, its bytes, from the start of it on, and
/// the report on it.
#[derive(Clone, Copy, Debug, PartialEq, Eq)]
pub struct Part<'a> {
    pub which: Which,
    pub bytes: &'a [u8],
    pub report: Report,
}

/// What tells of a part, to be lent: which table, 1 or 2, how many bytes of it, and the report.
#[derive(Clone, Copy, Debug, PartialEq, Eq)]
struct Handed {
    which: u8,
    length: usize,
    report: Report,
}

/// A plain card that is filled in condition by condition over a lent table: `begin`, `add` for each
/// condition, `finish`. What `finish` leaves and answers is what [`build`] does for the whole card over the
/// bytes that `begin` found.
///
/// The table stays lent, so nobody else writes it meanwhile; `table` hands it out to be read, by [`check`]
/// and [`run`] too. While the build is open its head tells the slots and gates so far, and `run` answers
/// the newest condition; before the first one `check` gives 13.
///
/// A refused call changes nothing. An accepted `begin` starts afresh, also over an open build.
#[derive(Debug)]
pub struct Filling<'a> {
    state: [u16; 24],
    table: &'a mut [u8],
}

/// Why an operation turns its input away, by the rules' number.
#[derive(Clone, Copy, Debug, PartialEq, Eq)]
pub struct Refusal(pub u8);

impl fmt::Display for Refusal {
    fn fmt(&self, f: &mut fmt::Formatter<'_>) -> fmt::Result {
        write!(f, "refused {}", self.0)
    }
}

impl std::error::Error for Refusal {}

/// An answer by the status of its call: 0 is success.
fn accepted<T>(status: u8, answer: T) -> Result<T, Refusal> {
    match status {
        0 => Ok(answer),
        number => Err(Refusal(number)),
    }
}

fn build_into(card: &[u8], table: &mut [u8], told: &mut Report) -> u8 {
    unsafe {
        exports::staplethread_build(
            card.as_ptr(),
            card.len(),
            table.as_mut_ptr(),
            table.len(),
            &mut told.gates,
            &mut told.products,
            &mut told.squares,
            &mut told.cost.0,
            &mut told.depth.0,
        )
    }
}

fn build_within_into(
    card: &[u8],
    cap: Depth,
    first: &mut [u8],
    second: &mut [u8],
    told: &mut Handed,
) -> u8 {
    unsafe {
        exports::staplethread_build_within(
            card.as_ptr(),
            card.len(),
            cap.0,
            first.as_mut_ptr(),
            first.len(),
            second.as_mut_ptr(),
            second.len(),
            &mut told.which,
            &mut told.length,
            &mut told.report.gates,
            &mut told.report.products,
            &mut told.report.squares,
            &mut told.report.cost.0,
            &mut told.report.depth.0,
        )
    }
}

fn finish_into(state: &mut [u16; 24], table: &mut [u8], told: &mut Report) -> u8 {
    unsafe {
        exports::staplethread_finish(
            state,
            table.as_mut_ptr(),
            table.len(),
            &mut told.gates,
            &mut told.products,
            &mut told.squares,
            &mut told.cost.0,
            &mut told.depth.0,
        )
    }
}

fn forecast_into(card: &[u8], told: &mut Report) -> u8 {
    unsafe {
        exports::staplethread_forecast(
            card.as_ptr(),
            card.len(),
            &mut told.gates,
            &mut told.products,
            &mut told.squares,
            &mut told.cost.0,
            &mut told.depth.0,
        )
    }
}

fn check_into(table: &[u8], told: &mut Report) -> u8 {
    unsafe {
        exports::staplethread_check(
            table.as_ptr(),
            table.len(),
            &mut told.gates,
            &mut told.products,
            &mut told.squares,
            &mut told.cost.0,
            &mut told.depth.0,
        )
    }
}

fn run_into(table: &[u8], left: &[u8], right: &[u8], work: &mut [u8], output: &mut u8) -> u8 {
    unsafe {
        exports::staplethread_run(
            table.as_ptr(),
            table.len(),
            left.as_ptr(),
            left.len(),
            right.as_ptr(),
            right.len(),
            work.as_mut_ptr(),
            work.len(),
            output,
        )
    }
}

fn last_uses_into(table: &[u8], list: &mut [u16], gates: &mut u16) -> u8 {
    unsafe {
        exports::staplethread_last_uses(
            table.as_ptr(),
            table.len(),
            list.as_mut_ptr(),
            list.len(),
            gates,
        )
    }
}

fn decode_into(p: u8, digits: &[u8], number: &mut u64) -> u8 {
    unsafe { exports::staplethread_decode(p, digits.as_ptr(), digits.len(), number) }
}

/// The table of a card at the start of `table`. It fills exactly 8(G+1) bytes.
pub fn build(card: &[u8], table: &mut [u8]) -> Result<Report, Refusal> {
    let mut told = Report::BLANK;
    accepted(build_into(card, table, &mut told), told)
}

/// Two tables of a plain card, and the part that is the cheaper one within so many levels, the first
/// where both cost the same. At the start of `first` then stands the table that `build` writes, at the
/// start of `second` that of the best step size: none within the cap costs less, and of those that cost
/// the same it has the lowest depth, then the lowest step size. Each fills exactly the 8(G+1) bytes of
/// its own G; the report is what `check` answers for the part.
///
/// Both answer the card for all digits below (p+1)/2. That depth and cost are the formulas', and that
/// all gates count, is so of the first. No table is longer than 65,536 bytes.
pub fn build_within<'a>(
    card: &[u8],
    cap: Depth,
    first: &'a mut [u8],
    second: &'a mut [u8],
) -> Result<Part<'a>, Refusal> {
    let mut told = Handed {
        which: 0,
        length: 0,
        report: Report::BLANK,
    };
    let status = build_within_into(card, cap, first, second, &mut told);
    accepted(status, told).map(|told| {
        let (which, lent) = match told.which {
            1 => (Which::First, first),
            _ => (Which::Second, second),
        };
        Part {
            which,
            bytes: &lent[..told.length],
            report: told.report,
        }
    })
}

impl<'a> Filling<'a> {
    /// No build is open yet; no byte of the table is changed.
    pub fn over(table: &'a mut [u8]) -> Filling<'a> {
        Filling {
            state: [0; 24],
            table,
        }
    }

    /// Begins a build for the prime p and the weight s of a square: the head of a table of no gates, at
    /// the start of the lent bytes. Refused with 3, 4, or 11 under 8 bytes; an open build then stays open.
    pub fn begin(&mut self, p: u8, s: u8) -> Result<(), Refusal> {
        let (table, length) = (self.table.as_mut_ptr(), self.table.len());
        let status = unsafe { exports::staplethread_begin(&mut self.state, p, s, table, length) };
        accepted(status, ())
    }

    /// Adds the condition of a record of 4 bytes. Refused with 31 where no build is open, 30 for a ninth
    /// condition, 7 for another length, then 2, 8, 9, 10, and 11 where its gates do not fit.
    pub fn add(&mut self, record: &[u8]) -> Result<(), Refusal> {
        let (table, length) = (self.table.as_mut_ptr(), self.table.len());
        let status = unsafe {
            exports::staplethread_add(
                &mut self.state,
                record.as_ptr(),
                record.len(),
                table,
                length,
            )
        };
        accepted(status, ())
    }

    /// Ends the table and closes the build. Refused with 31 where no build is open or none is added, and
    /// with 11 where the table does not fit.
    pub fn finish(&mut self) -> Result<Report, Refusal> {
        let mut told = Report::BLANK;
        let status = finish_into(&mut self.state, self.table, &mut told);
        accepted(status, told)
    }

    /// All lent bytes, as they stand.
    pub fn table(&self) -> &[u8] {
        self.table
    }
}

/// Build's report, from the card only.
pub fn forecast(card: &[u8]) -> Result<Report, Refusal> {
    let mut told = Report::BLANK;
    accepted(forecast_into(card, &mut told), told)
}

/// The report on a table. Later bytes are not looked at. Products, squares and cost count the MULs
/// among the output and the gates that it depends on, directly or through others, and two MULs over
/// the same pair of gates, in either order, once; gates and depth are those of the table as it stands.
pub fn check(table: &[u8]) -> Result<Report, Refusal> {
    let mut told = Report::BLANK;
    accepted(check_into(table, &mut told), told)
}

/// The part of the bytes that is the table, or the empty part where Check refuses.
pub fn trim(table: &[u8]) -> &[u8] {
    let length = unsafe { exports::staplethread_trim(table.as_ptr(), table.len()) };
    &table[..length]
}

/// The values of all gates at the start of `work`; the answer is the output's. Each list is as long as
/// the table's head says for its side.
pub fn run(table: &[u8], left: &[u8], right: &[u8], work: &mut [u8]) -> Result<u8, Refusal> {
    let mut output = 0;
    accepted(run_into(table, left, right, work, &mut output), output)
}

/// For each gate the number of the last gate that reads it, or its own number where none does, at
/// the start of `list`; the answer is the gate count. By that list no gate is read after its
/// release, and no list by which that is so, and by which none is released before it is there,
/// releases any gate earlier.
///
/// A runner that has carried gate k out lets go of each gate that it read whose entry is k, and of
/// gate k itself where its own entry is k, unless it is the last one, the output.
pub fn last_uses(table: &[u8], list: &mut [u16]) -> Result<u16, Refusal> {
    let mut gates = 0;
    accepted(last_uses_into(table, list, &mut gates), gates)
}

/// The n digits of a number, lowest first, at the start of `out`.
pub fn encode(p: u8, n: usize, number: u64, out: &mut [u8]) -> Result<(), Refusal> {
    let status = unsafe { exports::staplethread_encode(p, n, number, out.as_mut_ptr(), out.len()) };
    accepted(status, ())
}

/// The number that digits stand for.
pub fn decode(p: u8, digits: &[u8]) -> Result<u64, Refusal> {
    let mut number = 0;
    accepted(decode_into(p, digits, &mut number), number)
}

#[cfg(test)]
mod tests {
    use super::*;

    const CARD: [u8; 10] = [0xC5, 0x48, 3, 75, 1, 0, 0xC5, 0x51, 1, 1];

    #[test]
    fn a_refusal_keeps_every_lent_number() {
        let before = Report {
            gates: 1,
            products: 2,
            squares: 3,
            cost: Cost(4),
            depth: Depth(5),
        };
        let mut told = before;
        let mut table = [0; 63];
        assert_eq!(forecast_into(&CARD[..5], &mut told), 1);
        assert_eq!(build_into(&CARD, &mut table, &mut told), 11);
        assert_eq!(check_into(&table[..7], &mut told), 12);
        assert_eq!(finish_into(&mut [0; 24], &mut table, &mut told), 31);
        assert_eq!(told, before);
        let before = Handed {
            which: 9,
            length: 10,
            report: before,
        };
        let mut told = before;
        let mut others = [0; 64];
        let mut within = |cap, first: &mut [u8], second: &mut [u8]| {
            build_within_into(&CARD, Depth(cap), first, second, &mut told)
        };
        assert_eq!(within(0, &mut others, &mut table), 29);
        assert_eq!(within(1, &mut others, &mut table), 11);
        assert_eq!(within(1, &mut table, &mut others), 11);
        assert_eq!(told, before);
        let (mut output, mut number, mut gates) = (6, 7, 8);
        assert_eq!(run_into(&table, &[0], &[0], &mut [], &mut output), 2);
        assert_eq!(decode_into(5, &[3], &mut number), 23);
        assert_eq!(last_uses_into(&table, &mut [], &mut gates), 2);
        assert_eq!((output, number, gates), (6, 7, 8));
    }
}
