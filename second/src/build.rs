//! Build: "Writing one condition", "Whole card", "Scored queries" and "Two
//! conditions over the same field", all with "Constants near zero". How order
//! digits are written is a choice of the caller's, since a step size writes other
//! ones into the same table.

use crate::card::{Card, Condition, Form, Relation};
use crate::field::{near_zero, order_constants};
use crate::forecast::card_report;
use crate::refusal::{self, Refusal};
use crate::report::{cost, Depth, Report};
use crate::table::{table_bytes, Gate, Head, Kind, Slots, RECORD_BYTES};

/// A written gate: its number and its depth.
#[derive(Clone, Copy, Debug, PartialEq, Eq)]
pub(crate) struct Wire {
    gate: u16,
    depth: u16,
}

/// L of an order digit or of a run of them, and E unless it has digit 0.
#[derive(Clone, Copy, Debug)]
pub(crate) struct Order {
    pub less: Wire,
    pub equal: Option<Wire>,
}

/// How the order digits of a card are written.
pub(crate) trait OrderDigits {
    /// The gates of a digit after its z: L, and E unless it is the lowest one.
    fn write_digit(&mut self, writer: &mut Writer, z: Wire, is_lowest: bool) -> Order;
}

/// The order digits of "Writing one condition".
struct BaseDigits {
    p: u8,
    /// Those of the prime, which serve all order conditions of the card.
    constants: Vec<u8>,
    /// The powers of the digit at hand.
    powers: Vec<Wire>,
}

/// Writes gates into the lent table and counts them.
pub(crate) struct Writer<'a> {
    p: u8,
    table: &'a mut [u8],
    gates: u16,
    products: u16,
    squares: u16,
}

/// Build: fills exactly 8(G+1) bytes of the table.
pub fn build(card: &[u8], table: &mut [u8]) -> Result<Report, Refusal> {
    let card = Card::read(card)?;
    let room = table_bytes(card_report(&card).gates);
    let table = table.get_mut(..room).ok_or(refusal::TABLE_ROOM)?;
    Ok(write_base(&card, table))
}

/// Writes Build's table of the card into a part that has room for it.
pub(crate) fn write_base(card: &Card, table: &mut [u8]) -> Report {
    write_table(card, table, &mut BaseDigits::new(card))
}

/// Writes a table of the card with such order digits. All MULs are counted as
/// they are written, which is what a table of Build's keeps; one with other
/// digits may count fewer.
pub(crate) fn write_table(card: &Card, table: &mut [u8], digits: &mut impl OrderDigits) -> Report {
    let mut writer = Writer::new(card.p, table);
    let output = write_card(&mut writer, card, digits);
    writer.write_head(card);
    Report {
        gates: writer.gates,
        products: writer.products,
        squares: writer.squares,
        cost: cost(card.weight, writer.products, writer.squares),
        depth: Depth(output.depth),
    }
}

impl<'a> Writer<'a> {
    fn new(p: u8, table: &'a mut [u8]) -> Writer<'a> {
        Writer {
            p,
            table,
            gates: 0,
            products: 0,
            squares: 0,
        }
    }

    fn write_head(&mut self, card: &Card) {
        let head = Head {
            p: card.p,
            weight: card.weight,
            slots: head_slots(card),
            gates: self.gates,
        };
        self.table[..RECORD_BYTES].copy_from_slice(&head.record());
    }

    fn write(&mut self, kind: Kind, a: u16, b: u16, depth: u16) -> Wire {
        let gate = Gate { kind, a, b };
        let number = self.gates;
        let start = table_bytes(number);
        self.table[start..start + RECORD_BYTES].copy_from_slice(&gate.record());
        self.gates += 1;
        self.products += u16::from(gate.is_product());
        self.squares += u16::from(gate.is_square());
        Wire {
            gate: number,
            depth,
        }
    }

    fn left(&mut self, slot: usize) -> Wire {
        self.write(Kind::Left, slot as u16, 0, 0)
    }

    fn right(&mut self, slot: usize) -> Wire {
        self.write(Kind::Right, slot as u16, 0, 0)
    }

    pub(crate) fn add(&mut self, a: Wire, b: Wire) -> Wire {
        self.write(Kind::Add, a.gate, b.gate, a.depth.max(b.depth))
    }

    fn sub(&mut self, a: Wire, b: Wire) -> Wire {
        self.write(Kind::Sub, a.gate, b.gate, a.depth.max(b.depth))
    }

    /// The constant, below p here, is written as the number near zero.
    pub(crate) fn scale(&mut self, a: Wire, constant: u8) -> Wire {
        let b = near_zero(self.p, constant).cast_unsigned();
        self.write(Kind::Scale, a.gate, b, a.depth)
    }

    pub(crate) fn flip(&mut self, a: Wire) -> Wire {
        self.write(Kind::Flip, a.gate, 0, a.depth)
    }

    pub(crate) fn mul(&mut self, a: Wire, b: Wire) -> Wire {
        self.write(Kind::Mul, a.gate, b.gate, a.depth.max(b.depth) + 1)
    }

    pub(crate) fn square(&mut self, a: Wire) -> Wire {
        self.mul(a, a)
    }
}

/// The counts of the head: a shared card's has one for each side.
fn head_slots(card: &Card) -> Slots {
    let right = card.digits() as u8;
    match card.form {
        Form::Plain | Form::Score => Slots::Both(right),
        Form::Shared => Slots::Each {
            left: card.left_slots() as u8,
            right,
        },
    }
}

/// "Conditions in order, then the product tree over their outputs"; a score
/// card has the score in its place: "there is no product tree".
fn write_card(writer: &mut Writer, card: &Card, digits: &mut impl OrderDigits) -> Wire {
    let outputs = write_conditions(writer, card, digits);
    match card.form {
        Form::Plain | Form::Shared => product_tree(writer, outputs),
        Form::Score => write_score(writer, card, &outputs),
    }
}

/// "After all conditions' gates, each condition's output is scaled by its
/// weight, in card order, and every term after the first is followed by
/// ADD(sum, it)."
fn write_score(writer: &mut Writer, card: &Card, outputs: &[Wire]) -> Wire {
    let weights = card.conditions.iter().map(|condition| condition.weight);
    write_sum(writer, outputs.iter().copied().zip(weights))
}

/// The conditions in order, each in its left slots and in the next right ones:
/// "right slots are still handed out in order". Their outputs.
fn write_conditions(writer: &mut Writer, card: &Card, digits: &mut impl OrderDigits) -> Vec<Wire> {
    let mut first_right = 0;
    let mut outputs = Vec::with_capacity(card.conditions.len());
    for condition in &card.conditions {
        outputs.push(write_condition(writer, digits, condition, first_right));
        first_right += condition.digits;
    }
    outputs
}

/// "Digits go low to high", then they are joined, then the last FLIP. "Each
/// writes LEFT, RIGHT", also where an earlier condition has that left slot's.
fn write_condition(
    writer: &mut Writer,
    order_digits: &mut impl OrderDigits,
    condition: &Condition,
    first_right: usize,
) -> Wire {
    let relation = condition.relation;
    let slots = condition.left_slots().zip(first_right..);
    let joined = if relation.is_order() {
        let mut digits = Vec::with_capacity(condition.digits);
        for (left, right) in slots {
            let is_lowest = digits.is_empty();
            let z = write_difference(writer, relation, left, right);
            digits.push(order_digits.write_digit(writer, z, is_lowest));
        }
        join_order(writer, &digits).less
    } else {
        let mut digits = Vec::with_capacity(condition.digits);
        for (left, right) in slots {
            let z = write_difference(writer, relation, left, right);
            digits.push(equality_digit(writer, z));
        }
        product_tree(writer, digits)
    };
    if relation.ends_with_flip() {
        writer.flip(joined)
    } else {
        joined
    }
}

/// "Each writes LEFT, RIGHT, then z: left minus right for relations 1, 4, 5,
/// 6, right minus left for 2, 3."
fn write_difference(
    writer: &mut Writer,
    relation: Relation,
    left_slot: usize,
    right_slot: usize,
) -> Wire {
    let left = writer.left(left_slot);
    let right = writer.right(right_slot);
    if relation.swaps() {
        writer.sub(right, left)
    } else {
        writer.sub(left, right)
    }
}

/// "t=p-1, bit 0 upward. At each bit after 0 square the running power. At a
/// set bit it becomes the collected power, or MUL (collected, running) if one
/// exists. After the top bit, FLIP."
pub(crate) fn equality_digit(writer: &mut Writer, z: Wire) -> Wire {
    let mut bits = writer.p - 1;
    let mut running = z;
    let mut collected: Option<Wire> = None;
    loop {
        if bits & 1 == 1 {
            collected = Some(match collected {
                None => running,
                Some(power) => writer.mul(power, running),
            });
        }
        bits >>= 1;
        if bits == 0 {
            break;
        }
        running = writer.square(running);
    }
    writer.flip(collected.expect("p-1 has a set bit"))
}

impl BaseDigits {
    fn new(card: &Card) -> BaseDigits {
        let constants = if card.conditions.iter().any(|c| c.relation.is_order()) {
            order_constants(card.p)
        } else {
            Vec::new()
        };
        BaseDigits {
            p: card.p,
            constants,
            powers: Vec::with_capacity(usize::from(card.p)),
        }
    }
}

impl OrderDigits for BaseDigits {
    fn write_digit(&mut self, writer: &mut Writer, z: Wire, is_lowest: bool) -> Order {
        write_powers(writer, self.p, z, &mut self.powers);
        order_digit(writer, &self.constants, &self.powers, is_lowest)
    }
}

/// "Powers z^i ascending for i = 2 to (p-1)/2, then the odd i above that to
/// p-2, then p-1." Power i is put at place i; even places above (p-1)/2 but
/// the last one, and place 0, hold z and are never used.
fn write_powers(writer: &mut Writer, p: u8, z: Wire, powers: &mut Vec<Wire>) {
    let last = usize::from(p) - 1;
    let half = last / 2;
    powers.clear();
    powers.resize(last + 1, z);
    let odd_above = (half + 1..last).filter(|i| i % 2 == 1);
    for i in (2..=half).chain(odd_above).chain([last]) {
        powers[i] = write_power(writer, powers, i);
    }
}

/// "Even i squares z^(i/2); odd i is MUL(z^((i-1)/2), z^((i+1)/2))", where both
/// are in their places.
pub(crate) fn write_power(writer: &mut Writer, powers: &[Wire], i: usize) -> Wire {
    writer.mul(powers[i / 2], powers[i.div_ceil(2)])
}

/// "Then for i = 1, 3, .. p-2, p-1 a SCALE of z^i by c_i, each after the first
/// followed by ADD(sum, it). The sum is L. Every digit but the lowest then
/// FLIPs z^(p-1): E."
fn order_digit(writer: &mut Writer, constants: &[u8], powers: &[Wire], is_lowest: bool) -> Order {
    let last = powers.len() - 1;
    let terms = (1..last).step_by(2).chain([last]).map(|i| powers[i]);
    let less = write_sum(writer, terms.zip(constants.iter().copied()));
    let equal = if is_lowest {
        None
    } else {
        Some(writer.flip(powers[last]))
    };
    Order { less, equal }
}

/// A SCALE of each gate by its constant, "each after the first followed by
/// ADD(sum, it)".
pub(crate) fn write_sum(writer: &mut Writer, terms: impl IntoIterator<Item = (Wire, u8)>) -> Wire {
    let mut sum: Option<Wire> = None;
    for (wire, constant) in terms {
        let term = writer.scale(wire, constant);
        sum = Some(match sum {
            None => term,
            Some(sum) => writer.add(sum, term),
        });
    }
    sum.expect("a sum has a term")
}

/// "A run of m>=2 digits splits into the low floor(m/2) and the rest; low joins
/// first, then high, then MUL(E_high, L_low), ADD(L_high, it), and, if the run
/// lacks digit 0, MUL(E_low, E_high)."
fn join_order(writer: &mut Writer, digits: &[Order]) -> Order {
    if let [digit] = digits {
        return *digit;
    }
    let (low, high) = digits.split_at(digits.len() / 2);
    let low = join_order(writer, low);
    let high = join_order(writer, high);
    let high_equal = high.equal.expect("only the lowest run has digit 0");
    let decided_low = writer.mul(high_equal, low.less);
    let less = writer.add(high.less, decided_low);
    let equal = low.equal.map(|low_equal| writer.mul(low_equal, high_equal));
    Order { less, equal }
}

/// "While two factors remain, MUL the two of least depth, equal depths by
/// lower gate number, first chosen as a; the product is a new factor."
fn product_tree(writer: &mut Writer, mut factors: Vec<Wire>) -> Wire {
    loop {
        let a = take_least(&mut factors);
        if factors.is_empty() {
            return a;
        }
        let b = take_least(&mut factors);
        factors.push(writer.mul(a, b));
    }
}

fn take_least(factors: &mut Vec<Wire>) -> Wire {
    let least = (0..factors.len())
        .min_by_key(|&i| (factors[i].depth, factors[i].gate))
        .expect("a tree has a factor");
    factors.swap_remove(least)
}
