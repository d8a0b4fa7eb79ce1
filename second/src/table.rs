//! "Gate table": the records, Check and Trim.

use crate::card::is_weight;
use crate::field::{is_listed, is_near_zero, MOST_DIGITS};
use crate::refusal::{self, demand, Refusal};
use crate::report::{cost, Depth, Report};
use crate::used::{used_counts, Counts};

pub const RECORD_BYTES: usize = 8;
pub const HEAD_MARK: [u8; 2] = [0x47, 0x48];
/// The head mark of a shared card's table.
pub const SHARED_HEAD_MARK: [u8; 2] = [0x47, 0x4A];
pub const GATE_MARK: [u8; 2] = [0x47, 0x54];
pub const MOST_GATES: u16 = 8191;

#[derive(Clone, Copy, Debug, PartialEq, Eq)]
pub enum Kind {
    Left,
    Right,
    Add,
    Sub,
    Scale,
    Flip,
    Mul,
}

/// One gate record; the operands mean what the kind says.
#[derive(Clone, Copy, Debug, PartialEq, Eq)]
pub struct Gate {
    pub kind: Kind,
    pub a: u16,
    pub b: u16,
}

/// How many slots the sides have, as the two heads tell it.
#[derive(Clone, Copy, Debug, PartialEq, Eq)]
pub enum Slots {
    /// Mark 0x47 0x48: N, the same on both sides.
    Both(u8),
    /// Mark 0x47 0x4A: each side has its own count. It may be the same.
    Each { left: u8, right: u8 },
}

/// The head record.
#[derive(Clone, Copy, Debug, PartialEq, Eq)]
pub struct Head {
    pub p: u8,
    pub weight: u8,
    pub slots: Slots,
    pub gates: u16,
}

/// A table that Check accepts.
#[derive(Clone, Copy, Debug)]
pub struct Table<'a> {
    pub head: Head,
    /// The head and the gates, without later bytes.
    pub bytes: &'a [u8],
}

impl Kind {
    pub fn from_code(code: u8) -> Option<Kind> {
        match code {
            1 => Some(Kind::Left),
            2 => Some(Kind::Right),
            3 => Some(Kind::Add),
            4 => Some(Kind::Sub),
            5 => Some(Kind::Scale),
            6 => Some(Kind::Flip),
            7 => Some(Kind::Mul),
            _ => None,
        }
    }

    pub fn code(self) -> u8 {
        match self {
            Kind::Left => 1,
            Kind::Right => 2,
            Kind::Add => 3,
            Kind::Sub => 4,
            Kind::Scale => 5,
            Kind::Flip => 6,
            Kind::Mul => 7,
        }
    }

    pub fn name(self) -> &'static str {
        match self {
            Kind::Left => "LEFT",
            Kind::Right => "RIGHT",
            Kind::Add => "ADD",
            Kind::Sub => "SUB",
            Kind::Scale => "SCALE",
            Kind::Flip => "FLIP",
            Kind::Mul => "MUL",
        }
    }
}

impl Slots {
    /// What a head of this mark says in its bytes 4 and 5; `None` where there is
    /// no such mark.
    fn from_bytes(mark: [u8; 2], byte4: u8, byte5: u8) -> Option<Slots> {
        match mark {
            HEAD_MARK => Some(Slots::Both(byte4)),
            SHARED_HEAD_MARK => Some(Slots::Each {
                left: byte4,
                right: byte5,
            }),
            _ => None,
        }
    }

    pub fn left(self) -> u8 {
        match self {
            Slots::Both(count) => count,
            Slots::Each { left, .. } => left,
        }
    }

    pub fn right(self) -> u8 {
        match self {
            Slots::Both(count) => count,
            Slots::Each { right, .. } => right,
        }
    }

    pub fn head_mark(self) -> [u8; 2] {
        match self {
            Slots::Both(_) => HEAD_MARK,
            Slots::Each { .. } => SHARED_HEAD_MARK,
        }
    }

    /// Byte 5: "spare 0", or "byte 5 the right slot count".
    fn byte5(self) -> u8 {
        match self {
            Slots::Both(_) => 0,
            Slots::Each { right, .. } => right,
        }
    }

    /// "Both 1 to 16 under refusal 13."
    fn are_in_range(self) -> bool {
        let is_in_range = |count: u8| (1..=MOST_DIGITS).contains(&usize::from(count));
        is_in_range(self.left()) && is_in_range(self.right())
    }
}

impl Head {
    /// "Head: 0x47 0x48, p, s, N, spare 0, gate count G as u16", or "head mark
    /// 0x47 0x4A, byte 4 the left slot count .., byte 5 the right slot count".
    pub fn record(&self) -> [u8; RECORD_BYTES] {
        let [m0, m1] = self.slots.head_mark();
        let (byte4, byte5) = (self.slots.left(), self.slots.byte5());
        let [g0, g1] = self.gates.to_le_bytes();
        [m0, m1, self.p, self.weight, byte4, byte5, g0, g1]
    }

    /// Check's refusals up to 14, in their order. 13 reads both counts of a head
    /// that has two; such a head has no spare, so that nothing of it gives 5.
    fn read(bytes: &[u8]) -> Result<Head, Refusal> {
        demand(bytes.len() >= RECORD_BYTES, refusal::TABLE_SHORT)?;
        let mark = [bytes[0], bytes[1]];
        let head = Head {
            p: bytes[2],
            weight: bytes[3],
            slots: Slots::from_bytes(mark, bytes[4], bytes[5]).ok_or(refusal::MARK)?,
            gates: u16::from_le_bytes([bytes[6], bytes[7]]),
        };
        demand(is_listed(head.p), refusal::PRIME)?;
        demand(is_weight(head.weight), refusal::WEIGHT)?;
        demand(head.slots.are_in_range(), refusal::SLOT_COUNT)?;
        demand(bytes[5] == head.slots.byte5(), refusal::SPARE)?;
        demand((1..=MOST_GATES).contains(&head.gates), refusal::GATE_COUNT)?;
        Ok(head)
    }
}

impl Gate {
    /// "Gate: 0x47 0x54, kind, spare 0, a as u16, b as u16."
    pub fn record(&self) -> [u8; RECORD_BYTES] {
        let [m0, m1] = GATE_MARK;
        let [a0, a1] = self.a.to_le_bytes();
        let [b0, b1] = self.b.to_le_bytes();
        [m0, m1, self.kind.code(), 0, a0, a1, b0, b1]
    }

    /// "By gate 2 mark, 5 spare, 16 kind"; operands are looked at apart.
    fn read(record: &[u8]) -> Result<Gate, Refusal> {
        demand(record[..2] == GATE_MARK, refusal::MARK)?;
        demand(record[3] == 0, refusal::SPARE)?;
        Gate::fields(record).ok_or(refusal::KIND)
    }

    /// Kind and operands as they stand; `None` where there is no such kind.
    fn fields(record: &[u8]) -> Option<Gate> {
        Some(Gate {
            kind: Kind::from_code(record[2])?,
            a: u16::from_le_bytes([record[4], record[5]]),
            b: u16::from_le_bytes([record[6], record[7]]),
        })
    }

    /// The constant of a SCALE: b is "a signed 16-bit number .., two's
    /// complement".
    pub fn constant(&self) -> i16 {
        self.b.cast_signed()
    }

    /// Whether gate `number` may have these operands: "Gates name only gates
    /// with lower numbers; slots are below N", where "17 and 18 read each side
    /// against its own count", a constant is "from -(p-1)/2 to (p-1)/2", and an
    /// unused b is 0.
    fn fits(&self, number: u16, head: &Head) -> bool {
        match self.kind {
            Kind::Left => self.a < u16::from(head.slots.left()) && self.b == 0,
            Kind::Right => self.a < u16::from(head.slots.right()) && self.b == 0,
            Kind::Add | Kind::Sub | Kind::Mul => self.a < number && self.b < number,
            Kind::Scale => self.a < number && is_near_zero(head.p, self.constant()),
            Kind::Flip => self.a < number && self.b == 0,
        }
    }

    /// The gates that this one reads: "ADD a+b", "SUB a-b" and "MUL a times b"
    /// two, "SCALE gate a times constant b" and "FLIP 1-a" one, and "LEFT slot
    /// a" and "RIGHT slot a" none.
    pub fn reads(&self) -> impl Iterator<Item = u16> {
        let (a, b) = match self.kind {
            Kind::Left | Kind::Right => (None, None),
            Kind::Scale | Kind::Flip => (Some(self.a), None),
            Kind::Add | Kind::Sub | Kind::Mul => (Some(self.a), Some(self.b)),
        };
        a.into_iter().chain(b)
    }

    /// "A MUL with a=b is a square."
    pub fn is_square(&self) -> bool {
        self.kind == Kind::Mul && self.a == self.b
    }

    /// "Any other MUL a product."
    pub fn is_product(&self) -> bool {
        self.kind == Kind::Mul && self.a != self.b
    }
}

impl<'a> Table<'a> {
    /// Reads a table in the order of Check's refusals.
    pub fn read(bytes: &'a [u8]) -> Result<Table<'a>, Refusal> {
        let head = Head::read(bytes)?;
        let bytes = bytes
            .get(..table_bytes(head.gates))
            .ok_or(refusal::TABLE_LENGTH)?;
        let records = bytes[RECORD_BYTES..].chunks_exact(RECORD_BYTES);
        for (number, record) in (0..head.gates).zip(records) {
            let gate = Gate::read(record)?;
            demand(gate.fits(number, &head), refusal::OPERAND)?;
        }
        Ok(Table { head, bytes })
    }

    /// The gates in order; they can be walked from the last one too.
    pub fn gates(&self) -> impl DoubleEndedIterator<Item = Gate> + ExactSizeIterator + 'a {
        self.bytes[RECORD_BYTES..]
            .chunks_exact(RECORD_BYTES)
            .map(|record| Gate::fields(record).expect("gates of a read table are sound"))
    }

    /// What a table with these gates costs, and how deep it is.
    fn report(&self) -> Report {
        let Counts { products, squares } = used_counts(self);
        Report {
            gates: self.head.gates,
            products,
            squares,
            cost: cost(self.head.weight, products, squares),
            depth: self.depth(),
        }
    }

    /// "The table's depth is the last gate's."
    fn depth(&self) -> Depth {
        let mut depths: Vec<u16> = Vec::with_capacity(usize::from(self.head.gates));
        for gate in self.gates() {
            depths.push(gate_depth(&gate, &depths));
        }
        Depth(depths.last().copied().unwrap_or(0))
    }
}

/// "LEFT and RIGHT have depth 0; MUL adds 1 to the deeper operand, other kinds
/// add none."
fn gate_depth(gate: &Gate, lower: &[u16]) -> u16 {
    let a = usize::from(gate.a);
    let b = usize::from(gate.b);
    match gate.kind {
        Kind::Left | Kind::Right => 0,
        Kind::Add | Kind::Sub => lower[a].max(lower[b]),
        Kind::Scale | Kind::Flip => lower[a],
        Kind::Mul => lower[a].max(lower[b]) + 1,
    }
}

/// 8(G+1), the bytes of a table of G gates.
pub fn table_bytes(gates: u16) -> usize {
    RECORD_BYTES * (usize::from(gates) + 1)
}

/// Check: "Success answers as Build", and for a table that Build has written just
/// what it answered.
pub fn check(table: &[u8]) -> Result<Report, Refusal> {
    Ok(Table::read(table)?.report())
}

/// Trim: the part of the bytes that is the table, empty where Check refuses.
pub fn trim(table: &[u8]) -> &[u8] {
    match Table::read(table) {
        Ok(table) => table.bytes,
        Err(_) => &[],
    }
}
