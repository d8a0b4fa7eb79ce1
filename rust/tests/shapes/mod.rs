//! Tables of one shape in any size, by which Check's counts are compared and timed; and the slot counts
//! of any table, by which lists for Run are made.

/// The mark of a head with a slot count for each side.
pub const TWO_COUNTS_MARK: [u8; 2] = [0x47, 0x4A];

/// The slot counts in the head of a table, of the left side and of the right side; where the head is
/// cut short, 1.
pub fn slot_counts(table: &[u8]) -> (u8, u8) {
    let left = table.get(4).copied().unwrap_or(1);
    if table.starts_with(&TWO_COUNTS_MARK) {
        (left, table.get(5).copied().unwrap_or(1))
    } else {
        (left, left)
    }
}

/// Kind, a and b.
pub type Gate = (u8, u16, u16);

const LEFT: u8 = 1;
const RIGHT: u8 = 2;
const ADD: u8 = 3;
const FLIP: u8 = 6;
const MUL: u8 = 7;

/// The bytes of a table at p = 251 with weight 75 and one slot.
pub fn table_of(gates: &[Gate]) -> Vec<u8> {
    let [low, high] = (gates.len() as u16).to_le_bytes();
    let mut table = vec![0x47, 0x48, 251, 75, 1, 0, low, high];
    for (kind, a, b) in gates {
        table.extend_from_slice(&[0x47, 0x54, *kind, 0]);
        table.extend_from_slice(&a.to_le_bytes());
        table.extend_from_slice(&b.to_le_bytes());
    }
    table
}

/// A shape: its name, its gates, and how many products and squares count of so many gates.
pub struct Shape {
    pub name: &'static str,
    pub gates: fn(u16) -> Vec<Gate>,
    pub products: fn(u16) -> u16,
    pub squares: fn(u16) -> u16,
}

/// All shapes, of 6 gates and more.
pub const SHAPES: [Shape; 7] = [
    Shape {
        name: "squares of squares",
        gates: squares,
        products: |_| 0,
        squares: |count| count - 1,
    },
    Shape {
        name: "each product with gate 0",
        gates: one_lower_operand,
        products: |count| count - 2,
        squares: |_| 0,
    },
    Shape {
        name: "each product with a gate anywhere",
        gates: scattered_operands,
        products: |count| count - 2,
        squares: |_| 0,
    },
    Shape {
        name: "one pair over and over",
        gates: one_pair,
        products: |_| 1,
        squares: |_| 0,
    },
    Shape {
        name: "one higher operand for all",
        gates: one_higher_operand,
        products: |count| count / 3,
        squares: |_| 0,
    },
    Shape {
        name: "nothing used but a slot",
        gates: nothing_used,
        products: |_| 0,
        squares: |_| 0,
    },
    Shape {
        name: "no product",
        gates: flips,
        products: |_| 0,
        squares: |_| 0,
    },
];

/// A slot, then each gate the square of the one before.
fn squares(count: u16) -> Vec<Gate> {
    let squares = (1..count).map(|k| (MUL, k - 1, k - 1));
    std::iter::once((LEFT, 0, 0)).chain(squares).collect()
}

/// Two slots, then each gate the product of the first and the one before.
fn one_lower_operand(count: u16) -> Vec<Gate> {
    let products = (2..count).map(|k| (MUL, 0, k - 1));
    [(LEFT, 0, 0), (RIGHT, 0, 0)]
        .into_iter()
        .chain(products)
        .collect()
}

/// Two slots, then each gate the product of the one before and one that lies anywhere below it.
fn scattered_operands(count: u16) -> Vec<Gate> {
    let anywhere = |k: u16| (u32::from(k) * 40_503 / 8 % u32::from(k - 1)) as u16;
    let products = (2..count).map(|k| (MUL, anywhere(k), k - 1));
    [(LEFT, 0, 0), (RIGHT, 0, 0)]
        .into_iter()
        .chain(products)
        .collect()
}

/// The product of two slots, now in the one order and now in the other, each added to those before.
fn one_pair(count: u16) -> Vec<Gate> {
    let mut gates = vec![(LEFT, 0, 0), (RIGHT, 0, 0), (MUL, 0, 1)];
    let mut sum = 2;
    for k in 3..count {
        gates.push(match k % 4 {
            1 => (MUL, 0, 1),
            3 => (MUL, 1, 0),
            _ => (ADD, sum, k - 1),
        });
        if k.is_multiple_of(2) {
            sum = k;
        }
    }
    if count.is_multiple_of(2) {
        gates[usize::from(count) - 1] = (FLIP, sum, 0);
    }
    gates
}

/// Slots, the product of the last of them with each other one, and the sum of the products.
fn one_higher_operand(count: u16) -> Vec<Gate> {
    let high = count / 3;
    let mut gates = vec![(LEFT, 0, 0); usize::from(high) + 1];
    gates.extend((0..high).map(|low| (MUL, low, high)));
    let first = high + 1;
    gates.push((ADD, first, first + 1));
    for low in 2..high {
        gates.push((ADD, first + low, gates.len() as u16 - 1));
    }
    fill(gates, count)
}

/// Squares of squares, and an output that needs none of them.
fn nothing_used(count: u16) -> Vec<Gate> {
    let mut gates = squares(count);
    gates[usize::from(count) - 1] = (FLIP, 0, 0);
    gates
}

/// A slot, flipped over and over.
fn flips(count: u16) -> Vec<Gate> {
    fill(vec![(LEFT, 0, 0)], count)
}

/// FLIPs after the gates, up to so many in all.
fn fill(mut gates: Vec<Gate>, count: u16) -> Vec<Gate> {
    while gates.len() < usize::from(count) {
        gates.push((FLIP, gates.len() as u16 - 1, 0));
    }
    gates
}
