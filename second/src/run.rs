//! Run: the plain run of a table.

use crate::field;
use crate::refusal::{self, demand, Refusal};
use crate::table::{Gate, Kind, Table};

/// Run: "Check's, then 18 left or right list not N long, 19 a value of p or
/// more, 20 work buffer under G"; the gate values go to the first G work bytes
/// and the last one is the answer. Where a head has two counts, each list has
/// its side's; a value in a slot that no gate names is looked at too.
pub fn run(table: &[u8], left: &[u8], right: &[u8], work: &mut [u8]) -> Result<u8, Refusal> {
    let table = Table::read(table)?;
    let p = table.head.p;
    let slots = table.head.slots;
    let has = |list: &[u8], count: u8| list.len() == usize::from(count);
    demand(
        has(left, slots.left()) && has(right, slots.right()),
        refusal::LIST_LENGTH,
    )?;
    demand(
        left.iter().chain(right).all(|&value| value < p),
        refusal::LIST_VALUE,
    )?;
    let values = work
        .get_mut(..usize::from(table.head.gates))
        .ok_or(refusal::WORK_ROOM)?;
    let mut output = 0;
    for (number, gate) in table.gates().enumerate() {
        output = gate_value(p, &gate, left, right, &values[..number]);
        values[number] = output;
    }
    Ok(output)
}

/// The kinds of "Gate table", all modulo p.
fn gate_value(p: u8, gate: &Gate, left: &[u8], right: &[u8], lower: &[u8]) -> u8 {
    let a = usize::from(gate.a);
    let b = usize::from(gate.b);
    match gate.kind {
        Kind::Left => left[a],
        Kind::Right => right[a],
        Kind::Add => field::add(p, lower[a], lower[b]),
        Kind::Sub => field::sub(p, lower[a], lower[b]),
        Kind::Scale => field::scale(p, lower[a], gate.constant()),
        Kind::Flip => field::sub(p, 1, lower[a]),
        Kind::Mul => field::mul(p, lower[a], lower[b]),
    }
}
