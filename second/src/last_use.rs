//! "Last-use list": for each gate the last one that reads it.

use crate::refusal::{self, Refusal};
use crate::table::Table;

/// "A list of u16, one for each gate: the number of the last gate that reads
/// it, or its own number where none does. The output counts as read by itself":
/// no other gate could, since it is the last one.
///
/// Check's refusals, then "27, list shorter than G, after all of Check's".
/// "Entries beyond the first G are kept; success answers G."
pub fn last_uses(table: &[u8], list: &mut [u16]) -> Result<u16, Refusal> {
    let table = Table::read(table)?;
    let gates = table.head.gates;
    let entries = list
        .get_mut(..usize::from(gates))
        .ok_or(refusal::USES_ROOM)?;
    for ((number, entry), reader) in (0..gates).zip(entries).zip(last_readers(&table)) {
        *entry = reader.unwrap_or(number);
    }
    Ok(gates)
}

/// The last reader of each gate, where it has one: met from the last gate down,
/// the first reader of a gate is its last one. Each gate of the table counts,
/// whether the output needs it or not.
fn last_readers(table: &Table) -> Vec<Option<u16>> {
    let mut readers = vec![None; usize::from(table.head.gates)];
    for (number, gate) in (0..table.head.gates).zip(table.gates()).rev() {
        for operand in gate.reads() {
            readers[usize::from(operand)].get_or_insert(number);
        }
    }
    readers
}
