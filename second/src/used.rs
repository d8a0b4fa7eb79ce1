//! "Products that nothing uses": which MULs of a table count.

use crate::table::{Gate, Kind, Table};

/// What a table's cost is made of.
#[derive(Clone, Copy, Debug, Default, PartialEq, Eq)]
pub struct Counts {
    pub products: u16,
    pub squares: u16,
}

/// "Only the MUL gates among the output itself and the gates it depends on,
/// directly or through others, and two MULs over the same pair of gates, in
/// either order, once."
pub fn used_counts(table: &Table) -> Counts {
    let mut counts = Counts::default();
    for (lower, higher) in distinct_pairs(&used_gates(table)) {
        if lower == higher {
            counts.squares += 1;
        } else {
            counts.products += 1;
        }
    }
    counts
}

/// The output and all that it depends on, in whatever order gates are: a search
/// starts at the output and goes on with what each gate reads. A gate may be
/// read by many; it is taken where it is met first.
fn used_gates(table: &Table) -> Vec<Gate> {
    let gates: Vec<Gate> = table.gates().collect();
    let mut met = vec![false; gates.len()];
    let mut used = Vec::with_capacity(gates.len());
    // "The last gate is the output", and Check accepts no table without gates.
    let mut to_visit = vec![table.head.gates - 1];
    while let Some(number) = to_visit.pop() {
        let number = usize::from(number);
        if met[number] {
            continue;
        }
        met[number] = true;
        to_visit.extend(gates[number].reads());
        used.push(gates[number]);
    }
    used
}

/// The set of the pairs that the MULs among these gates are over. Sorting puts
/// repeats side by side, and is faster here than std's sets.
fn distinct_pairs(gates: &[Gate]) -> Vec<(u16, u16)> {
    let muls = gates.iter().filter(|gate| gate.kind == Kind::Mul);
    let mut pairs: Vec<(u16, u16)> = muls.map(unordered_pair).collect();
    pairs.sort_unstable();
    pairs.dedup();
    pairs
}

/// The gates that a MUL reads, the lower one first, so that a pair is the same
/// "in either order".
fn unordered_pair(mul: &Gate) -> (u16, u16) {
    (mul.a.min(mul.b), mul.a.max(mul.b))
}
