//! What a gate record reads, by its bytes.

/// The gates that a record reads: "3 ADD a+b; 4 SUB a-b; 5 SCALE gate a times
/// constant b; 6 FLIP 1-a; 7 MUL a times b", and slots are no gates.
pub fn reads(record: &[u8]) -> Vec<usize> {
    let [a, b] = operands(record);
    match record[2] {
        3 | 4 | 7 => vec![a, b],
        5 | 6 => vec![a],
        _ => vec![],
    }
}

pub fn operands(record: &[u8]) -> [usize; 2] {
    [4, 6].map(|place| usize::from(record[place]) + 256 * usize::from(record[place + 1]))
}
