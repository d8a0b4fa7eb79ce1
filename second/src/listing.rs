//! "Bench cards": what the print program writes for a card.

use crate::build::build;
use crate::forecast::forecast;
use crate::refusal::Refusal;
use crate::report::Report;
use crate::table::{table_bytes, Gate, Kind, Table};
use std::fmt::{Display, Formatter, Result as FormatResult, Write};

/// "A gate line is number, kind, a, b. A refusal prints one line, as
/// `refused 7`."
pub fn listing(card: &[u8]) -> String {
    match card_listing(card) {
        Ok(text) => text,
        Err(number) => format!("refused {number}\n"),
    }
}

impl Display for Report {
    fn fmt(&self, out: &mut Formatter<'_>) -> FormatResult {
        write!(
            out,
            "gates {} products {} squares {} cost {} depth {}",
            self.gates, self.products, self.squares, self.cost.0, self.depth.0
        )
    }
}

fn card_listing(card: &[u8]) -> Result<String, Refusal> {
    let room = table_bytes(forecast(card)?.gates);
    let mut bytes = vec![0; room];
    let report = build(card, &mut bytes)?;
    let mut text = format!("{report}\n");
    for (number, gate) in Table::read(&bytes)?.gates().enumerate() {
        let name = gate.kind.name();
        let b = printed_b(&gate);
        writeln!(text, "{number} {name} {} {b}", gate.a).expect("a string takes all text");
    }
    Ok(text)
}

/// A SCALE's b is signed, as in `5 SCALE 3 -1`.
fn printed_b(gate: &Gate) -> i32 {
    match gate.kind {
        Kind::Scale => i32::from(gate.constant()),
        Kind::Left | Kind::Right | Kind::Add | Kind::Sub | Kind::Flip | Kind::Mul => {
            i32::from(gate.b)
        }
    }
}
