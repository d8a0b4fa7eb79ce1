//! The query builder: cards, gate tables, the plain run of a table, digit
//! coding and a forecast, as the document on the builder's rules has them, and
//! scored queries, constants near zero, the last-use list, products that nothing
//! uses, two conditions over the same field, fewer products by a step size and
//! cards filled in condition by condition, as the requests for them do.

pub mod build;
pub mod card;
pub mod cases;
pub mod digits;
pub mod direct;
pub mod field;
pub mod filling;
pub mod forecast;
pub mod last_use;
pub mod listing;
pub mod random;
pub mod refusal;
pub mod report;
pub mod run;
pub mod script;
pub mod step;
pub mod step_count;
pub mod step_table;
pub mod table;
pub mod used;

pub use build::build;
pub use cases::cases;
pub use digits::{decode, encode};
pub use direct::expected_output;
pub use filling::Filling;
pub use forecast::forecast;
pub use last_use::last_uses;
pub use listing::listing;
pub use random::Random;
pub use refusal::Refusal;
pub use report::{Cost, Depth, Report};
pub use run::run;
pub use script::answers;
pub use step::{best_step, build_step, build_within, Offer};
pub use step_table::step_tables;
pub use table::{check, trim};
