//! A plain implementation of the decoder's rules, written from the rules
//! alone. It is what the proved library is compared with and timed against.
//!
//! [`check`] gives a [`Description`]; the other functions work on one that
//! passed. [`requests`] takes a description's bytes and gives the numbered
//! answer, as the library's C face does.

mod alignment;
mod answer;
mod build;
mod check;
mod choose;
mod clash;
mod decode;
mod description;
mod expression;
mod listing;
mod read;
pub mod requests;
mod sweep;
mod text;
mod tree;

pub use alignment::Alignment;
pub use answer::{Answer, Refusal};
pub use build::build;
pub use check::check;
pub use choose::{ask, Taken};
pub use clash::{clash, Clash};
pub use decode::{decode, decode_instruction, Decoded, Part, Row};
pub use description::{Constructor, Description, Field, Name, Operand, Pattern, Piece};
pub use expression::{Addresses, Expression, Step, STEP_LIMIT};
pub use listing::{list, listing, Listed};
pub use read::{Fault, WHOLE_SECTION};
pub use sweep::{sweep, End, Sweep};
pub use text::decode_text;
pub use tree::{tree_check, Verdict};
