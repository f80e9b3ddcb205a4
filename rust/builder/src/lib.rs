//! Descriptions as Rust values, by name. [`Builder::build`] gives the bytes of
//! a well-formed description, or says in words what the check would not take.
//!
//! ```
//! use builder::{Builder, Constructor, Field, Operand};
//!
//! let mut set = Builder::new();
//! set.field("register", Field::little(1).bits(0, 3));
//! set.field("byte", Field::little(1).signed_hex());
//! set.constructor("displacement", Constructor::new("{byte}").bytes("........"));
//! set.constructor("instruction", Constructor::new("inc r{register}").bytes("0001 rrrr"));
//! set.constructor(
//!     "instruction",
//!     Constructor::new("add r{register}, {displacement}")
//!         .bytes("0010 rrrr")
//!         .operand(Operand::new("register"))
//!         .operand(Operand::new("displacement").offset(1)),
//! );
//! // Inside the pattern of "inc", so it is taken where both match.
//! set.constructor("instruction", Constructor::new("halt").bytes("0001 1111"));
//! let description = set.build("instruction").unwrap();
//! assert_eq!(description.len(), 216);
//! ```

mod build;
mod constructor;
mod expression;
mod field;
mod limits;
mod pattern;
mod refusal;
mod runs;
mod shown;
mod tables;

pub use build::Builder;
pub use constructor::{Constructor, Operand};
pub use expression::Expression;
pub use field::Field;
pub use refusal::Refusal;

/// The guide's code is tested with the crate's.
#[cfg(doctest)]
#[doc = include_str!("../../../docs/GUIDE.md")]
struct Guide;
