//! A reference implementation of the release monitor, for tests only.
//!
//! Written from document 01, "The release monitor and its labels", and from
//! requests #101 to #108 of document 02, and nothing else. Each module names
//! the sentences that it follows:
//!
//! - `label`: "The label, one 32-bit word", with #107's smallest minimum
//! - `value`: "Values"
//! - `steps`: "Steps on a stack of at most three tables", #102's NOISE, and 17
//!   to 19
//! - `container`: "The container", with the place of #108's rule year, 11 to 16, and
//!   20
//! - `overlay`: #106's overlays, 21 and 22
//! - `year`: #108's rule years, and the floor of ten
//! - `conversion`: #107's conversion of stored containers
//! - `table`: the tables that steps read and make, with #103's marks
//! - `eval`: what the steps do, and 31 to 37
//! - `text`: a released table as text, #101
//! - `release`: `run`, `check`, 1, 51, and what becomes of the lent slices
//!
//! Labels are structures of optional stages, values an enum with a case for
//! OVER, marks one with a case for sheet numbers and one for rows, tables vectors
//! of cells and marks; joins and groups use hash maps; every sum is exact in 128
//! bits.

pub mod container;
pub mod conversion;
pub mod eval;
pub mod label;
pub mod overlay;
pub mod release;
pub mod steps;
pub mod table;
pub mod text;
pub mod value;
pub mod year;

pub use container::{InputFault, InputRefusal};
pub use conversion::{convert, Conversion};
pub use eval::{StateFault, StateRefusal};
pub use overlay::Overlays;
pub use release::{check, run, Answer};
pub use year::RuleYear;
