//! A second implementation of the machine of document 01 as document 02 has
//! changed it (Jobs 1 to 9), written from those and from the RISC-V unprivileged
//! specification alone. It is meant to be read side by side with them, so it
//! prefers the plain form: whole numbers in u128 and i128, one byte at a time,
//! one question after the other.

pub mod apart;
pub mod calls;
pub mod compare;
pub mod fetches;
pub mod half_words;
pub mod hfi_rules;
pub mod instruction;
pub mod m_words;
pub mod machine;
pub mod numbers;
pub mod overlap;
#[cfg(feature = "proved")]
pub mod proved;
pub mod reach;
pub mod region;
pub mod run;
pub mod scheduler;
pub mod sheet;
pub mod step;
pub mod stored_turns;
pub mod supply;
pub mod ten_regions;
pub mod turns;
pub mod vectors;
pub mod writable_code;

pub use half_words::expand;
pub use instruction::{decode, encode, Instruction};
pub use machine::{Fault, Machine, Region};
pub use run::{resume, run};
pub use scheduler::{put, turn, Scheduler};
pub use sheet::respond;
pub use step::step;
