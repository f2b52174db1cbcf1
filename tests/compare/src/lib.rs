//! Compares the compiled library with the second reading of the rules.
//!
//! `loads` and `writes` call both with the same arguments and compare all that
//! comes back. `properties` asks of the library alone what must hold of texts
//! that are loaded and written again. These take the format, S-records or tapes
//! (`format`). `answers` compares whole answers, by way of the program
//! `vectors`, `parts` loads in parts, by way of the program `calls`, and `overlay`
//! patches over a base image, by way of the program `patches`. `grouping` asks of
//! that program what must hold of merges in any grouping and order, and `errors` of
//! `vectors` what must come of a changed digit. `chips` compares images dealt over
//! chips, by way of the program `deals`, and `symbolic` texts behind symbol blocks and
//! patch sheets, by way of the program `symbolic`. `face` compares all functions of C
//! that give whole answers (`whole`). `examples` holds the files of the examples folder
//! to the second reading.

pub mod answers;
pub mod chips;
pub mod errors;
pub mod examples;
pub mod face;
pub mod format;
pub mod grouping;
pub mod loads;
pub mod overlay;
pub mod parts;
pub mod properties;
pub mod settings;
pub mod symbolic;
pub mod writes;

mod content;
mod guarded;
mod library;
mod program;
mod tally;
mod texts;
mod walks;
mod whole;

pub use guarded::guards_notice;
