//! A second reading of the S-record rules, to compare other programs with.
//!
//! `reading` is the loader and the writer in their plainest form, and `tape`
//! those of MOS Technology tapes. `parts` is a load of S-records in parts, a
//! program of its own. `overlay` lays a patch over a base image. `packed` has all
//! of these with one bit a cell for a mark, and `form` those of either form of
//! marks. `chips` deals an image over memory chips and collects them. `symbols` loads
//! a text behind a symbol block, and `sheets` a patch sheet, whose addresses are read
//! by `expressions`. `spans` has what texts and sheets address, without a window, which
//! record addresses a cell, and how long a written text would be. `cases` draws texts,
//! windows, images and sheets that reach every row of the refusal table, from the
//! numbers of `random`. `script` has cases and answers in the form of the program
//! `vectors`, `calls` in that of the program `calls`, `patches` in that of the program
//! `patches`, `deals` in that of the program `deals`, and `symbolic` in that of the
//! program `symbolic`.

pub mod calls;
pub mod cases;
pub mod chips;
pub mod deals;
pub mod expressions;
pub mod form;
pub mod overlay;
pub mod packed;
pub mod parts;
pub mod patches;
pub mod random;
pub mod reading;
pub mod script;
pub mod sheets;
pub mod spans;
pub mod symbolic;
pub mod symbols;
pub mod tape;
