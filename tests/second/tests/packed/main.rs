//! Packed marks, by hand from the request and against the byte form.

mod agreement;
mod bits;
mod drawn;
mod loads;
mod overlay;
mod parts;
mod writes;

use second::reading::Refusal;

/// A refusal that is about no record.
fn row(number: u32, place: usize) -> Refusal {
    Refusal {
        number,
        place,
        ..Refusal::default()
    }
}
