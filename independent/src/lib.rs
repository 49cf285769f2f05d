//! The rules of the seismic sheet in plain safe Rust, written from the page of rules alone.
//!
//! All numbers are `i64`. A number that is read has nine digits at most, and those that are not yet
//! checked are only compared. Of checked numbers the largest product is 100 times a storey's move and
//! the weight above: at most 100 × 4,800,000,000 × 120,000 = 5.76 × 10^16, far below 2^63.
#![forbid(unsafe_code)]

pub mod card;
pub mod desk;
pub mod file;
pub mod frame;
pub mod generator;
pub mod order;
pub mod report;
pub mod sheet;
pub mod text;

pub use order::run;
pub use report::{report, Short};

/// Why a call is refused: the refusal's number, and the place that the number speaks of.
#[derive(Clone, Copy, Debug, PartialEq, Eq)]
pub struct Denial {
    pub number: i64,
    pub place: i64,
}

impl Denial {
    pub const fn new(number: i64, place: i64) -> Self {
        Denial { number, place }
    }
}

/// A refusal of an order file: a denial, and the line that is to blame.
#[derive(Clone, Copy, Debug, PartialEq, Eq)]
pub struct Refusal {
    pub number: i64,
    pub line: i64,
    pub place: i64,
}

impl Refusal {
    pub const fn on(line: i64, denial: Denial) -> Self {
        Refusal {
            number: denial.number,
            line,
            place: denial.place,
        }
    }
}
