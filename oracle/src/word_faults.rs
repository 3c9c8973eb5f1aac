//! The faults of jobs 3 and 5, and what they answer where they miscount the T letters of the word they wrote.

use crate::abi::{tees, Fault};

pub const OF_PHASE_FREE: [Fault; 10] = [
    Fault::Nothing,
    Fault::Identity,
    Fault::Phase,
    Fault::Room,
    Fault::Stale,
    Fault::Esses,
    Fault::More,
    Fault::TwoMore,
    Fault::Fewer,
    Fault::Own,
];

/// The faults that change job 5's bytes.
pub const OF_BYTES: &[Fault] = OF_PHASE_FREE.split_at(5).0;

/// Those of the number of T letters alone, which job 3 can have too.
pub const OF_TEES: &[Fault] = OF_PHASE_FREE.split_at(5).1;

/// The number that stands beside the right word; none below 0.
pub fn of(fault: Fault, read: &[u8], right: &[u8]) -> Option<u64> {
    match fault {
        Fault::Esses => Some(right.iter().filter(|g| b"ST".contains(g)).count() as u64),
        Fault::More => Some(tees(right) + 1),
        Fault::TwoMore => Some(tees(right) + 2),
        Fault::Fewer => tees(right).checked_sub(1),
        Fault::Own => Some(tees(read)),
        _ => None,
    }
}
