//! Stand-in of the crate `once_cell`: the standard library's cell, which has the same calls.

pub mod sync {
    pub use std::cell::OnceCell;
}
