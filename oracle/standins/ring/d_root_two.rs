//! Stand-in of src/ring/d_root_two.rs: the fields that a signature's body mentions.

use crate::ring::ZRootTwo;

pub struct DRootTwo {
    pub alpha: ZRootTwo,
    pub k: i64,
}
