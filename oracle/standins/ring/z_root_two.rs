//! Stand-in of src/ring/z_root_two.rs: the type's name alone.

pub struct ZRootTwo;
