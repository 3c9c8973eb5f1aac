//! Stand-in of src/math.rs but for `ntz`, whose published lines the build adds below.

use dashu_float::{round::mode::HalfEven, FBig};
use dashu_int::IBig;

pub fn pow_sqrt2(_: i64) -> FBig<HalfEven> {
    unimplemented!()
}
