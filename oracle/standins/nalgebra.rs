//! Stand-in of the crate `nalgebra`: the two names that signatures of the published text mention.

use std::marker::PhantomData;

pub use num::Complex;

pub struct Matrix2<T>(PhantomData<T>);

impl<T> Matrix2<T> {
    pub fn new(_: T, _: T, _: T, _: T) -> Self {
        unimplemented!()
    }
}
