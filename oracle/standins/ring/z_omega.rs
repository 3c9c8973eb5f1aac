//! Stand-in of src/ring/z_omega.rs, from docs/SCOPE.md, Numbers: (a,b,c,d) is a·omega^3 + b·omega^2 + c·omega + d, omega^4 = -1.

use crate::ring::ZRootTwo;
use dashu_float::{round::mode::HalfEven, FBig};
use dashu_int::IBig;
use std::fmt;
use std::ops::{Add, Mul, Neg};

#[derive(Clone, PartialEq, Debug)]
pub struct ZOmega {
    pub a: IBig,
    pub b: IBig,
    pub c: IBig,
    pub d: IBig,
}

impl ZOmega {
    pub fn new(a: IBig, b: IBig, c: IBig, d: IBig) -> Self {
        Self { a, b, c, d }
    }

    pub fn from_int(x: IBig) -> Self {
        Self::new(IBig::ZERO, IBig::ZERO, IBig::ZERO, x)
    }

    pub fn from_zroottwo(_: &ZRootTwo) -> Self {
        unimplemented!()
    }

    pub fn real(&self) -> FBig<HalfEven> {
        unimplemented!()
    }

    pub fn imag(&self) -> FBig<HalfEven> {
        unimplemented!()
    }

    /// omega goes to omega^7 = -omega^3.
    pub fn conj(&self) -> Self {
        Self::new(-&self.c, -&self.b, -&self.a, self.d.clone())
    }

    /// Root two goes to its negative: omega to -omega.
    pub fn conj_sq2(&self) -> Self {
        Self::new(-&self.a, self.b.clone(), -&self.c, self.d.clone())
    }

    pub fn mul_by_omega(&self) -> Self {
        Self::new(self.b.clone(), self.c.clone(), self.d.clone(), -&self.a)
    }

    pub fn mul_by_omega_inv(&self) -> Self {
        Self::new(-&self.d, self.a.clone(), self.b.clone(), self.c.clone())
    }

    pub fn mul_by_omega_power(&self, n: usize) -> Self {
        let u = if n & 4 == 0 { self.clone() } else { -self.clone() };
        match n & 3 {
            0 => u,
            1 => u.mul_by_omega(),
            2 => Self::new(u.c, u.d, -u.a, -u.b),
            _ => Self::new(u.d, -u.a, -u.b, -u.c),
        }
    }

    /// The four parities, a in the highest bit.
    pub fn residue(&self) -> u8 {
        let bit = |x: &IBig| x.is_odd() as u8;
        bit(&self.a) << 3 | bit(&self.b) << 2 | bit(&self.c) << 1 | bit(&self.d)
    }
}

impl Add<&ZOmega> for &ZOmega {
    type Output = ZOmega;
    fn add(self, r: &ZOmega) -> ZOmega {
        ZOmega::new(&self.a + &r.a, &self.b + &r.b, &self.c + &r.c, &self.d + &r.d)
    }
}

impl Neg for ZOmega {
    type Output = ZOmega;
    fn neg(self) -> ZOmega {
        ZOmega::new(-self.a, -self.b, -self.c, -self.d)
    }
}

impl Mul<IBig> for ZOmega {
    type Output = ZOmega;
    fn mul(self, r: IBig) -> ZOmega {
        ZOmega::new(self.a * &r, self.b * &r, self.c * &r, self.d * &r)
    }
}

impl Mul<&ZOmega> for &ZOmega {
    type Output = ZOmega;
    fn mul(self, r: &ZOmega) -> ZOmega {
        ZOmega::new(
            &self.a * &r.d + &self.b * &r.c + &self.c * &r.b + &self.d * &r.a,
            &self.b * &r.d + &self.c * &r.c + &self.d * &r.b - &self.a * &r.a,
            &self.c * &r.d + &self.d * &r.c - &self.a * &r.b - &self.b * &r.a,
            &self.d * &r.d - &self.a * &r.c - &self.b * &r.b - &self.c * &r.a,
        )
    }
}

impl fmt::Display for ZOmega {
    fn fmt(&self, f: &mut fmt::Formatter<'_>) -> fmt::Result {
        write!(f, "{:?}", self)
    }
}
