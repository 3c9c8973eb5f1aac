//! Stand-in of the crate `dashu_int`: whole numbers without a limit, as far as the published text asks.
//! A number that fits an i128 is held in one; any other as two's complement limbs, lowest first.

use std::fmt;
use std::ops::{Add, BitAnd, Mul, Neg, Shl, Shr, Sub};

#[derive(Clone, PartialEq, Eq)]
enum Held {
    Small(i128),
    Large(Vec<u64>),
}
use Held::{Large, Small};

#[derive(Clone, PartialEq, Eq)]
pub struct IBig(Held);

impl IBig {
    pub const ZERO: IBig = IBig(Small(0));
    pub const ONE: IBig = IBig(Small(1));
    pub const NEG_ONE: IBig = IBig(Small(-1));

    pub fn is_zero(&self) -> bool {
        self.0 == Small(0)
    }

    pub fn trailing_zeros(&self) -> Option<usize> {
        match &self.0 {
            Small(0) => None,
            Small(x) => Some(x.trailing_zeros() as usize),
            Large(v) => {
                let i = v.iter().position(|x| *x != 0)?;
                Some(i * 64 + v[i].trailing_zeros() as usize)
            }
        }
    }

    pub fn is_odd(&self) -> bool {
        match &self.0 {
            Small(x) => x & 1 == 1,
            Large(v) => v[0] & 1 == 1,
        }
    }

    pub fn is_negative(&self) -> bool {
        match &self.0 {
            Small(x) => *x < 0,
            Large(v) => fill(v) != 0,
        }
    }

    /// The number, if an i64 holds it.
    pub fn to_i64(&self) -> Option<i64> {
        match &self.0 {
            Small(x) => i64::try_from(*x).ok(),
            Large(_) => None,
        }
    }

    fn limbs(&self) -> Vec<u64> {
        match &self.0 {
            Small(x) => vec![*x as u64, (*x >> 64) as u64],
            Large(v) => v.clone(),
        }
    }
}

/// What every limb above the highest one holds.
fn fill(v: &[u64]) -> u64 {
    ((v[v.len() - 1] as i64) >> 63) as u64
}

fn limb(v: &[u64], i: usize) -> u64 {
    *v.get(i).unwrap_or(&fill(v))
}

/// One form for each number: the fewest limbs, and none at all where an i128 holds it.
fn held(mut v: Vec<u64>) -> IBig {
    while v.len() > 2 && v[v.len() - 1] == fill(&v[..v.len() - 1]) {
        v.pop();
    }
    if v.len() > 2 {
        return IBig(Large(v));
    }
    IBig(Small(limb(&v, 0) as i128 | (limb(&v, 1) as i128) << 64))
}

fn add_limbs(x: &[u64], y: &[u64], flip: bool) -> IBig {
    let mut carry = flip;
    let size = x.len().max(y.len()) + 1;
    held(
        (0..size)
            .map(|i| {
                let other = if flip { !limb(y, i) } else { limb(y, i) };
                let (s, over) = limb(x, i).overflowing_add(other);
                let (s, again) = s.overflowing_add(carry as u64);
                carry = over || again;
                s
            })
            .collect(),
    )
}

fn add(x: &IBig, y: &IBig) -> IBig {
    if let (Small(a), Small(b)) = (&x.0, &y.0) {
        if let Some(s) = a.checked_add(*b) {
            return IBig(Small(s));
        }
    }
    add_limbs(&x.limbs(), &y.limbs(), false)
}

fn sub(x: &IBig, y: &IBig) -> IBig {
    if let (Small(a), Small(b)) = (&x.0, &y.0) {
        if let Some(s) = a.checked_sub(*b) {
            return IBig(Small(s));
        }
    }
    add_limbs(&x.limbs(), &y.limbs(), true)
}

fn and(x: &IBig, y: &IBig) -> IBig {
    if let (Small(a), Small(b)) = (&x.0, &y.0) {
        return IBig(Small(a & b));
    }
    let (x, y) = (x.limbs(), y.limbs());
    held((0..x.len().max(y.len())).map(|i| limb(&x, i) & limb(&y, i)).collect())
}

fn mul(x: &IBig, y: &IBig) -> IBig {
    if let (Small(a), Small(b)) = (&x.0, &y.0) {
        if let (Ok(a), Ok(b)) = (i64::try_from(*a), i64::try_from(*b)) {
            return IBig(Small(a as i128 * b as i128));
        }
        if let Some(p) = a.checked_mul(*b) {
            return IBig(Small(p));
        }
    }
    let size = |v: &IBig| if v.is_negative() { sub(&IBig::ZERO, v).limbs() } else { v.limbs() };
    let (a, b) = (size(x), size(y));
    let mut out = vec![0u64; a.len() + b.len() + 1];
    for (i, p) in a.iter().enumerate() {
        let mut carry = 0u128;
        for (j, q) in b.iter().enumerate() {
            let t = *p as u128 * *q as u128 + out[i + j] as u128 + carry;
            out[i + j] = t as u64;
            carry = t >> 64;
        }
        out[i + b.len()] = carry as u64;
    }
    let product = held(out);
    if x.is_negative() != y.is_negative() {
        sub(&IBig::ZERO, &product)
    } else {
        product
    }
}

fn shl(x: &IBig, n: usize) -> IBig {
    if let Small(a) = &x.0 {
        if n < 127 && (*a << n) >> n == *a {
            return IBig(Small(*a << n));
        }
    }
    let (v, bits) = (x.limbs(), n % 64);
    let mut out = vec![0u64; n / 64];
    let mut low = 0u64;
    for i in 0..=v.len() {
        let here = limb(&v, i);
        out.push(if bits == 0 { here } else { here << bits | low >> (64 - bits) });
        low = here;
    }
    held(out)
}

fn shr(x: &IBig, n: usize) -> IBig {
    if let Small(a) = &x.0 {
        return IBig(Small(a >> n.min(127)));
    }
    let (v, bits) = (x.limbs(), n % 64);
    let from = n / 64;
    let size = v.len().saturating_sub(from).max(1);
    held(
        (from..from + size)
            .map(|i| {
                let here = limb(&v, i);
                if bits == 0 {
                    here
                } else {
                    here >> bits | limb(&v, i + 1) << (64 - bits)
                }
            })
            .collect(),
    )
}

macro_rules! operator {
    ($trait:ident, $method:ident, $work:ident) => {
        operator!($trait, $method, $work, IBig, IBig);
        operator!($trait, $method, $work, IBig, &IBig);
        operator!($trait, $method, $work, &IBig, IBig);
        operator!($trait, $method, $work, &IBig, &IBig);
    };
    ($trait:ident, $method:ident, $work:ident, $left:ty, $right:ty) => {
        impl $trait<$right> for $left {
            type Output = IBig;
            fn $method(self, other: $right) -> IBig {
                #[allow(clippy::needless_borrow)]
                $work(&self, &other)
            }
        }
    };
}
operator!(Add, add, add);
operator!(Sub, sub, sub);
operator!(Mul, mul, mul);
operator!(BitAnd, bitand, and);

macro_rules! shifts {
    ($left:ty) => {
        impl Shl<usize> for $left {
            type Output = IBig;
            fn shl(self, n: usize) -> IBig {
                shl(&self, n)
            }
        }
        impl Shr<usize> for $left {
            type Output = IBig;
            fn shr(self, n: usize) -> IBig {
                shr(&self, n)
            }
        }
        impl BitAnd<i32> for $left {
            type Output = IBig;
            fn bitand(self, other: i32) -> IBig {
                and(&self, &IBig::from(other))
            }
        }
        impl Neg for $left {
            type Output = IBig;
            fn neg(self) -> IBig {
                sub(&IBig::ZERO, &self)
            }
        }
    };
}
shifts!(IBig);
shifts!(&IBig);

impl From<i32> for IBig {
    fn from(x: i32) -> IBig {
        IBig(Small(x as i128))
    }
}

impl From<i64> for IBig {
    fn from(x: i64) -> IBig {
        IBig(Small(x as i128))
    }
}

impl fmt::Debug for IBig {
    fn fmt(&self, f: &mut fmt::Formatter<'_>) -> fmt::Result {
        match &self.0 {
            Small(x) => write!(f, "{}", x),
            Large(v) => write!(f, "{:x?}", v),
        }
    }
}

impl fmt::Display for IBig {
    fn fmt(&self, f: &mut fmt::Formatter<'_>) -> fmt::Result {
        write!(f, "{:?}", self)
    }
}
