//! Exact arithmetic of the harness's own, from docs/SCOPE.md: two by two matrices of ring numbers
//! over a power of root two, the letters as matrices, and the shape of normal words. Nothing here is the Rust's.

use dashu_int::IBig;
use std::iter::successors;

/// By residue (docs/SCOPE.md, Synthesis).
const BIT_SHIFT: [u8; 16] = [0, 0, 1, 0, 2, 0, 1, 3, 3, 3, 0, 2, 2, 1, 0, 0];

/// a·omega^3 + b·omega^2 + c·omega + d.
#[derive(Clone, PartialEq)]
pub struct Number(pub [IBig; 4]);

impl Number {
    pub fn of(x: &[i64]) -> Number {
        Number([0, 1, 2, 3].map(|i| IBig::from(x[i])))
    }

    pub fn zero() -> Number {
        Number::of(&[0; 4])
    }

    pub fn add(&self, r: &Number) -> Number {
        Number([0, 1, 2, 3].map(|i| &self.0[i] + &r.0[i]))
    }

    pub fn neg(&self) -> Number {
        Number([0, 1, 2, 3].map(|i| -&self.0[i]))
    }

    pub fn times_omega(&self, power: u8) -> Number {
        let mut v = self.clone();
        for _ in 0..power & 7 {
            let [a, b, c, d] = v.0;
            v = Number([b, c, d, -a]);
        }
        v
    }

    pub fn conjugate(&self) -> Number {
        let [a, b, c, d] = &self.0;
        Number([-c, -b, -a, d.clone()])
    }

    fn even(&self) -> bool {
        let [a, b, c, d] = &self.0;
        a.is_odd() == c.is_odd() && b.is_odd() == d.is_odd()
    }

    fn over_root_two(&self) -> Number {
        let [a, b, c, d] = &self.0;
        Number([(b - d) >> 1, (c + a) >> 1, (b + d) >> 1, (c - a) >> 1])
    }

    pub fn times(&self, r: &Number) -> Number {
        let mut sum = Number::zero();
        for (i, x) in self.0.iter().enumerate() {
            let part = Number([0, 1, 2, 3].map(|j| x * &r.0[j]));
            sum = sum.add(&part.times_omega(3 - i as u8));
        }
        sum
    }

    /// The four parities as one number, a's the highest bit.
    fn residue(&self) -> usize {
        self.0.iter().fold(0, |bits, x| bits * 2 + x.is_odd() as usize)
    }
}

/// A matrix to look others up by: its exponent, and the coefficients of its entries row by row.
pub type Key = [i64; 17];

/// Four entries, row by row, over root two to the k.
#[derive(Clone, PartialEq)]
pub struct Matrix {
    pub e: [Number; 4],
    pub k: i64,
}

impl Matrix {
    pub fn identity() -> Matrix {
        Matrix::triple(0, 0, &[0, 0, 0, 1, 0, 0, 0, 0])
    }

    /// Rows [z, -w*·omega^n] and [w, z*·omega^n].
    pub fn triple(k: i64, n: u8, zw: &[i64]) -> Matrix {
        let (z, w) = (Number::of(&zw[..4]), Number::of(&zw[4..]));
        let (right, below) = (w.conjugate().neg().times_omega(n), z.conjugate().times_omega(n));
        Matrix { e: [z, right, w, below], k }
    }

    /// The letter's matrix times this one, kept reduced.
    pub fn under(self, letter: u8) -> Matrix {
        let k = self.k;
        let [p, q, r, s] = self.e;
        let e = match letter {
            b'I' => [p, q, r, s],
            b'T' => [p, q, r.times_omega(1), s.times_omega(1)],
            b'S' => [p, q, r.times_omega(2), s.times_omega(2)],
            b'W' => [p, q, r, s].map(|x| x.times_omega(1)),
            b'X' => [r, s, p, q],
            b'H' => {
                let e = [p.add(&r), q.add(&s), p.add(&r.neg()), q.add(&s.neg())];
                return Matrix { e, k: k + 1 }.reduced();
            }
            _ => panic!("not a letter: {letter}"),
        };
        Matrix { e, k }
    }

    pub fn reduced(mut self) -> Matrix {
        while self.k > 0 && self.e.iter().all(Number::even) {
            self = Matrix { e: self.e.map(|x| x.over_root_two()), k: self.k - 1 };
        }
        self
    }

    pub fn word(word: &[u8]) -> Matrix {
        word.iter().rev().fold(Matrix::identity(), |m, g| m.under(*g))
    }

    /// A step of synthesis at a reduced matrix: H·T^-m times this one, reduced anew. None where k is 0.
    fn stepped(&self) -> Option<Matrix> {
        if self.k == 0 {
            return None;
        }
        let [p, q, r, s] = &self.e;
        let [of_z, of_w] = [p, r].map(|x| BIT_SHIFT[x.residue()]);
        let back = 8 - (of_w + 4 - of_z) % 4;
        let e = [p.clone(), q.clone(), r.times_omega(back), s.times_omega(back)];
        Some(Matrix { e, k: self.k }.under(b'H'))
    }

    /// How many steps this reduced matrix takes; one more than are allowed where it has no end by then.
    pub fn steps(&self) -> u64 {
        successors(self.stepped(), Matrix::stepped).take(2 * self.k as usize + 1).count() as u64
    }

    /// The residue of z·z*.
    pub fn norm_residue(&self) -> usize {
        let z = &self.e[0];
        z.times(&z.conjugate()).residue()
    }

    /// The power of omega that the other, reduced too, is this one times; none where they differ by more.
    pub fn phase_to(&self, other: &Matrix) -> Option<u8> {
        let by = |power: u8| self.e.iter().zip(&other.e).all(|(x, y)| x.times_omega(power) == *y);
        if self.k == other.k {
            (0..8).find(|power| by(*power))
        } else {
            None
        }
    }

    pub fn times(&self, r: &Matrix) -> Matrix {
        let at = |i: usize, j: usize| self.e[2 * i].times(&r.e[j]).add(&self.e[2 * i + 1].times(&r.e[2 + j]));
        Matrix { e: [at(0, 0), at(0, 1), at(1, 0), at(1, 1)], k: self.k + r.k }.reduced()
    }

    /// The rows as columns, each entry conjugate.
    pub fn adjoint(&self) -> Matrix {
        Matrix { e: [0, 2, 1, 3].map(|i| self.e[i].conjugate()), k: self.k }
    }

    /// Of a reduced matrix with 64-bit coefficients, which a short word's are.
    pub fn key(&self) -> Key {
        let mut key = [0; 17];
        key[0] = self.k;
        let numbers = self.e.iter().flat_map(|x| &x.0);
        key[1..].iter_mut().zip(numbers).for_each(|(at, x)| *at = x.to_i64().expect("a short word's coefficient"));
        key
    }

    /// E^a X^b S^c omega^d, with E = H·S^3·omega^3.
    pub fn clifford(x: &[u8; 4]) -> Matrix {
        let word = b"HSSSWWW".repeat(x[0] as usize);
        let tail = [(b'X', x[1]), (b'S', x[2]), (b'W', x[3])];
        Matrix::word(&tail.iter().fold(word, |w, (g, n)| [w, vec![*g; *n as usize]].concat()))
    }
}

/// Every matrix that a word's endings have is at most this deep, or the rightmost start of one that is deeper.
pub fn word_within(word: &[u8], deepest: i64) -> Result<Matrix, usize> {
    let mut m = Matrix::identity();
    for (i, g) in word.iter().enumerate().rev() {
        m = m.under(*g);
        if m.k > deepest {
            return Err(i);
        }
    }
    Ok(m)
}

fn strip<'a>(word: &'a [u8], letter: u8, most: usize) -> &'a [u8] {
    let n = word.iter().take(most).take_while(|g| **g == letter).count();
    &word[n..]
}

/// At most one T, then HT and SHT, then the tail: nothing, H or SH, X, S to 3, W to 7; an empty tail written I.
pub fn is_normal(word: &[u8]) -> bool {
    let mut rest = strip(word, b'T', 1);
    while let Some(after) = rest.strip_prefix(b"HT").or(rest.strip_prefix(b"SHT")) {
        rest = after;
    }
    if rest == b"I" {
        return true;
    }
    let tail = rest.strip_prefix(b"H").or(rest.strip_prefix(b"SH")).unwrap_or(rest);
    !rest.is_empty() && strip(strip(strip(tail, b'X', 1), b'S', 3), b'W', 7).is_empty()
}

/// Unitary by docs/SCOPE.md, Triples, for coefficients of at most 2^30.
pub fn is_unitary(k: i64, zw: &[i64; 8]) -> bool {
    sums(zw) == [1 << k, 0]
}

/// The sum of the squares, and the cross sum.
pub fn sums(zw: &[i64; 8]) -> [i128; 2] {
    let squares = zw.iter().map(|x| *x as i128 * *x as i128).sum();
    let cross = |v: &[i64]| {
        let [a, b, c, d] = [0, 1, 2, 3].map(|i| v[i] as i128);
        a * b + b * c + c * d - d * a
    };
    [squares, cross(&zw[..4]) + cross(&zw[4..])]
}
