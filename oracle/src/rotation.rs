//! Rotations by exact arithmetic of the harness's own: what a matrix makes of the axes X, Y and Z, by the textbook's definition,
//! and what a word makes of them, letter by letter. Nothing here is the library's way.

use crate::exact::{Matrix, Number};

/// p + q·root two.
#[derive(Clone, Copy, PartialEq, Debug)]
pub struct Root {
    pub p: i128,
    pub q: i128,
}

impl Root {
    fn of([p, q]: [i128; 2]) -> Root {
        Root { p, q }
    }

    fn plus(self, r: Root) -> Root {
        Root { p: self.p + r.p, q: self.q + r.q }
    }

    fn minus(self, r: Root) -> Root {
        Root { p: self.p - r.p, q: self.q - r.q }
    }

    pub fn neg(self) -> Root {
        Root { p: -self.p, q: -self.q }
    }

    fn times(self, r: Root) -> Root {
        Root { p: self.p * r.p + 2 * self.q * r.q, q: self.p * r.q + self.q * r.p }
    }

    fn times_root_two(self) -> Root {
        Root { p: 2 * self.q, q: self.p }
    }

    pub fn is_even(self) -> bool {
        self.p % 2 == 0
    }

    /// Allowed only where it is even; else a part is lost.
    fn over_root_two(self) -> Root {
        Root { p: self.q, q: self.p / 2 }
    }
}

/// Row by row over root two to the e. Column j is what axis j becomes.
#[derive(Clone, PartialEq, Debug)]
pub struct Rotation {
    pub at: [[Root; 3]; 3],
    pub e: i64,
}

/// The most that an exponent can be: 2k at k = 60.
const MOST_TEES: i64 = 120;

/// X, Y and Z as matrices.
fn axes() -> [Matrix; 3] {
    let [nil, one, i] = [[0, 0, 0, 0], [0, 0, 0, 1], [0, 1, 0, 0]].map(|x| Number::of(&x));
    let x = [nil.clone(), one.clone(), one.clone(), nil.clone()];
    let y = [nil.clone(), i.neg(), i, nil.clone()];
    let z = [one.clone(), nil.clone(), nil, one.neg()];
    [x, y, z].map(|e| Matrix { e, k: 0 })
}

/// The trace of a product.
fn trace(m: &Matrix, r: &Matrix) -> Number {
    let [a, b, c, d] = [(0, 0), (1, 2), (2, 1), (3, 3)].map(|(i, j)| m.e[i].times(&r.e[j]));
    a.add(&b).add(&c.add(&d))
}

/// A real ring number of 64 bits, which is d + c·root two; none where it is no such.
fn real(x: &Number) -> Option<Root> {
    let [_, _, c, d] = &x.0;
    let root = Root { p: d.to_i64()? as i128, q: c.to_i64()? as i128 };
    (x.conjugate() == *x).then_some(root)
}

impl Rotation {
    pub fn identity() -> Rotation {
        let at = |i: usize, j: usize| Root { p: (i == j) as i128, q: 0 };
        Rotation { at: [0, 1, 2].map(|i| [0, 1, 2].map(|j| at(i, j))), e: 0 }
    }

    /// Entry i, j is half the trace of P_i·U·P_j·U*. None where one is not real.
    pub fn of(u: &Matrix) -> Option<Rotation> {
        let (axes, back) = (axes(), u.adjoint());
        let images = [0, 1, 2].map(|j: usize| u.times(&axes[j]).times(&back));
        let k = images.iter().map(|m| m.k).max()?;
        let mut rotation = Rotation { e: k + 2, ..Rotation::identity() };
        for (i, row) in rotation.at.iter_mut().enumerate() {
            for (x, m) in row.iter_mut().zip(&images) {
                let root = real(&trace(&axes[i], m))?;
                *x = (m.k..k).fold(root, |x, _| x.times_root_two());
            }
        }
        Some(rotation.lowered())
    }

    /// Of a word, which is turned by one letter after the other from its end. None where a byte is no letter.
    pub fn turned(word: &[u8]) -> Option<Rotation> {
        word.iter().rev().try_fold(Rotation::identity(), Rotation::under)
    }

    /// The letter after this one. A row has one coordinate of all that the axes have become.
    fn under(self, letter: &u8) -> Option<Rotation> {
        let [x, y, z] = self.at;
        let minus = |row: [Root; 3]| row.map(Root::neg);
        let both = |of: fn(Root, Root) -> Root| [0, 1, 2].map(|j| of(x[j], y[j]));
        let at = match letter {
            b'I' | b'W' => [x, y, z],
            b'S' => [minus(y), x, z],
            b'H' => [z, minus(y), x],
            b'X' => [x, minus(y), minus(z)],
            b'T' => {
                let at = [both(Root::minus), both(Root::plus), z.map(Root::times_root_two)];
                return Some(Rotation { at, e: self.e + 1 }.lowered());
            }
            _ => return None,
        };
        Some(Rotation { at, ..self })
    }

    fn each(self, e: i64, of: fn(Root) -> Root) -> Rotation {
        Rotation { at: self.at.map(|row| row.map(of)), e }
    }

    /// Whether the exponent is the least.
    pub fn is_least(&self) -> bool {
        self.e == 0 || !self.at.iter().flatten().all(|x| x.is_even())
    }

    pub fn lowered(mut self) -> Rotation {
        while !self.is_least() {
            self = self.lower();
        }
        self
    }

    /// One exponent less.
    pub fn lower(self) -> Rotation {
        let e = self.e - 1;
        self.each(e, Root::over_root_two)
    }

    /// The same over this power of root two, or a higher one where it has it.
    pub fn raised(mut self, e: i64) -> Rotation {
        while self.e < e {
            let e = self.e + 1;
            self = self.each(e, Root::times_root_two);
        }
        self
    }

    pub fn times(&self, r: &Rotation) -> Rotation {
        let part = |i: usize, j: usize| [0, 1, 2].map(|m: usize| self.at[i][m].times(r.at[m][j]));
        let at = |i: usize, j: usize| part(i, j).into_iter().reduce(Root::plus).unwrap();
        Rotation { at: [0, 1, 2].map(|i| [0, 1, 2].map(|j| at(i, j))), e: self.e + r.e }.lowered()
    }

    pub fn transposed(&self) -> Rotation {
        Rotation { at: [0, 1, 2].map(|i| [0, 1, 2].map(|j: usize| self.at[j][i])), e: self.e }
    }

    /// p² and 2·q² of every entry are at most 2^e. Where they are, products of two fit 128 bits.
    pub fn is_bounded(&self) -> bool {
        let squares = |x: &Root| [x.p, x.q].map(|v| v.unsigned_abs().pow(2));
        let small = |x: &Root| squares(x)[0].max(2 * squares(x)[1]) <= 1 << self.e;
        (0..=MOST_TEES).contains(&self.e) && self.at.iter().flatten().all(small)
    }

    /// The columns' inner products are 0, and that of one with itself is 2^e.
    pub fn is_orthogonal(&self) -> bool {
        self.transposed().times(self) == Rotation::identity()
    }

    /// The exponent, and p and q of each entry.
    pub fn numbers(&self) -> [i64; 19] {
        let small = |x: i128| i64::try_from(x).expect("64 bits");
        let mut all = vec![self.e];
        all.extend(self.at.iter().flatten().flat_map(|x| [x.p, x.q].map(small)));
        all.try_into().unwrap()
    }

    pub fn of_numbers(numbers: &[i64; 19]) -> Rotation {
        let root = |i: usize| Root::of([numbers[i], numbers[i + 1]].map(i128::from));
        Rotation { at: [0, 1, 2].map(|i| [0, 1, 2].map(|j| root(1 + 6 * i + 2 * j))), e: numbers[0] }
    }
}
