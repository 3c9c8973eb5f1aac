//! Job 6: products, inverses and coset splits, against the Rust and against matrices.

use crate::abi;
use crate::exact::Matrix;
use crate::report::Report;
use crate::rust;

fn matrix(x: &[i32]) -> Matrix {
    Matrix::clifford(&[0, 1, 2, 3].map(|i| x[i] as u8))
}

fn case<const N: usize>(
    report: &mut Report,
    kind: &'static str,
    input: String,
    expected: [i32; N],
    got: Option<[i32; N]>,
) {
    report.case(kind, (got != Some(expected)).then(|| format!("{input}: expected {expected:?}, got {got:?}")));
}

pub fn product(report: &mut Report, x: &[i32; 4], y: &[i32; 4]) {
    let kind = "job 6 product: equal to the Rust";
    case(report, kind, format!("{x:?} {y:?}"), rust::product(x, y), abi::product(x, y));
}

/// The same, the Rust's answer tested by matrices.
pub fn product_by_matrices(report: &mut Report, x: &[i32; 4], y: &[i32; 4], of: &impl Fn(&[i32; 4]) -> Matrix) {
    if of(x).times(&of(y)) != of(&rust::product(x, y)) {
        report.differs("job 6", format!("{x:?} {y:?}: exact arithmetic is against the Rust"));
    }
    report.note("job 6: products compared with exact arithmetic", 1);
    product(report, x, y);
}

/// The row of `CINV_TABLE` that the inverse of a reduced Clifford reads.
pub fn row(x: &[i32; 4]) -> i32 {
    x[0] << 3 | x[1] << 2 | x[2]
}

pub fn inverse(report: &mut Report, x: &[i32; 4]) {
    let reduced = rust::reduced(x);
    let given = rust::inverse(x);
    let (kind, expected) = if row(&reduced) == 12 {
        let expected = [2, 1, 2, (2 - reduced[3]).rem_euclid(8)];
        if given == expected {
            report.differs("job 6", format!("{x:?}: row 12 of the Rust is right"));
        }
        ("job 6 inverse: row 12 read, the Rust differs, exact arithmetic agrees with ours", expected)
    } else {
        ("job 6 inverse: equal to the Rust, row 12 not read", given)
    };
    let identity = Matrix::identity();
    let (m, i) = (matrix(&reduced), matrix(&expected));
    if m.times(&i) != identity || i.times(&m) != identity {
        report.differs("job 6", format!("{x:?}: exact arithmetic is against the inverse {expected:?}"));
    }
    case(report, kind, format!("{x:?}"), expected, abi::inverse(x));
}

pub fn coset(report: &mut Report, x: &[i32; 4]) {
    let expected = rust::coset(x);
    let front: &[u8] = [b"".as_slice(), b"H", b"SH"][expected[0] as usize];
    let reduced = rust::reduced(x);
    let split = Matrix::word(front).times(&matrix(&expected[1..]));
    if split != matrix(&reduced) || expected[0] != reduced[0] || expected[1] != 0 {
        report.differs("job 6", format!("{x:?}: exact arithmetic is against the split {expected:?}"));
    }
    case(report, "job 6 coset: equal to the Rust", format!("{x:?}"), expected, abi::coset(x));
}
