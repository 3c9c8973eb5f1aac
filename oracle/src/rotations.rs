//! The T count and the rotation of one triple, against its matrix by exact arithmetic and against its normal word, which job 4
//! is held to as well.

use crate::abi::{self, tees, Written};
use crate::exact::Matrix;
use crate::inputs::Triple;
use crate::report::Report;
use crate::rotation::Rotation;
use std::fmt::Debug;

/// The numbers that the rotation answers, of which the first is the T count, where job 4 answers this.
pub fn numbers(report: &mut Report, triple: &Triple, answer: &Written) -> [i64; 19] {
    match answer.refusal {
        0 => expected(report, triple, &answer.word).numbers(),
        _ => [0; 19],
    }
}

/// The rotation of an accepted triple: that of its matrix. The normal word must turn the axes so, letter by letter, and its T letters
/// be the least exponent.
fn expected(report: &mut Report, triple: &Triple, word: &[u8]) -> Rotation {
    let (k, n, zw) = triple;
    let exact = Rotation::of(&Matrix::triple(*k, *n, zw));
    let right = exact.as_ref().is_some_and(|r| r.e as u64 == tees(word)) && exact == Rotation::turned(word);
    if !right {
        report.differs("rotation", format!("{triple:?}: {exact:?} by its matrix, another by {}", word.escape_ascii()));
    }
    exact.unwrap_or_else(Rotation::identity)
}

fn kinds(refusal: u8) -> [&'static str; 2] {
    match refusal {
        0 => [
            "T count: the T letters of the normal word, and the least exponent of the matrix's rotation",
            "rotation: that of the matrix, and of the normal word letter by letter",
        ],
        3 => ["T count: refused 3 Exponent", "rotation: refused 3 Exponent"],
        4 => ["T count: refused 4 Coefficient", "rotation: refused 4 Coefficient"],
        _ => ["T count: refused 5 Unitary", "rotation: refused 5 Unitary"],
    }
}

fn case<A: PartialEq + Debug>(report: &mut Report, kind: &'static str, triple: &Triple, wanted: A, got: &Option<A>) {
    let right = got.as_ref() == Some(&wanted);
    report.case(kind, (!right).then(|| format!("{triple:?}: expected {wanted:?}, got {got:?}")));
}

/// Both calls, held to job 4's answer and to exact arithmetic; what they handed back where they refused nothing.
pub fn both(report: &mut Report, triple: &Triple, answer: &Written) -> Option<(u64, Rotation)> {
    let (refusal, numbers) = (answer.refusal, numbers(report, triple, answer));
    let count = abi::t_count(triple);
    let rotation = abi::rotation(triple);
    let [of_count, of_rotation] = kinds(refusal);
    case(report, of_count, triple, (refusal, [numbers[0] as u64]), &count);
    case(report, of_rotation, triple, (refusal, numbers), &rotation);
    match (count, rotation) {
        (Some((0, [tees])), Some((0, numbers))) => Some((tees, Rotation::of_numbers(&numbers))),
        _ => None,
    }
}
