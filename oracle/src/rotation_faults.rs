//! What a faulty T count and a faulty rotation answer to a triple that is accepted.

use crate::abi::Fault;
use crate::exact::Matrix;
use crate::inputs::Triple;
use crate::rotation::{Root, Rotation};

pub const OF_ROTATIONS: [Fault; 10] = [
    Fault::Exponent,
    Fault::Twice,
    Fault::More,
    Fault::OneAxis,
    Fault::Unturned,
    Fault::Kept,
    Fault::Unwritten,
    Fault::Stale,
    Fault::Transpose,
    Fault::Mirror,
];

/// A T count is a rotation's exponent, which the last two leave as it is.
pub const OF_COUNTS: &[Fault] = OF_ROTATIONS.split_at(8).0;

/// Those that need neither a refusal nor a call before.
pub const OF_ACCEPTED: &[Fault] = OF_ROTATIONS.split_at(5).0;

/// The least of eight entries is not among them: over a power above 0 four p are odd, two in each of two columns, so that it
/// is no fault to leave one entry out.
pub fn of(fault: Fault, (k, n, zw): &Triple) -> Option<Rotation> {
    let matrix = Matrix::triple(*k, *n, zw).reduced();
    let right = Rotation::of(&matrix)?;
    Some(match fault {
        Fault::Exponent => Rotation { e: matrix.k, ..right },
        Fault::Twice => right.raised(2 * matrix.k),
        Fault::More => right.clone().raised(right.e + 1),
        Fault::OneAxis => by_one_axis(right),
        Fault::Unturned => Rotation::of(&Matrix::triple(*k, 0, zw))?,
        Fault::Transpose => right.transposed(),
        Fault::Mirror => mirrored(right),
        _ => return None,
    })
}

/// Lowered as far as Z's column allows, whatever the others lose.
fn by_one_axis(mut rotation: Rotation) -> Rotation {
    while rotation.e > 0 && rotation.at.iter().all(|row| row[2].is_even()) {
        rotation = rotation.lower();
    }
    rotation
}

/// The rotation for the axes X, -Y and Z.
fn mirrored(mut rotation: Rotation) -> Rotation {
    rotation.at[1] = rotation.at[1].map(Root::neg);
    rotation.at.iter_mut().for_each(|row| row[1] = row[1].neg());
    rotation
}
