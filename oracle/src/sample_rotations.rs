//! The T counts and rotations of the replay sample: T and A, both for each triple.

use crate::inputs::{raised, syllables, tails, Random, Triple};
use crate::rotation_runs::{alone, phased};
use crate::runs::triple_of;
use crate::sample::Sample;
use crate::triples::LARGEST;

/// Each tail but for its phase behind up to one syllable, the phase another each time.
fn few_syllables(s: &mut Sample) {
    for front in (0..=1).flat_map(syllables) {
        for (i, tail) in tails().iter().step_by(8).enumerate() {
            let triple = triple_of(&[front.as_slice(), tail].concat()).expect("accepted");
            s.rotation(&phased(triple, i as u8 % 8));
        }
    }
}

/// Random ones as far as k = 60, each also with n over 7, raised to k = 60, and with a bit of a coefficient wrong.
fn random(s: &mut Sample) {
    let mut random = Random::new(36);
    for count in (2..=118).step_by(4) {
        let Some(triple) = triple_of(&random.normal(count)) else { continue };
        let (k, n, mut zw) = triple;
        s.rotation(&triple);
        s.rotation(&(k, n | 8 << random.below(5), zw));
        s.rotation(&(k..60).fold(triple, |t, _| raised(t)));
        zw[random.below(8)] ^= 1;
        s.rotation(&(k, n, zw));
    }
}

/// Either side of each limit, where several refusals hold too, and what fails by the squares or the cross sum alone.
fn edges(s: &mut Sample) {
    for (n, zw) in alone(LARGEST).enumerate() {
        s.rotation(&(60, n as u8 * 17, zw));
    }
    for x in [LARGEST + 1, i64::MAX, i64::MIN] {
        alone(x).step_by(3).for_each(|zw| s.rotation(&(60, 0, zw)));
    }
    for k in [i64::MIN, -1, 61, i64::MAX] {
        for x in [1, LARGEST, LARGEST + 1] {
            s.rotation(&(k, 0, [0, 0, 0, x, 0, 0, 0, 0]));
        }
    }
    let others: [Triple; 3] =
        [(0, 0, [0, 0, 0, 1, 0, 0, 0, 1]), (1, 0, [0, 0, 1, 1, 0, 0, 0, 0]), (60, 0, [LARGEST; 8])];
    others.iter().for_each(|triple| s.rotation(triple));
}

pub fn all(s: &mut Sample) {
    few_syllables(s);
    random(s);
    edges(s);
}
