//! The runs of T counts and rotations, which are held, as the library hands them back, to each other and to job 4's word.

use crate::abi::{self, tees};
use crate::exact::{Matrix, Number};
use crate::inputs::{raised, syllables, tails, Random, Triple, LETTERS};
use crate::report::Report;
use crate::rotation::Rotation;
use crate::runs::{triple_of, undone};
use crate::triples::{self, LARGEST};
use crate::words::{Rooms, DEEPEST};
use crate::{exact, rotations};

const NAMED: &str = "a rotation said number for number is the library's";
const BOUNDED: &str = "a rotation's p² and 2·q² are at most 2^e";
const LEAST: &str = "a rotation's exponent is 0, or some p is odd";
const ORTHOGONAL: &str = "a rotation's columns have the inner products 0 and 2^e";
const DEEP: &str = "a rotation's exponent is at most 2k, k reduced and over 0, and at most 1 at k = 0";
const TEES: &str = "a T count is the rotation's exponent, and the T letters of job 4's word";
const WORD: &str = "job 4's word turns the axes, letter by letter, as the rotation does";
const SAME: &str = "a triple raised, with 8 more in n, or with a phase, has the same T count and rotation";
const PRODUCT: &str = "a product's rotation is the product of the rotations";

/// What the answers are held to besides the model. Each must find some planted answer (`plants`).
pub const CHECKS: [&str; 9] = [NAMED, BOUNDED, LEAST, ORTHOGONAL, DEEP, TEES, WORD, SAME, PRODUCT];

/// A triple, and what the library hands back for it: job 4's word, the T count, the rotation.
struct Known {
    triple: Triple,
    word: Vec<u8>,
    tees: u64,
    rotation: Rotation,
}

impl Known {
    /// None where it is refused, or memory is written that is not the answer's.
    fn new(report: &mut Report, triple: Triple) -> Option<Known> {
        let reduced = triples::reduced(report, &triple);
        let answer = triples::synthesise(report, &triple, &reduced, Rooms::Enough);
        let word = abi::handed();
        let (tees, rotation) = rotations::both(report, &triple, &answer)?;
        let known = Known { triple, word, tees, rotation };
        known.alone(report, reduced.ok()?[0]).then_some(known)
    }

    /// What holds of each by itself; whether it is bounded, without which the rest can't be told.
    fn alone(&self, report: &mut Report, k: i64) -> bool {
        let r = &self.rotation;
        report.holds(BOUNDED, r.is_bounded(), || self.name());
        if !r.is_bounded() {
            return false;
        }
        report.holds(LEAST, r.is_least(), || self.name());
        report.holds(ORTHOGONAL, r.is_orthogonal(), || self.name());
        report.holds(DEEP, r.e <= if k > 0 { 2 * k } else { 1 }, || self.name());
        report.holds(TEES, [self.tees; 2] == [r.e as u64, tees(&self.word)], || self.name());
        report.holds(WORD, Rotation::turned(&self.word).as_ref() == Some(r), || self.name());
        report.most("the largest exponent of a rotation", r.e as u64);
        true
    }

    /// Another triple, which must have the same answers.
    fn also(&self, report: &mut Report, triple: Triple) {
        if let Some(other) = Known::new(report, triple) {
            let same = (self.tees, &self.rotation) == (other.tees, &other.rotation);
            report.holds(SAME, same, || format!("{} and {}", self.name(), other.name()));
        }
    }

    /// The product with another, whose triple exact arithmetic makes, where its exponent is allowed; reduced, and as high as the
    /// factors' exponents sum up.
    fn times(&self, report: &mut Report, other: &Known) {
        let [of_self, of_other] = [self, other].map(|x| Matrix::triple(x.triple.0, x.triple.1, &x.triple.2));
        let Some(product) = triple_with(&of_self.times(&of_other), self.triple.1.wrapping_add(other.triple.1)) else {
            return report.differs("exact arithmetic", format!("{} and {}: no triple", self.name(), other.name()));
        };
        let high = (self.triple.0 + other.triple.0).clamp(product.0, DEEPEST.max(product.0));
        let factors = self.rotation.times(&other.rotation);
        for triple in [product, (product.0..high).fold(product, |t, _| raised(t))] {
            if let Some(known) = Known::new(report, triple) {
                report.holds(PRODUCT, known.rotation == factors, || format!("{} by {}", self.name(), other.name()));
            }
        }
    }

    fn name(&self) -> String {
        format!("{:?}: {}, {} T, {:?}", self.triple, self.word.escape_ascii(), self.tees, self.rotation)
    }
}

/// The triple with this matrix and this n, if there is one with 64-bit coefficients.
fn triple_with(m: &Matrix, n: u8) -> Option<Triple> {
    let four = |x: &Number| x.0.iter().map(|v| v.to_i64()).collect::<Option<Vec<_>>>();
    let zw: [i64; 8] = [four(&m.e[0])?, four(&m.e[2])?].concat().try_into().ok()?;
    (Matrix::triple(m.k, n, &zw) == *m).then_some((m.k, n, zw))
}

/// z and w times a power of omega, which is a phase: n goes two up for each.
pub fn phased((k, n, zw): Triple, power: u8) -> Triple {
    let mut zw = zw;
    for _ in 0..power {
        let [a, b, c, d, e, f, g, h] = zw;
        zw = [b, c, d, -a, f, g, h, -e];
    }
    (k, n.wrapping_add(2 * power), zw)
}

/// A triple, and others that must have its answers.
fn around(report: &mut Report, random: &mut Random, triple: Triple) {
    let Some(known) = Known::new(report, triple) else { return };
    let (k, n, zw) = triple;
    known.also(report, phased(triple, 1 + random.below(7) as u8));
    known.also(report, (k, n.wrapping_add(8 * random.below(32) as u8), zw));
    if k < DEEPEST {
        known.also(report, raised(triple));
        let most = (k..DEEPEST).fold(triple, |t, _| raised(t));
        known.also(report, phased(most, random.below(8) as u8));
    }
}

/// Rotations as they are written: the exponent, and p and q row by row.
pub fn named(report: &mut Report) {
    let all: [(&[u8], [i64; 19]); 8] = [
        (b"", [0, 1, 0, 0, 0, 0, 0, 0, 0, 1, 0, 0, 0, 0, 0, 0, 0, 1, 0]),
        (b"W", [0, 1, 0, 0, 0, 0, 0, 0, 0, 1, 0, 0, 0, 0, 0, 0, 0, 1, 0]),
        (b"H", [0, 0, 0, 0, 0, 1, 0, 0, 0, -1, 0, 0, 0, 1, 0, 0, 0, 0, 0]),
        (b"S", [0, 0, 0, -1, 0, 0, 0, 1, 0, 0, 0, 0, 0, 0, 0, 0, 0, 1, 0]),
        (b"X", [0, 1, 0, 0, 0, 0, 0, 0, 0, -1, 0, 0, 0, 0, 0, 0, 0, -1, 0]),
        (b"T", [1, 1, 0, -1, 0, 0, 0, 1, 0, 1, 0, 0, 0, 0, 0, 0, 0, 0, 1]),
        (b"HT", [1, 0, 0, 0, 0, 0, 1, -1, 0, -1, 0, 0, 0, 1, 0, -1, 0, 0, 0]),
        (b"THT", [2, 1, 0, 1, 0, 0, 1, -1, 0, -1, 0, 0, 1, 0, 1, 0, -1, 0, 0]),
    ];
    for (word, numbers) in all {
        if let Some(known) = Known::new(report, triple_of(word).expect("accepted")) {
            report.holds(NAMED, known.rotation.numbers() == numbers, || known.name());
        }
    }
}

/// Every triple of the normal words with up to `most` T and every tail.
pub fn every_tail(report: &mut Report, most: usize) {
    let mut random = Random::new(30);
    for front in (0..=most).flat_map(syllables) {
        for tail in tails() {
            let triple = triple_of(&[front.as_slice(), &tail].concat()).expect("accepted");
            around(report, &mut random, triple);
        }
    }
}

/// Random triples of every depth to 60.
pub fn deep(report: &mut Report, each: usize) {
    let mut random = Random::new(31);
    for count in (4..=122).flat_map(|count| vec![count; each]) {
        if let Some(triple) = triple_of(&random.normal(count)) {
            around(report, &mut random, triple);
        }
    }
}

/// Two words of up to `most` syllables together; in every third pair the second undoes an end of the first.
fn pair(random: &mut Random, most: usize) -> [Vec<u8>; 2] {
    let count = random.below(most);
    let one = random.normal(count);
    if random.below(3) > 0 {
        return [one, random.normal(most - count)];
    }
    let end = &one[random.below(one.len() + 1)..];
    let back: Vec<u8> = end.iter().rev().flat_map(undone).copied().collect();
    let other = [back, random.word(LETTERS, 4)].concat();
    [one, other]
}

/// The products of random pairs.
pub fn products(report: &mut Report, each: usize) {
    let mut random = Random::new(32);
    for i in 0..each {
        let pair = pair(&mut random, 1 + i % 118).map(|word| triple_of(&word));
        let [Some(one), Some(other)] = pair else { continue };
        if let [Some(one), Some(other)] = [one, other].map(|t| Known::new(report, t)) {
            one.times(report, &other);
        }
    }
}

/// Every n with triples of every kind; among them those of which one coefficient alone is not 0, raised as far as k allows.
pub fn every_n(report: &mut Report) {
    let mut random = Random::new(33);
    let mut all: Vec<Triple> = alone(LARGEST).map(|zw| (DEEPEST, 0, zw)).collect();
    all.extend([b"".as_slice(), b"X", b"H", b"THT", b"SHTHTX"].map(|word| triple_of(word).expect("accepted")));
    all.extend([9, 60, 117].map(|count| triple_of(&random.normal(count)).expect("accepted")));
    for (k, _, zw) in all {
        for n in 0..=255 {
            Known::new(report, (k, n, zw));
        }
    }
}

/// Eight numbers, of which one is this one or its negative, and the others 0.
pub fn alone(x: i64) -> impl Iterator<Item = [i64; 8]> {
    (0..16).map(move |i| [0, 1, 2, 3, 4, 5, 6, 7].map(|at| if at == i / 2 { [x, x.wrapping_neg()][i % 2] } else { 0 }))
}

/// Each refusal of job 4 that does not depend on the room: alone, and where several hold.
pub fn refused(report: &mut Report) {
    let numbers = [1, LARGEST - 1, LARGEST, LARGEST + 1, i64::MAX, i64::MIN];
    let each = numbers.into_iter().flat_map(alone).chain(numbers.map(|x| [x; 8])).chain([[0; 8]]);
    for (i, zw) in each.enumerate() {
        for k in [i64::MIN, -1, 0, 1, 30, DEEPEST - 1, DEEPEST, DEEPEST + 1, i64::MAX] {
            triples::exact(report, &(k, i as u8, zw), Rooms::One);
        }
    }
    let mut random = Random::new(34);
    for count in 0..=117 {
        let Some((k, n, zw)) = triple_of(&random.normal(count)) else { continue };
        for other in [k - 1, k + 1] {
            not_unitary(report, "triples that fail by the squares alone", [true, false], (other, n, zw));
        }
        for at in 0..8 {
            let mut turned = zw;
            turned[at] = -turned[at];
            not_unitary(report, "triples that fail by the cross sum alone", [false, true], (k, n, turned));
        }
    }
}

/// Counted where it fails by the sum of squares and by the cross sum as said, and compared in any case.
fn not_unitary(report: &mut Report, what: &'static str, fails: [bool; 2], triple: Triple) {
    let sums = exact::sums(&triple.2);
    let by = (0..=DEEPEST).contains(&triple.0).then(|| [sums[0] != 1 << triple.0, sums[1] != 0]);
    report.note(what, (by == Some(fails)) as u64);
    triples::exact(report, &triple, Rooms::One);
}

/// A few calls of each of them.
pub fn few(report: &mut Report) {
    let mut random = Random::new(35);
    named(report);
    for word in [b"SHTXS".to_vec(), b"THTHTSHTXSW".to_vec(), random.normal(40)] {
        around(report, &mut random, triple_of(&word).expect("accepted"));
    }
    products(report, 4);
    let one = [0, 0, 0, 1, 0, 0, 0, 0];
    for (k, zw) in [(-1, one), (61, [LARGEST; 8]), (60, [LARGEST + 1; 8]), (0, [0; 8]), (1, one)] {
        triples::exact(report, &(k, 3, zw), Rooms::One);
    }
}
