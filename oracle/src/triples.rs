//! Jobs 1 and 4 on one triple, and beside them the others that take one.

use crate::abi::{self, Written};
use crate::exact::{is_normal, is_unitary, Matrix};
use crate::inputs::{Triple, ENOUGH};
use crate::report::Report;
use crate::words::{Rooms, DEEPEST};
use crate::{rotations, rust, view};

pub const LARGEST: i64 = 1 << 30;

/// Refusals 3, 4 and 5, in that order.
pub fn refusal(k: i64, zw: &[i64; 8]) -> Option<u8> {
    if !(0..=DEEPEST).contains(&k) {
        return Some(3);
    }
    if zw.iter().any(|x| !(-LARGEST..=LARGEST).contains(x)) {
        return Some(4);
    }
    (!is_unitary(k, zw)).then_some(5)
}

/// Job 1's answer: the refusal number, or the Rust's reduced numbers, which exact arithmetic must bear out.
pub fn reduced(report: &mut Report, (k, n, zw): &Triple) -> Result<[i64; 10], u8> {
    if let Some(number) = refusal(*k, zw) {
        return Err(number);
    }
    let Some(Some(numbers)) = rust::reduce(*k, *n, zw) else {
        report.differs("job 1", format!("{k} {n} {zw:?}: the Rust panics"));
        return Ok([0; 10]);
    };
    let exact = Matrix::triple(*k, *n, zw).reduced();
    if Matrix::triple(numbers[0], numbers[1] as u8, &numbers[2..]) != exact || !(0..8).contains(&numbers[1]) {
        report.differs("job 1", format!("{k} {n} {zw:?}: exact arithmetic is against {numbers:?}"));
    }
    Ok(numbers)
}

fn reduce(report: &mut Report, triple: &Triple, expected: &Result<[i64; 10], u8>) {
    let (k, n, zw) = triple;
    let kind = match expected {
        Ok(numbers) if numbers[0] == *k => "job 1 reduce: equal to the Rust, already reduced",
        Ok(_) => "job 1 reduce: equal to the Rust, exponent lowered",
        Err(number) => refused_kind(*number, triple),
    };
    if expected.is_err() {
        report.first(kind, || format!("k = {k}, n = {n}, {zw:?}"));
    }
    let expected = match expected {
        Ok(numbers) => (0, *numbers),
        Err(number) => (*number, [0; 10]),
    };
    let got = abi::reduce(*k, *n, zw);
    let difference = (got != Some(expected)).then(|| format!("{k} {n} {zw:?}: expected {expected:?}, got {got:?}"));
    report.case(kind, difference);
}

/// Whether the Rust answers or panics is only counted: it has no such check. Exponents far out would cost memory.
fn refused_kind(number: u8, (k, n, zw): &Triple) -> &'static str {
    let panics = (-100..=200).contains(k).then(|| rust::reduce(*k, *n, zw).is_none());
    match (number, panics) {
        (3, Some(true)) => "job 1 reduce: refused 3 Exponent, the Rust panics",
        (3, Some(false)) => "job 1 reduce: refused 3 Exponent, the Rust answers",
        (3, None) => "job 1 reduce: refused 3 Exponent, the Rust not asked",
        (4, Some(true)) => "job 1 reduce: refused 4 Coefficient, the Rust panics",
        (4, _) => "job 1 reduce: refused 4 Coefficient, the Rust answers",
        (_, Some(true)) => "job 1 reduce: refused 5 Unitary, the Rust panics",
        (_, _) => "job 1 reduce: refused 5 Unitary, the Rust answers",
    }
}

/// The same of job 4.
fn refused_4_kind(number: u8, (k, n, zw): &Triple) -> &'static str {
    match (number, rust::synthesis_panics(*k, *n, zw)) {
        (3, Some(true)) => "job 4 synthesise: refused 3 Exponent, the Rust panics",
        (3, Some(false)) => "job 4 synthesise: refused 3 Exponent, the Rust answers",
        (3, None) => "job 4 synthesise: refused 3 Exponent, the Rust not asked",
        (4, Some(true)) => "job 4 synthesise: refused 4 Coefficient, the Rust panics",
        (4, Some(false)) => "job 4 synthesise: refused 4 Coefficient, the Rust answers",
        (_, Some(true)) => "job 4 synthesise: refused 5 Unitary, the Rust panics",
        (_, Some(false)) => "job 4 synthesise: refused 5 Unitary, the Rust answers",
        _ => "job 4 synthesise: refused 4 or 5, the Rust makes 1,000 steps without an end",
    }
}

/// The normal word of a reduced triple, the Rust's, or where its SHT arm is taken the mended one; and the steps to it.
pub fn synthesised(report: &mut Report, numbers: &[i64; 10]) -> Written {
    let (k, n) = (numbers[0], numbers[1] as u8);
    let zw: [i64; 8] = numbers[2..].try_into().unwrap();
    let (Some(word), Some(letters)) = (rust::synthesise(k, n, &zw), rust::letters(k, n, &zw)) else {
        report.differs("job 4", format!("{numbers:?}: the Rust panics"));
        return Written::default();
    };
    if std::str::from_utf8(&letters).ok().and_then(rust::normal_word).as_ref() != Some(&word) {
        report.differs("job 4", format!("{numbers:?}: the letters before normalising are not the Rust's"));
    }
    let arms = rust::arms(&letters);
    let removed = arms.after_t + arms.after_ht + arms.after_sht;
    report.note("job 4: T letters of the Rust's letters before normalising that remove a syllable", removed);
    report.note("job 4: of these, the faulty SHT arm", arms.after_sht);
    report.most("job 4: most letters before normalising, less 6k (12 allowed)", over(letters.len(), k));
    report.most("job 4: most bytes of an answer, less 6k (16 allowed)", over(word.len(), k));
    let word = if arms.after_sht > 0 { rust::mended(&letters) } else { word };
    let exact = Matrix::triple(k, n, &zw);
    if !is_normal(&word) || Matrix::word(&word) != exact || Matrix::word(&letters) != exact {
        report.differs("job 4", format!("{numbers:?}: exact arithmetic is against {word:?}"));
    }
    if over(letters.len(), k) > 12 || over(word.len(), k) > 16 {
        report.differs("job 4", format!("{numbers:?}: longer than docs/SCOPE.md says"));
    }
    Written { steps: steps(report, &exact, &letters), ..Written::of(&word) }
}

/// Job 4's answer given room enough, or its refusal.
pub fn answer(report: &mut Report, triple: &Triple) -> Written {
    match reduced(report, triple) {
        Ok(numbers) => synthesised(report, &numbers),
        Err(number) => Written::refused(number, 0),
    }
}

/// The steps of a reduced triple: by exact arithmetic, by the Rust's step, which writes an H each time, and by k and z·z* alone.
fn steps(report: &mut Report, exact: &Matrix, letters: &[u8]) -> u64 {
    let steps = exact.steps();
    let by_rust = letters.iter().filter(|g| **g == b'H').count() as u64;
    let (k, residue) = (exact.k as u64, exact.norm_residue());
    let (kind, told) = match (k, residue) {
        (0, _) => ("job 4: triples of no step, k = 0", 0),
        (_, 0b0001) => ("job 4: triples of 2k - 1 steps, the residue of z·z* 0001", 2 * k - 1),
        (_, 0b1010) => ("job 4: triples of 2k - 2 steps, the residue of z·z* 1010", 2 * k - 2),
        _ => ("job 4: triples with another residue of z·z*", u64::MAX),
    };
    if [by_rust, told] != [steps; 2] {
        let letters = letters.escape_ascii();
        report.differs("job 4", format!("{letters}: k = {k}, {residue:04b}, {steps} steps, the Rust's {by_rust}"));
    }
    report.note(kind, 1);
    report.most("job 4: most steps (119 allowed)", steps);
    report.most("job 4: most steps at k over 0, less 2k - 2 (1 allowed)", (steps + 2).saturating_sub(2 * k.max(1)));
    steps
}

fn over(len: usize, k: i64) -> u64 {
    (len as i64 - 6 * k).max(0) as u64
}

/// Job 4, which is compared in rooms as asked. Its answer given room enough, or its refusal.
pub fn synthesise(report: &mut Report, triple: &Triple, reduced: &Result<[i64; 10], u8>, which: Rooms) -> Written {
    let (k, n, zw) = triple;
    let numbers = match reduced {
        Ok(numbers) => numbers,
        Err(number) => {
            let kind = refused_4_kind(*number, triple);
            report.first(kind, || format!("k = {k}, n = {n}, {zw:?}"));
            let room = if which == Rooms::All { 0 } else { ENOUGH };
            let refused = Written::refused(*number, 0);
            both_exports(report, triple, room, kind, &refused);
            return refused;
        }
    };
    let answer = synthesised(report, numbers);
    let word = &answer.word;
    let kind = if numbers[0] == *k {
        "job 4 synthesise: equal to the Rust"
    } else {
        let kind = unreduced_kind(report, triple, word);
        report.first(kind, || format!("k = {k}, n = {n}, {zw:?}"));
        kind
    };
    let rooms = match which {
        Rooms::All => vec![word.len(), ENOUGH, word.len() + 1, word.len() - 1, word.len() / 2, 0],
        _ => vec![[word.len(), ENOUGH][word.len() % 2]],
    };
    for room in rooms {
        let expected = answer.clone().fitting(room);
        let kind = if expected.refusal == 7 { "job 4 synthesise: refused 7 Room" } else { kind };
        both_exports(report, triple, room, kind, &expected);
    }
    answer
}

/// Job 4 by its two exports, the second of which also answers the steps.
pub fn both_exports(report: &mut Report, triple: &Triple, room: usize, kind: &'static str, expected: &Written) {
    let at = |d: String| format!("{triple:?} room {room}: {d}");
    report.case(kind, abi::synthesise(triple, room, expected).map(at));
    let kind = match expected.refusal {
        0 => "job 4 with steps: the same word, and the steps of the reduced triple",
        3 => "job 4 with steps: refused 3 Exponent",
        4 => "job 4 with steps: refused 4 Coefficient",
        5 => "job 4 with steps: refused 5 Unitary",
        _ => "job 4 with steps: refused 7 Room",
    };
    report.case(kind, abi::synthesise_steps(triple, room, expected).map(at));
}

/// An unreduced triple: ours answers as for the reduced one. The Rust may panic, or give the same word.
fn unreduced_kind(report: &mut Report, (k, n, zw): &Triple, word: &[u8]) -> &'static str {
    match rust::synthesise(*k, *n, zw) {
        None => "job 4 synthesise: unreduced, the Rust panics, ours as for the reduced triple",
        Some(given) if given == word => "job 4 synthesise: unreduced, the Rust answers the same",
        Some(given) => {
            let letters = rust::letters(*k, *n, zw).unwrap_or_default();
            if rust::arms(&letters).after_sht == 0 {
                let given = String::from_utf8_lossy(&given).into_owned();
                report.differs("job 4", format!("{k} {n} {zw:?}: unreduced, the Rust answers {given}"));
            }
            "job 4 synthesise: unreduced, the Rust differs by its SHT arm"
        }
    }
}

/// All that take a triple.
pub fn all(report: &mut Report, triple: &Triple, which: Rooms) {
    exact(report, triple, which);
    view::view(report, triple, refusal(triple.0, &triple.2).is_some());
}

/// The same without job 7, the numeric view.
pub fn exact(report: &mut Report, triple: &Triple, which: Rooms) {
    let expected = reduced(report, triple);
    reduce(report, triple, &expected);
    let answer = synthesise(report, triple, &expected, which);
    rotations::both(report, triple, &answer);
}
