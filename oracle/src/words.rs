//! Jobs 2, 3 and 5 on one word: the Rust where it decides, exact arithmetic where it does not.

use crate::abi::{self, Written};
use crate::exact::{is_normal, word_within, Matrix};
use crate::inputs::{normal_word, tail_at, without_identity, ENOUGH, LETTERS, LONGEST};
use crate::report::Report;
use crate::rust;
use std::str::from_utf8;

pub const DEEPEST: i64 = 60;

/// Refusals 1 and 2, in that order.
pub fn refusal(word: &[u8]) -> Option<(u8, usize)> {
    if word.len() > LONGEST {
        return Some((1, 0));
    }
    word.iter().position(|g| !LETTERS.contains(g)).map(|i| (2, i))
}

const EXACT: &str = "normal words compared with exact arithmetic, matrix and shape";
const WITH_I: [&str; 3] =
    ["job 2: cases whose word has I", "job 3: cases whose word has I", "job 5: cases whose word has I"];

fn name(word: &[u8]) -> String {
    match word.len() {
        0..=400 => String::from_utf8_lossy(word).into_owned(),
        n => format!("{} letters {}..", n, String::from_utf8_lossy(&word[..60])),
    }
}

/// One case of a job that reads letters; those whose word has an I are counted besides.
fn case(report: &mut Report, word: &[u8], with: &'static str, kind: &'static str, difference: Option<String>) {
    report.note(with, word.contains(&b'I') as u64);
    report.case(kind, difference.map(|d| format!("{}: {d}", name(word))));
}

/// The normal word of an accepted word, and how the Rust came by it.
pub struct Normal {
    pub word: Vec<u8>,
    arm: bool,
    agrees: bool,
    identity: bool,
}

impl Normal {
    /// Of a word with I by that of the word without, if exact arithmetic finds the same matrix.
    pub fn with_identity(report: &mut Report, word: &[u8], normal: &[u8], same: bool) -> Normal {
        report.note(EXACT, 1);
        if !same || !is_normal(normal) {
            against(report, word, normal);
        }
        Normal { word: normal.to_vec(), arm: false, agrees: false, identity: has_identity(report, word) }
    }

    /// The kinds of an answer, of job 3 and of job 5. Only a word without I can be equal to the Rust's.
    fn kinds(&self) -> [&'static str; 2] {
        if self.identity {
            return [
                "job 3 normalise: with I, the Rust panics, exact arithmetic agrees with ours",
                "job 5 phase-free: with I, the normal word with no W in its tail",
            ];
        }
        let job_3 = match (self.arm, self.agrees) {
            (false, _) => "job 3 normalise: equal to the Rust, SHT arm not taken",
            (true, false) => "job 3 normalise: SHT arm taken, the Rust differs, exact arithmetic agrees with ours",
            (true, true) => "job 3 normalise: SHT arm taken, the Rust happens to agree",
        };
        [job_3, "job 5 phase-free: the normal word with no W in its tail"]
    }
}

/// Whether a word has an I; the Rust, given it, must panic.
fn has_identity(report: &mut Report, word: &[u8]) -> bool {
    let has = word.contains(&b'I');
    if has && from_utf8(word).ok().and_then(rust::normal_word).is_some() {
        report.differs("job 3", format!("{}: the Rust does not panic", name(word)));
    }
    has
}

/// Exact arithmetic bears a normal word out: its shape and, where it is another word than the one read, its matrix.
fn exact(report: &mut Report, word: &[u8], normal: &[u8]) {
    report.note(EXACT, 1);
    if !is_normal(normal) || (normal != word && Matrix::word(normal) != Matrix::word(word)) {
        against(report, word, normal);
    }
}

fn against(report: &mut Report, word: &[u8], normal: &[u8]) {
    report.differs("job 3", format!("{}: exact arithmetic is against {}", name(word), name(normal)));
}

/// By the Rust, which is asked about the word without its I letters; a word that has one is held to exact arithmetic.
pub fn normal(report: &mut Report, word: &[u8]) -> Normal {
    let identity = has_identity(report, word);
    let plain = without_identity(word);
    let rust = rust::normal_word(from_utf8(&plain).unwrap());
    if rust.is_none() {
        report.differs("job 3", format!("{}: the Rust panics", name(&plain)));
    }
    let rust = rust.unwrap_or_default();
    let arms = rust::arms(&plain);
    report.note("T read by append_gate: a syllable pushed", arms.pushed);
    report.note("T read by append_gate: T removed", arms.after_t);
    report.note("T read by append_gate: HT removed", arms.after_ht);
    report.note("T read by append_gate: SHT removed (the faulty arm)", arms.after_sht);
    let arm = arms.after_sht > 0;
    let expected = if arm { rust::mended(&plain) } else { rust.clone() };
    if identity || arm || word.len() <= 64 || word.len() % 8 == 0 {
        exact(report, word, &expected);
    }
    let agrees = rust == expected;
    if identity {
        report.note("words with I that the Rust, without it, answers alike", agrees as u64);
        report.note("words with I that the Rust, without it, answers otherwise by its SHT arm", !agrees as u64);
    }
    Normal { agrees, arm, identity, word: expected }
}

/// The least room to be tried, the answer's own, and others as asked; the answer's own and a byte less; or enough.
#[derive(Clone, Copy, PartialEq)]
pub enum Rooms {
    One,
    All,
    Around,
    Enough,
}

pub fn rooms(which: Rooms, answer: usize, turn: usize) -> Vec<usize> {
    match which {
        Rooms::All => vec![answer, answer + 1, answer + 40, answer.saturating_sub(1), answer / 2, 0],
        Rooms::One => vec![[answer, answer + 3, answer.saturating_sub(1), ENOUGH][turn % 4]],
        Rooms::Around => vec![answer, answer.saturating_sub(1)],
        Rooms::Enough => vec![answer.max(ENOUGH)],
    }
}

/// Job 5's answer: the normal word with no W in its tail, and I for a tail that this leaves empty.
pub fn phase_free(normal: &[u8]) -> Vec<u8> {
    let (syllables, tail) = normal.split_at(tail_at(normal));
    let kept: Vec<u8> = tail.iter().copied().filter(|g| *g != b'W').collect();
    normal_word(syllables, &kept)
}

/// Jobs 3 and 5.
pub fn normalise(report: &mut Report, word: &[u8], which: Rooms) {
    if let Some((number, place)) = refusal(word) {
        return refused(report, word, number, place, which);
    }
    let normal = normal(report, word);
    written(report, word, &normal, which);
}

/// Jobs 3 and 5 on a word that they refuse whatever the room.
fn refused(report: &mut Report, word: &[u8], number: u8, place: usize, which: Rooms) {
    let expected = Written::refused(number, place);
    let (kind_3, kind_5) = refused_kinds(report, number, word, |text| rust::normal_word(text).is_none());
    let mut rooms = vec![ENOUGH, word.len() + 20, 0];
    rooms.truncate(if which == Rooms::All { 3 } else { 1 });
    for room in rooms {
        let at = |d: String| format!("room {room}: {d}");
        case(report, word, WITH_I[1], kind_3, abi::normalise(word, room, &expected).map(at));
        case(report, word, WITH_I[2], kind_5, abi::phase_free(word, room, &expected).map(at));
    }
}

/// Jobs 3 and 5 on an accepted word whose normal word is known.
pub fn written(report: &mut Report, word: &[u8], normal: &Normal, which: Rooms) {
    job_3(report, word, normal, which);
    job_5(report, word, normal, which);
}

pub fn job_3(report: &mut Report, word: &[u8], normal: &Normal, which: Rooms) {
    let [kind, _] = normal.kinds();
    for room in rooms(which, normal.word.len(), word.len() + normal.word.len()) {
        if normal.arm && normal.word.len() <= room {
            report.first(kind, || format!("{} gives {}", name(word), name(&normal.word)));
        }
        job_3_is(report, word, kind, &normal.word, room);
    }
}

/// Job 3 on an accepted word whose normal word is said.
pub fn job_3_is(report: &mut Report, word: &[u8], kind: &'static str, normal: &[u8], room: usize) {
    let expected = Written::of(normal).fitting(room);
    let kind = if expected.refusal == 7 { "job 3 normalise: refused 7 Room" } else { kind };
    let at = |d: String| format!("room {room}: {d}");
    case(report, word, WITH_I[1], kind, abi::normalise(word, room, &expected).map(at));
}

pub fn job_5(report: &mut Report, word: &[u8], normal: &Normal, which: Rooms) {
    let [_, kind] = normal.kinds();
    let free = phase_free(&normal.word);
    for room in rooms(which, free.len(), word.len() + normal.word.len()) {
        job_5_is(report, word, kind, &free, room);
    }
}

/// Job 5 on an accepted word whose phase-free word is said.
pub fn job_5_is(report: &mut Report, word: &[u8], kind: &'static str, free: &[u8], room: usize) {
    let expected = Written::of(free).fitting(room);
    let kind = if expected.refusal == 7 { "job 5 phase-free: refused 7 Room" } else { kind };
    let at = |d: String| format!("room {room}: {d}");
    case(report, word, WITH_I[2], kind, abi::phase_free(word, room, &expected).map(at));
}

/// The kinds of a refused word in jobs 3 and 5; a letter that the Rust can be given must make it panic.
fn refused_kinds(
    report: &mut Report,
    number: u8,
    word: &[u8],
    panics: impl FnOnce(&str) -> bool,
) -> (&'static str, &'static str) {
    if number == 1 {
        return ("job 3 normalise: refused 1 Long (the Rust has no limit)", "job 5 phase-free: refused 1 Long");
    }
    let kind_5 = "job 5 phase-free: refused 2 Letter";
    let Ok(text) = from_utf8(word) else {
        return ("job 3 normalise: refused 2 Letter, no text of the Rust's", kind_5);
    };
    if !panics(text) {
        report.differs("job 3", format!("{}: the Rust does not panic", name(word)));
    }
    ("job 3 normalise: refused 2 Letter, the Rust panics", kind_5)
}

/// Job 2's answer: its kind, refusal number, numbers and place.
pub type Answer = (&'static str, u8, [i64; 10], u64);

pub fn deep(place: usize) -> Answer {
    ("job 2 matrix: refused 6 Deep (the Rust has no limit)", 6, [0; 10], place as u64)
}

/// Refused as docs/SCOPE.md, Refusals, has it; the numbers are the Rust's.
pub fn matrix_expected(report: &mut Report, word: &[u8]) -> Answer {
    let refused = |kind, number, place: usize| (kind, number, [0; 10], place as u64);
    if let Some((number, place)) = refusal(word) {
        if number == 1 {
            return refused("job 2 matrix: refused 1 Long (the Rust has no limit)", 1, 0);
        }
        let Ok(text) = from_utf8(word) else {
            return refused("job 2 matrix: refused 2 Letter, no text of the Rust's", 2, place);
        };
        if rust::matrix(text).is_some() {
            report.differs("job 2", format!("{}: the Rust does not panic", name(word)));
        }
        return refused("job 2 matrix: refused 2 Letter, the Rust panics", 2, place);
    }
    let text = from_utf8(word).unwrap();
    let m = match word_within(word, DEEPEST) {
        Ok(m) => m,
        Err(place) => {
            if word.len() <= 400 && rust::matrix(text).is_none() {
                report.differs("job 2", format!("{}: the Rust panics", name(word)));
            }
            return deep(place);
        }
    };
    let kind = match word.contains(&b'I') {
        true => "job 2 matrix: with I, equal to the Rust and to exact arithmetic",
        false => "job 2 matrix: equal to the Rust and to exact arithmetic",
    };
    let Some(Some(numbers)) = rust::matrix(text) else {
        report.differs("job 2", format!("{}: the Rust panics or overflows", name(word)));
        return refused(kind, 0, 0);
    };
    if Matrix::triple(numbers[0], numbers[1] as u8, &numbers[2..]) != m {
        report.differs("job 2", format!("{}: exact arithmetic is against {numbers:?}", name(word)));
    }
    (kind, 0, numbers, 0)
}

/// Job 2; the reduced triple where there is one.
pub fn matrix(report: &mut Report, word: &[u8]) -> Option<[i64; 10]> {
    let expected = matrix_expected(report, word);
    matrix_is(report, word, expected)
}

/// The same on a word whose answer is known.
pub fn matrix_is(report: &mut Report, word: &[u8], (kind, number, numbers, place): Answer) -> Option<[i64; 10]> {
    let got = abi::matrix(word);
    let difference =
        (got != Some((number, numbers, place))).then(|| format!("expected {number} {numbers:?} {place}, got {got:?}"));
    case(report, word, WITH_I[0], kind, difference);
    (number == 0).then_some(numbers)
}
