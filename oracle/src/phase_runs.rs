//! The runs of phase-free words: equal bytes for words that differ by a phase, and for no others.

use crate::abi;
use crate::exact::{is_normal, Matrix};
use crate::inputs::{self, normal_word, put, syllables, tails, Random, ENOUGH, LETTERS};
use crate::report::Report;
use crate::words::{self, job_5_is, Rooms};

const NORMAL: &str = "job 5's word is a normal word without W";
const TEES: &str = "job 5's word has as many T as job 3's";
const LENGTH: &str = "job 5's word has no more letters than job 3's";
const SAME: &str = "job 5's words are equal where exact arithmetic finds a phase at most between the matrices";
const OTHER: &str = "job 5's words differ where exact arithmetic finds more than a phase between the matrices";
const BACK: &str = "job 5's word is given back as it is by jobs 3 and 5";

/// What job 5's answers are held to besides the model. Each must find some planted answer (`plants`).
pub const CHECKS: [&str; 6] = [NORMAL, TEES, LENGTH, SAME, OTHER, BACK];

/// A word, its matrix by exact arithmetic, and what jobs 3 and 5 hand back for it, as it came.
struct Known {
    word: Vec<u8>,
    matrix: Matrix,
    whole: Vec<u8>,
    free: Vec<u8>,
}

impl Known {
    fn new(report: &mut Report, word: Vec<u8>) -> Known {
        let normal = words::normal(report, &word);
        words::job_3(report, &word, &normal, Rooms::Enough);
        let whole = abi::handed();
        words::job_5(report, &word, &normal, Rooms::Enough);
        let free = abi::handed();
        let known = Known { matrix: Matrix::word(&word), word, whole, free };
        known.alone(report);
        known
    }

    fn alone(&self, report: &mut Report) {
        let (free, whole) = (&self.free, &self.whole);
        report.holds(NORMAL, is_normal(free) && !free.contains(&b'W'), || self.name());
        report.holds(TEES, abi::tees(free) == abi::tees(whole), || self.name());
        report.holds(LENGTH, free.len() <= whole.len(), || self.name());
    }

    fn name(&self) -> String {
        let short = |w: &[u8]| w[..w.len().min(60)].escape_ascii().to_string();
        format!(
            "{} letters {}: job 3 {}, job 5 {}",
            self.word.len(),
            short(&self.word),
            short(&self.whole),
            short(&self.free)
        )
    }

    /// The power of omega between the two words' matrices, once job 5's words of them are held to it.
    fn phase_to(&self, report: &mut Report, other: &Known) -> Option<u8> {
        let phase = self.matrix.phase_to(&other.matrix);
        let check = if phase.is_some() { SAME } else { OTHER };
        let right = (self.free == other.free) == phase.is_some();
        report.holds(check, right, || format!("{} and {}", self.name(), other.name()));
        phase
    }

    fn fed_back(&self, report: &mut Report) {
        let again = Known::new(report, self.free.clone());
        report.holds(BACK, again.whole == self.free && again.free == self.free, || again.name());
    }
}

/// One word of each matrix but for its phase.
#[derive(Default)]
struct Classes(Vec<Known>);

impl Classes {
    /// The word has the bytes of its own class, and of no other, and they are given back.
    fn take(&mut self, report: &mut Report, word: Vec<u8>) {
        let known = Known::new(report, word);
        known.fed_back(report);
        let mut own = false;
        for first in &self.0 {
            own |= first.phase_to(report, &known).is_some();
        }
        if !own {
            self.0.push(known);
        }
    }
}

/// Answers as they are written, with room enough, a byte less, a byte more and much more.
pub fn named(report: &mut Report) {
    let answers: [(&[u8], &[u8]); 8] = [
        (b"T", b"TI"),
        (b"TW", b"TI"),
        (b"WT", b"TI"),
        (b"W", b"I"),
        (b"", b"I"),
        (b"WWWWWWWW", b"I"),
        (b"HW", b"H"),
        (b"XSW", b"XS"),
    ];
    for (w, answer) in answers {
        for room in [answer.len(), answer.len() - 1, answer.len() + 1, ENOUGH] {
            job_5_is(report, w, "job 5 phase-free: an answer said word for word", answer, room);
        }
        Known::new(report, w.to_vec()).fed_back(report);
    }
}

/// Every tail behind all syllables of up to `most` T: eight words that differ in W alone have the bytes of the one that
/// has none, and words that differ in more have others.
pub fn every_tail(report: &mut Report, most: usize) {
    let mut classes = Classes::default();
    for front in (0..=most).flat_map(syllables) {
        for eight in tails().chunks(8) {
            let free = normal_word(&front, &eight[0]);
            for tail in eight {
                let w = normal_word(&front, tail);
                for room in [free.len(), free.len() - 1] {
                    job_5_is(report, &w, "job 5 phase-free: the word of the tail with no W", &free, room);
                }
                classes.take(report, w);
            }
        }
    }
    report.note("normal words but for a phase: every tail behind few syllables", classes.0.len() as u64);
}

/// Every word of up to `most` letters with every other.
pub fn every_word(report: &mut Report, most: usize) {
    let mut classes = Classes::default();
    inputs::every_word(most, |w| classes.take(report, w.to_vec()));
    report.note("normal words but for a phase: words of up to 5 letters", classes.0.len() as u64);
}

/// Random words of up to `longest` letters; the same with 1 to 20 W put in, which is so much phase; with another letter
/// put in, which is more than a phase; with a letter replaced.
pub fn changed(report: &mut Report, each: usize, longest: usize) {
    let mut random = Random::new(20);
    for _ in 0..each {
        let len = 1 + random.below(longest - 1);
        let word = random.word(LETTERS, len);
        let phased = random.with_more(&word, b'W', 20);
        let more = (phased.len() - len) as u8;
        let longer = put(&word, random.below(len + 1), *random.of(b"HSXT"));
        let mut replaced = word.clone();
        replaced[random.below(len)] = *random.of(LETTERS);
        let [known, phased, longer, replaced] = [word, phased, longer, replaced].map(|w| Known::new(report, w));
        let phases = [&phased, &longer, &replaced].map(|other| known.phase_to(report, other));
        if phases[0] != Some(more % 8) || phases[1].is_some() {
            report.differs("exact arithmetic", format!("{more} W, {phases:?}: {}", phased.name()));
        }
        phased.fed_back(report);
    }
}

/// A few calls of each of them.
pub fn few(report: &mut Report) {
    named(report);
    every_tail(report, 0);
    every_word(report, 2);
    changed(report, 20, 40);
}
