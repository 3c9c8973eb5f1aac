//! The runs of dear spellings: no word has fewer T letters than are answered for its matrix, and all have their parity.

use crate::abi::{self, tees, Written};
use crate::exact::{Key, Matrix};
use crate::inputs::{self, normal_word, tail_at, without_identity, Random, Triple, ENOUGH, LONGEST};
use crate::report::Report;
use crate::rotations;
use crate::words::{self, job_3_is, job_5_is, phase_free};
use std::collections::BTreeMap;
use std::slice::from_ref;

/// How the names of the checks begin.
pub const KINDS: &str = "no cheaper:";

/// What the number of T letters that a job answers is held to. Those of the words are their bytes, counted here.
struct Checks {
    parity: &'static str,
    most: &'static str,
    same: &'static str,
    fewest: &'static str,
}

const OF_3: Checks = Checks {
    parity: "no cheaper: job 3's count is odd exactly where the word's own T letters are",
    most: "no cheaper: job 3's count is at most the word's own T letters",
    same: "no cheaper: job 3's count is the same for all words of a matrix",
    fewest: "no cheaper: job 3's count is the fewest T letters among the words of a matrix",
};
const OF_5: Checks = Checks {
    parity: "no cheaper: job 5's count is odd exactly where the word's own T letters are",
    most: "no cheaper: job 5's count is at most the word's own T letters",
    same: "no cheaper: job 5's count is the same for all words of a matrix but for its phase",
    fewest: "no cheaper: job 5's count is the fewest T letters among the words of a matrix but for its phase",
};
const MATRIX: &str = "no cheaper: the T count of the matrix is job 3's count";
const ODD: &str = "no cheaper: the T count of the matrix is odd exactly where n is";
const MADE: &str = "no cheaper: a dear word gives the normal word that it was made from, and its T letters";
const PHASED: &str = "no cheaper: a dear word with W put in has by job 5 as many T letters as without by job 3";

/// Each must find some planted answer (`plants`).
pub const CHECKS: [&str; 12] = [
    OF_3.parity,
    OF_3.most,
    OF_3.same,
    OF_3.fewest,
    OF_5.parity,
    OF_5.most,
    OF_5.same,
    OF_5.fewest,
    MATRIX,
    ODD,
    MADE,
    PHASED,
];

fn name(word: &[u8], count: u64) -> String {
    let start = word[..word.len().min(60)].escape_ascii();
    format!("{} letters {start}, {} of them T: {count} answered", word.len(), tees(word))
}

impl Checks {
    fn word(&self, report: &mut Report, word: &[u8], count: u64) {
        report.holds(self.parity, count % 2 == tees(word) % 2, || name(word, count));
        report.holds(self.most, count <= tees(word), || name(word, count));
    }
}

/// The words of one matrix, or of all that differ from it by a phase: the answer to them, the fewest T letters among
/// them, and how many were answered for the first.
struct Class {
    answer: Vec<u8>,
    fewest: u64,
    count: Option<u64>,
}

impl Class {
    fn new(answer: Vec<u8>, word: &[u8]) -> Class {
        Class { answer, fewest: tees(word), count: None }
    }

    fn take(&mut self, report: &mut Report, checks: &Checks, word: &[u8], count: u64) {
        if tees(word) % 2 != self.fewest % 2 {
            report.differs("exact arithmetic", format!("words of both parities, one is {}", name(word, count)));
        }
        self.fewest = self.fewest.min(tees(word));
        checks.word(report, word, count);
        let first = *self.count.get_or_insert(count);
        report.holds(checks.same, count == first, || format!("{}, {first} before", name(word, count)));
    }

    /// Once all words are taken.
    fn ended(&self, report: &mut Report, checks: &Checks) {
        let same = self.count == Some(self.fewest);
        report.holds(checks.fewest, same, || {
            format!("{}: {} fewest, {:?} answered", self.answer.escape_ascii(), self.fewest, self.count)
        });
    }
}

/// The least of the eight that differ by a phase.
fn phaseless(key: &Key) -> Key {
    let turned = |key: &Key| {
        let mut next = *key;
        next[1..].chunks_mut(4).for_each(|x| {
            x.rotate_left(1);
            x[3] = -x[3];
        });
        next
    };
    std::iter::successors(Some(*key), |key| Some(turned(key))).take(8).min().unwrap()
}

/// The triple of a reduced matrix.
fn triple(matrix: &Key) -> Option<Triple> {
    let zw: [i64; 8] = [&matrix[1..5], &matrix[9..13]].concat().try_into().ok()?;
    (0..8).map(|n| (matrix[0], n, zw)).find(|(k, n, zw)| Matrix::triple(*k, *n, zw).key() == *matrix)
}

/// Words by their matrix, and by their matrix but for its phase.
#[derive(Default)]
struct Classes {
    whole: BTreeMap<Key, Class>,
    free: BTreeMap<Key, Class>,
}

impl Classes {
    /// Both jobs answer a word as the first with its matrix, which the model is asked about.
    fn take(&mut self, report: &mut Report, word: &[u8]) {
        let key = Matrix::word(word).key();
        let whole = self.whole.entry(key).or_insert_with(|| Class::new(words::normal(report, word).word, word));
        job_3_is(report, word, "job 3 normalise: as the first word with this matrix", &whole.answer, ENOUGH);
        whole.take(report, &OF_3, word, abi::counted());
        let free = self.free.entry(phaseless(&key)).or_insert_with(|| Class::new(phase_free(&whole.answer), word));
        job_5_is(report, word, "job 5 phase-free: as the first word but for a phase", &free.answer, ENOUGH);
        free.take(report, &OF_5, word, abi::counted());
    }

    fn ended(&self, report: &mut Report, most: usize) {
        for (key, class) in &self.whole {
            class.ended(report, &OF_3);
            from_matrix(report, key, class);
            let longer = without_identity(&class.answer).len() > most;
            report.note("no cheaper: of these matrices, those whose normal word is longer", longer as u64);
        }
        self.free.values().for_each(|class| class.ended(report, &OF_5));
        report.note("no cheaper: matrices of the short words", self.whole.len() as u64);
        report.note("no cheaper: matrices of the short words, but for a phase", self.free.len() as u64);
    }
}

/// The T count of the matrix itself, which no word is needed for. Of the letters T alone has an odd power of omega for
/// its determinant, and that of a triple is omega to the n.
fn from_matrix(report: &mut Report, key: &Key, class: &Class) {
    let Some(triple) = triple(key) else {
        return report.differs("exact arithmetic", format!("{}: no triple", class.answer.escape_ascii()));
    };
    if let Some((count, _)) = rotations::both(report, &triple, &Written::of(&class.answer)) {
        report.holds(MATRIX, Some(count) == class.count, || format!("{triple:?}: {count}, {:?}", class.count));
        report.holds(ODD, count % 2 == u64::from(triple.1 % 2), || format!("{triple:?}: {count}"));
    }
}

/// Every word of up to `most` letters with every other of its matrix.
pub fn every_word(report: &mut Report, most: usize) {
    let mut classes = Classes::default();
    inputs::every_word(most, |w| classes.take(report, w));
    classes.ended(report, most);
}

/// Words of the identity that have T letters.
pub const IDENTITIES: [&[u8]; 8] =
    [b"TTTTTTTT", b"TSSST", b"TTSSS", b"XTXTWWWWWWW", b"HTTTTTTTTH", b"TXTWWWWWWWX", b"SHTTSSSHSSS", b"HTHTTSSSHTSSSH"];

/// A normal word of so many syllables, a T before them or not.
pub fn normal(random: &mut Random, count: usize) -> Vec<u8> {
    let word = random.normal(count);
    let (syllables, tail) = word.split_at(tail_at(&word));
    normal_word(syllables, tail)
}

/// The word with up to a dozen of `IDENTITIES` put in anywhere, one in another too, and some S spelt TT.
pub fn dear(random: &mut Random, word: &[u8]) -> Vec<u8> {
    let mut dear = word.to_vec();
    for _ in 0..1 + random.below(12) {
        let at = random.below(dear.len() + 1);
        dear.splice(at..at, random.of(&IDENTITIES).iter().copied());
    }
    let spelt = dear.iter().flat_map(|g| match g {
        b'S' if random.below(2) == 0 => b"TT".as_slice(),
        _ => from_ref(g),
    });
    spelt.copied().collect()
}

/// A dear word, and the same with W put in, of a normal word.
fn made(report: &mut Report, random: &mut Random, normal: &[u8], dear: &[u8]) {
    let [least, own] = [normal, dear].map(tees);
    if words::normal(report, dear).word != normal || own <= least || own % 2 != least % 2 {
        report.differs("exact arithmetic", format!("not of {least} T: {}", name(dear, own)));
    }
    report.most("no cheaper: most T letters that a dear word has over its normal word's", own.saturating_sub(least));
    report.most("no cheaper: most letters of a dear word", dear.len() as u64);
    let room = normal.len().max(ENOUGH);
    job_3_is(report, dear, "job 3 normalise: the normal word that a dear word was made from", normal, room);
    let (count, word) = (abi::counted(), abi::handed());
    report.holds(MADE, count == least && word == normal, || name(dear, count));
    OF_3.word(report, dear, count);
    let phased = random.with_more(dear, b'W', MORE);
    let free = phase_free(normal);
    job_5_is(report, &phased, "job 5 phase-free: that of a dear word's normal word, W put in", &free, room);
    let by_5 = abi::counted();
    report.holds(PHASED, by_5 == count, || format!("{}, {by_5} by job 5", name(dear, count)));
    OF_5.word(report, &phased, by_5);
}

/// How many W are put in at most.
const MORE: usize = 20;

/// Each word of the identity alone, and random normal words of up to so many syllables made dearer.
pub fn dearer(report: &mut Report, each: usize, syllables: usize) {
    let mut random = Random::new(40);
    for identity in IDENTITIES {
        if Matrix::word(identity) != Matrix::identity() {
            report.differs("exact arithmetic", format!("not the identity: {}", identity.escape_ascii()));
        }
        made(report, &mut random, b"I", identity);
    }
    for _ in 0..each {
        let count = random.below(syllables + 1);
        let normal = normal(&mut random, count);
        let dear = dear(&mut random, &normal);
        if dear.len() + MORE <= LONGEST {
            report.note("no cheaper: dear words", 1);
            made(report, &mut random, &normal, &dear);
        }
    }
}

/// A few calls of each of them.
pub fn few(report: &mut Report) {
    every_word(report, 2);
    dearer(report, 5, 12);
}
