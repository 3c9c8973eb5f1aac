//! A slot, which is the record that letters are added to, and what both calls answer for it: by exact arithmetic of the harness's
//! own, from docs/SCOPE.md. What a letter does is worked out here by matrices.

use crate::exact::{Key, Matrix};
use crate::inputs::{cliffords, normal_word, tail_at, tails, LETTERS};
use std::collections::HashMap;
use std::sync::LazyLock;

/// The syllables that a slot has places for.
pub const PLACES: usize = 4096;

/// A syllable's letters by its code; 0 is none.
const SYLLABLES: [&[u8]; 4] = [b"", b"T", b"HT", b"SHT"];

/// What the numbers stay below: the count of syllables, and a, b, c, d of the tail. The bytes have the text for that.
pub const LIMITS: [u64; 6] = [PLACES as u64 + 1, u64::MAX, 3, 2, 4, 8];

/// As it is handed over: a code for each place, and how many syllables, the bytes of the text, and the tail's a, b, c, d.
#[derive(Clone, PartialEq)]
pub struct Slot {
    pub syllables: Vec<u8>,
    pub rest: [u64; 6],
}

/// What a call hands back: the refusal's number, the length, and the slot as it stands after.
#[derive(Clone, PartialEq)]
pub struct Answer {
    pub refusal: u8,
    pub length: u64,
    pub slot: Slot,
}

/// The letters of each Clifford as a tail, the empty one as none: of the 192 tails the one with its matrix.
static TAILS: LazyLock<Vec<Vec<u8>>> = LazyLock::new(|| {
    let by_matrix: HashMap<Key, Vec<u8>> = tails().into_iter().map(|tail| (Matrix::word(&tail).key(), tail)).collect();
    assert_eq!(by_matrix.len(), 192, "tails with one matrix");
    cliffords().iter().map(|x| by_matrix[&Matrix::clifford(&x.map(|v| v as u8)).key()].clone()).collect()
});

/// What stands instead of a last syllable, or of none, and a tail, once a letter is added: the codes and the tail.
type Change = (Vec<u8>, usize);

fn change_at(last: u8, tail: usize, letter: usize) -> usize {
    (last as usize * 192 + tail) * LETTERS.len() + letter
}

/// The matrix of the last syllable, the tail and the letter is that of one normal word of up to two syllables. It can follow
/// what stands before the last syllable: only where that was T, or there was none, has it a T in front.
static CHANGES: LazyLock<Vec<Change>> = LazyLock::new(|| {
    let words = (0..=2).flat_map(codes).flat_map(|codes| (0..192).map(move |tail| (codes.clone(), tail)));
    let by_matrix: HashMap<Key, Change> = words.map(|w| (Matrix::word(&spelled(&w.0, w.1)).key(), w)).collect();
    assert_eq!(by_matrix.len(), 10 * 192, "normal words with one matrix");
    let mut all = vec![(vec![], 0); 4 * 192 * LETTERS.len()];
    for (last, tail) in (0..4).flat_map(|last| (0..192).map(move |tail| (last, tail))) {
        for (i, letter) in LETTERS.iter().enumerate() {
            let word = [spelled(&[last], tail), vec![*letter]].concat();
            let change = by_matrix[&Matrix::word(&word).key()].clone();
            assert!(last < 2 || !change.0.contains(&1), "a T that is not the first");
            all[change_at(last, tail, i)] = change;
        }
    }
    all
});

/// The codes of every slot with so many syllables.
pub fn codes(count: usize) -> Vec<Vec<u8>> {
    (0..count).fold(vec![Vec::new()], |all, i| {
        let choices = if i == 0 { 1..4 } else { 2..4 };
        all.iter().flat_map(|front| choices.clone().map(|code| [front.as_slice(), &[code]].concat())).collect()
    })
}

/// The normal word of these codes and this tail.
fn spelled(codes: &[u8], tail: usize) -> Vec<u8> {
    let letters: Vec<u8> = codes.iter().flat_map(|code| SYLLABLES[*code as usize]).copied().collect();
    normal_word(&letters, &TAILS[tail])
}

impl Slot {
    pub fn empty() -> Slot {
        Slot::of(&[], 0)
    }

    /// Of these codes and this tail, its bytes those of its text.
    pub fn of(codes: &[u8], tail: usize) -> Slot {
        let mut syllables = codes.to_vec();
        syllables.resize(PLACES, 0);
        let x = cliffords()[tail].map(|v| v as u64);
        let bytes = spelled(codes, tail).len() as u64;
        Slot { syllables, rest: [codes.len() as u64, bytes, x[0], x[1], x[2], x[3]] }
    }

    /// Of a normal word, taken apart.
    pub fn parsed(normal: &[u8]) -> Slot {
        let (front, tail) = normal.split_at(tail_at(normal));
        let code = |syllable: &[u8]| SYLLABLES.iter().position(|s| *s == syllable).expect("a syllable") as u8;
        let codes: Vec<u8> = front.split_inclusive(|g| *g == b'T').map(code).collect();
        let tail = if tail == b"I" { b"" } else { tail };
        Slot::of(&codes, TAILS.iter().position(|letters| letters == tail).expect("a tail"))
    }

    /// The syllables that are counted, as many as there are places.
    pub fn codes(&self) -> &[u8] {
        &self.syllables[..self.rest[0].min(PLACES as u64) as usize]
    }

    /// The tail's place among the Cliffords.
    fn tail(&self) -> usize {
        self.rest[2..].iter().zip([64, 32, 8, 1]).map(|(x, step)| *x as usize * step).sum()
    }

    fn in_range(&self) -> bool {
        self.rest.iter().zip(LIMITS).all(|(x, limit)| *x < limit)
    }

    /// The letters of the syllables that are counted, and of the tail; none where a number or a code stands for nothing.
    pub fn text(&self) -> Option<Vec<u8>> {
        let codes = self.codes();
        let known = self.in_range() && codes.iter().all(|code| *code < 4);
        known.then(|| spelled(codes, self.tail()))
    }

    /// Whether letters give it, told from the slot alone: the ranges, at most one T, in front, then HT and SHT, nothing behind
    /// them, and the bytes.
    pub fn is_given(&self) -> bool {
        let Some(text) = self.text() else { return false };
        let (codes, behind) = self.syllables.split_at(self.codes().len());
        let in_order = codes.iter().enumerate().all(|(i, code)| *code > (i > 0) as u8);
        in_order && behind.iter().all(|code| *code == 0) && self.rest[1] == text.len() as u64
    }

    /// Of the letters that give it and one more; none where that has a syllable too many. Only the last syllable and the tail
    /// can change.
    fn with(&self, letter: usize) -> Option<Slot> {
        let (last, kept) = self.codes().split_last().unwrap_or((&0, &[]));
        let (codes, tail) = &CHANGES[change_at(*last, self.tail(), letter)];
        let codes = [kept, codes].concat();
        (codes.len() <= PLACES).then(|| Slot::of(&codes, *tail))
    }

    pub fn refused(&self, refusal: u8) -> Answer {
        Answer { refusal, length: 0, slot: self.clone() }
    }

    fn answered(self) -> Answer {
        Answer { refusal: 0, length: self.rest[1], slot: self }
    }

    pub fn added(&self, letter: u8) -> Answer {
        if !self.is_given() {
            return self.refused(17);
        }
        let Some(letter) = LETTERS.iter().position(|g| *g == letter) else { return self.refused(2) };
        self.with(letter).map_or_else(|| self.refused(18), Slot::answered)
    }

    pub fn measured(&self) -> Answer {
        match self.is_given() {
            true => self.clone().answered(),
            false => self.refused(17),
        }
    }

    /// For a difference to be shown: the numbers, and the codes by runs.
    pub fn name(&self) -> String {
        let runs = self.syllables.chunk_by(|x, y| x == y).map(|run| format!("{}x{}", run.len(), run[0]));
        let shown: Vec<String> = runs.collect();
        let more = if shown.len() > 40 { " .." } else { "" };
        format!("{:?} {}{more}", self.rest, shown[..shown.len().min(40)].join(" "))
    }
}
