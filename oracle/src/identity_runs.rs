//! The runs of words with I, of normal words given back, and of words normalised twice.

use crate::abi::Written;
use crate::exact::{word_within, Matrix};
use crate::inputs::{normal_word, put, syllables, tail_at, tails, Random, ENOUGH, LETTERS, LONGEST, PLAIN};
use crate::report::Report;
use crate::runs::{triple, word};
use crate::triples::{both_exports, synthesised};
use crate::words::{self, phase_free, Normal, Rooms, DEEPEST};

/// A word whose normal word, or refusal, is said here too.
fn said(report: &mut Report, w: &[u8], answer: Result<&[u8], (u8, usize)>) {
    let own = match words::refusal(w) {
        Some(refused) => Err(refused),
        None => Ok(words::normal(report, w).word),
    };
    if own.as_deref().map_err(|refused| *refused) != answer {
        report.differs("words with I", format!("{} letters: {own:?} and not {answer:?}", w.len()));
    }
    word(report, w, Rooms::All);
}

/// The smallest words with I, either side of 4,096 letters, and bytes that are no letters before and behind an I.
pub fn listed(report: &mut Report) {
    let answers: [(&[u8], &[u8]); 8] = [
        (b"I", b"I"),
        (b"II", b"I"),
        (b"TI", b"TI"),
        (b"IT", b"TI"),
        (b"ITI", b"TI"),
        (b"HIH", b"I"),
        (b"SHTIT", b"SHS"),
        (&[b'I'; LONGEST], b"I"),
    ];
    for (w, answer) in answers {
        said(report, w, Ok(answer));
    }
    let places: [(&[u8], usize); 8] =
        [(b"i", 0), (b"iI", 0), (b"Ii", 1), (b"I?I", 1), (b"TI\0", 2), (b"?ITI", 0), (b"HIHI\xff", 4), (b"IhIH?", 1)];
    for (w, place) in places {
        said(report, w, Err((2, place)));
    }
    let mut longest = vec![b'I'; LONGEST + 1];
    said(report, &longest, Err((1, 0)));
    longest[0] = b'i';
    said(report, &longest, Err((1, 0)));
    longest.pop();
    said(report, &longest, Err((2, 0)));
    longest.rotate_left(1);
    said(report, &longest, Err((2, LONGEST - 1)));
}

/// A word without I and its answers, which an I in it must not change.
struct Known {
    word: Vec<u8>,
    normal: Written,
    matrix: Matrix,
    numbers: [i64; 10],
}

impl Known {
    fn new(report: &mut Report, word: Vec<u8>) -> Known {
        let letters = words::normal(report, &word).word;
        let (_, _, numbers, _) = words::matrix_expected(report, &word);
        let matrix = Matrix::word(&letters);
        let normal = match word_within(&word, DEEPEST) {
            Ok(_) => synthesised(report, &numbers),
            Err(_) => Written::of(&letters),
        };
        if normal.word != letters {
            report.differs("job 4", format!("{numbers:?}: not the normal word of the letters"));
        }
        Known { word, normal, matrix, numbers }
    }

    /// Both ways to the normal word: jobs 3 and 5 on the letters with I, and job 4 on job 2's matrix of them.
    fn same(&self, report: &mut Report, with: &[u8]) {
        let within = word_within(with, DEEPEST);
        let matrix = within.clone().unwrap_or_else(|_| Matrix::word(with));
        let normal = Normal::with_identity(report, with, &self.normal.word, matrix == self.matrix);
        words::written(report, with, &normal, Rooms::Enough);
        let kind = "job 2 matrix: with I, the Rust's without it and exact arithmetic's with it";
        let expected = within.map_or_else(words::deep, |_| (kind, 0, self.numbers, 0));
        if let Some(numbers) = words::matrix_is(report, with, expected) {
            let kind = "job 4 synthesise: from job 2's matrix of a word with I, equal to job 3's";
            both_exports(report, &triple(numbers), ENOUGH, kind, &self.normal);
        }
    }

    /// An I at every place, and several at random ones.
    fn everywhere(&self, report: &mut Report, random: &mut Random) {
        for at in 0..=self.word.len() {
            self.same(report, &put(&self.word, at, b'I'));
        }
        for _ in 0..100 {
            self.same(report, &random.with_more(&self.word, b'I', 30));
        }
    }
}

/// A word with few T, none of whose endings is too deep for job 2.
fn calm(random: &mut Random, len: usize) -> Vec<u8> {
    loop {
        let w = random.word(b"HSXWHSXWHSXWHSXWHSXWHSXWHSXWT", len);
        if word_within(&w, DEEPEST).is_ok() {
            return w;
        }
    }
}

/// Words that job 2 takes, one that it finds too deep, and one that an I makes too long.
pub fn every_place(report: &mut Report) {
    let mut random = Random::new(17);
    let lengths = [LONGEST - 1, 300, 351, 400];
    let mut all: Vec<Vec<u8>> = lengths.map(|len| calm(&mut random, len)).to_vec();
    all.extend([b"HT".repeat(119), b"HT".repeat(122), random.word(PLAIN, 600)]);
    for w in all {
        Known::new(report, w).everywhere(report, &mut random);
    }
    let longest = calm(&mut random, LONGEST);
    word(report, &longest, Rooms::All);
    for at in 0..=LONGEST {
        word(report, &put(&longest, at, b'I'), Rooms::One);
    }
}

/// A word whose normal word is said to be this one.
fn gives(report: &mut Report, w: &[u8], answer: &[u8]) {
    let normal = words::normal(report, w);
    if normal.word != answer {
        report.differs("normal words", format!("{} gives {}", w.escape_ascii(), normal.word.escape_ascii()));
    }
    words::written(report, w, &normal, Rooms::Around);
}

/// A normal word given back as it is, and job 5's word of it, which is a normal word too.
fn back(report: &mut Report, w: &[u8]) {
    report.note("normal words given back as they are", 1);
    gives(report, w, w);
    let free = phase_free(w);
    report.note("phase-free words given back as they are", 1);
    gives(report, &free, &free);
}

/// Every normal word with up to `most` T and every tail, and so many random long ones, half of which end in I.
pub fn given_back(report: &mut Report, most: usize, long: usize) {
    let tails = tails();
    for front in (0..=most).flat_map(syllables) {
        for tail in &tails {
            back(report, &normal_word(&front, tail));
        }
    }
    let longest: [(&[u8], &[u8], usize, &[u8]); 3] =
        [(b"", b"HT", 2047, b"XS"), (b"", b"SHT", 1365, b"I"), (b"T", b"HT", 2047, b"I")];
    for (start, syllable, times, tail) in longest {
        back(report, &[start, &syllable.repeat(times), tail].concat());
    }
    let mut random = Random::new(18);
    (0..long).for_each(|i| back(report, &long_normal(&mut random, i % 2 == 0)));
}

/// A normal word of hundreds of letters to 4,096, with an empty tail if asked.
fn long_normal(random: &mut Random, empty: bool) -> Vec<u8> {
    loop {
        let many = 100 + random.below(1540);
        let w = random.normal(many);
        let (syllables, tail) = w.split_at(tail_at(&w));
        let whole = normal_word(syllables, if empty { b"" } else { tail });
        if whole.len() <= LONGEST {
            return whole;
        }
    }
}

/// Random words with I among their letters, and what they give given back.
pub fn twice(report: &mut Report, each: usize) {
    let mut random = Random::new(19);
    for _ in 0..each {
        let len = random.below(400);
        let w = put(&random.word(LETTERS, len), random.below(len + 1), b'I');
        let once = words::normal(report, &w);
        words::written(report, &w, &once, Rooms::Enough);
        gives(report, &once.word, &once.word);
    }
}
