//! What the published Rust answers. A panic is caught and comes back as none.

use rsgridsynth::normal_form::{access as forms, Axis, Clifford, NormalForm, Syllable};
use rsgridsynth::synthesis_of_clifford_t::{access as steps, decompose_domega_unitary};
use rsgridsynth::unitary::{access as triples, DOmegaUnitary};
use std::panic::{catch_unwind, set_hook, AssertUnwindSafe};

/// A caught panic prints nothing; one of the harness's own does.
pub fn quiet() {
    set_hook(Box::new(|info| {
        let at = info.location().map_or("", |l| l.file());
        if !at.contains("/tree/") && !at.contains("dashu_int") && !at.contains("/rustc/") {
            eprintln!("{info}");
        }
    }));
}

pub fn caught<T>(work: impl FnOnce() -> T) -> Option<T> {
    catch_unwind(AssertUnwindSafe(work)).ok()
}

pub fn normal_word(word: &str) -> Option<Vec<u8>> {
    caught(|| NormalForm::from_gates(word).to_gates().into_bytes())
}

/// Which arms of `append_gate`'s T the letters reach in the Rust, told from its state before each T.
#[derive(Default, Clone, Copy)]
pub struct Arms {
    pub pushed: u64,
    pub after_t: u64,
    pub after_ht: u64,
    pub after_sht: u64,
}

pub fn arms(word: &[u8]) -> Arms {
    let mut arms = Arms::default();
    let mut nf = NormalForm::new();
    for g in word {
        if *g == b'T' {
            match forms::removed_by_t(&nf) {
                Some(Syllable::T) => arms.after_t += 1,
                Some(Syllable::HT) => arms.after_ht += 1,
                Some(Syllable::SHT) => arms.after_sht += 1,
                _ => arms.pushed += 1,
            }
        }
        forms::append(&mut nf, letter(*g));
    }
    arms
}

/// The normal word by the published text with its SHT arm mended; exact arithmetic decides whether it is right.
pub fn mended(word: &[u8]) -> Vec<u8> {
    let mut nf = NormalForm::new();
    for g in word {
        forms::append_mended(&mut nf, letter(*g));
    }
    nf.to_gates().into_bytes()
}

fn letter(g: u8) -> &'static str {
    match g {
        b'H' => "H",
        b'S' => "S",
        b'X' => "X",
        b'W' => "W",
        b'T' => "T",
        _ => "?",
    }
}

/// `from_gates`; the inner none where a number has more than 64 bits.
pub fn matrix(word: &str) -> Option<Option<[i64; 10]>> {
    caught(|| triples::numbers(&DOmegaUnitary::from_gates(word)))
}

pub fn reduce(k: i64, n: u8, zw: &[i64; 8]) -> Option<Option<[i64; 10]>> {
    caught(|| triples::numbers(&triples::triple(k, n, zw).reduce_denomexp()))
}

pub fn synthesise(k: i64, n: u8, zw: &[i64; 8]) -> Option<Vec<u8>> {
    caught(|| decompose_domega_unitary(triples::triple(k, n, zw)).into_bytes())
}

/// On a triple that is refused here: whether the Rust panics; none where it would not end, or cost too much memory.
pub fn synthesis_panics(k: i64, n: u8, zw: &[i64; 8]) -> Option<bool> {
    if !(-100..=200).contains(&k) {
        return None;
    }
    match caught(|| steps::ends(triples::triple(k, n, zw), 1000)) {
        Some(false) => None,
        Some(true) => Some(synthesise(k, n, zw).is_none()),
        None => Some(true),
    }
}

/// The letters before normalising.
pub fn letters(k: i64, n: u8, zw: &[i64; 8]) -> Option<Vec<u8>> {
    caught(|| steps::letters(triples::triple(k, n, zw)).into_bytes())
}

/// n after `mul_by_t_inv_from_left`.
pub fn n_after_t_inv(k: i64, n: u8, zw: &[i64; 8]) -> Option<u8> {
    caught(|| triples::n(&triples::triple(k, n, zw).mul_by_t_inv_from_left()))
}

pub fn clifford(x: &[i32; 4]) -> Clifford {
    Clifford::new(x[0], x[1], x[2], x[3])
}

fn parts(c: &Clifford) -> [i32; 4] {
    forms::parts(c).map(i32::from)
}

pub fn reduced(x: &[i32; 4]) -> [i32; 4] {
    parts(&clifford(x))
}

pub fn product(x: &[i32; 4], y: &[i32; 4]) -> [i32; 4] {
    parts(&(clifford(x) * clifford(y)))
}

pub fn inverse(x: &[i32; 4]) -> [i32; 4] {
    parts(&clifford(x).inv())
}

pub fn coset(x: &[i32; 4]) -> [i32; 5] {
    let (axis, rest) = clifford(x).decompose_coset();
    let axis = match axis {
        Axis::I => 0,
        Axis::H => 1,
        Axis::SH => 2,
    };
    let [a, b, c, d] = parts(&rest);
    [axis, a, b, c, d]
}

/// The Rust's reading, letter by letter.
#[derive(Default)]
pub struct Reading(NormalForm);

impl Reading {
    pub fn sht_is_next(&self) -> bool {
        forms::removed_by_t(&self.0) == Some(Syllable::SHT)
    }

    pub fn read(&mut self, g: u8) {
        forms::append(&mut self.0, letter(g));
    }
}
