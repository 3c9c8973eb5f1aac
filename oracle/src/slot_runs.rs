//! The runs of slots: words added letter by letter, each state held to job 3 as well, full slots, and damaged ones.

use crate::abi;
use crate::inputs::{self, Random, LETTERS, LONGEST};
use crate::report::Report;
use crate::runs::undone;
use crate::slot::{codes, Slot, LIMITS, PLACES};
use crate::slots::{self, Both};
use crate::words;
use std::collections::BTreeSet;

const JOB_3: &str = "a slot's text is job 3's word for the letters so far, and its bytes and the length that word's";
const LENGTH: &str = "a slot's length is the one that adding its last letter answered";
const UNTOUCHED: &str = "a refused slot is handed back as it came, every byte, with the length 0";
const BACK: &str = "the letters of a slot's text, added to the empty slot, give that slot";

/// What the answers are held to besides the model. Each must find some planted answer (`plants`).
pub const CHECKS: [&str; 4] = [JOB_3, LENGTH, UNTOUCHED, BACK];

/// A letter added, and the length of what that gives.
fn add(report: &mut Report, letter: u8, taken: &Slot) -> Both {
    let both = slots::add(report, letter, taken);
    untouched(report, taken, &both);
    let length = length(report, &both.right.slot);
    if both.right.refusal == 0 {
        let [added, asked] = [&both, &length].map(|x| x.got.as_ref().map(|got| got.length));
        report.holds(LENGTH, added == asked, || format!("{}: {added:?}, {asked:?}", both.right.slot.name()));
    }
    both
}

fn length(report: &mut Report, taken: &Slot) -> Both {
    let both = slots::length(report, taken);
    untouched(report, taken, &both);
    report.most("slots: the most bytes of a text", both.right.length);
    both
}

fn untouched(report: &mut Report, taken: &Slot, both: &Both) {
    if let Some(got) = both.got.as_ref().filter(|got| got.refusal != 0) {
        report.holds(UNTOUCHED, got.length == 0 && got.slot == *taken, || taken.name());
    }
}

/// Job 3 on the letters that a slot was given by, with a byte too little room and with just enough.
fn as_job_3(report: &mut Report, letters: &[u8], both: &Both) {
    const KIND: &str = "job 3 normalise: the text of the slot that the letters give";
    let text = both.right.slot.text().expect("a slot that letters give");
    for room in [text.len() - 1, text.len()] {
        words::job_3_is(report, letters, KIND, &text, room);
    }
    let word = abi::handed();
    let same = both.got.as_ref().is_some_and(|got| {
        got.slot.text().as_ref() == Some(&word) && [got.length, got.slot.rest[1]] == [word.len() as u64; 2]
    });
    report.holds(JOB_3, same, || format!("{}: {}", both.right.slot.name(), word.escape_ascii()));
}

/// The model's slot, worked out once more: from the normal word of all its letters.
fn anew(report: &mut Report, letters: &[u8], slot: &Slot) {
    report.note("slots of the model worked out anew from the normal word", 1);
    if Slot::parsed(&words::normal(report, letters).word) != *slot {
        report.differs("exact arithmetic", format!("{}: not {}", letters.escape_ascii(), slot.name()));
    }
}

/// Every word of up to `most` letters.
pub fn every_word(report: &mut Report, most: usize) {
    every_ending(report, &mut Vec::new(), &Slot::empty(), most);
}

/// Every word that goes on from these letters.
fn every_ending(report: &mut Report, letters: &mut Vec<u8>, slot: &Slot, most: usize) {
    if letters.len() == most {
        return;
    }
    for letter in LETTERS {
        letters.push(*letter);
        let both = add(report, *letter, slot);
        as_job_3(report, letters, &both);
        anew(report, letters, &both.right.slot);
        every_ending(report, letters, &both.right.slot, most);
        letters.pop();
    }
}

/// Every tail behind all syllables of up to `most`, and every letter.
pub fn every_tail(report: &mut Report, most: usize) {
    for codes in (0..=most).flat_map(codes) {
        for slot in (0..192).map(|tail| Slot::of(&codes, tail)) {
            length(report, &slot);
            for letter in LETTERS {
                let letters = [slot.text().expect("a slot that letters give"), vec![*letter]].concat();
                let both = add(report, *letter, &slot);
                as_job_3(report, &letters, &both);
                anew(report, &letters, &both.right.slot);
            }
        }
    }
}

/// A slot and the letters that were added to the empty one.
struct Growing {
    letters: Vec<u8>,
    slot: Slot,
}

impl Growing {
    fn new() -> Growing {
        Growing { letters: Vec::new(), slot: Slot::empty() }
    }

    /// One letter more; a refused one is left out.
    fn add(&mut self, report: &mut Report, letter: u8) -> Both {
        let both = add(report, letter, &self.slot);
        if both.right.refusal == 0 {
            self.letters.push(letter);
            self.slot = both.right.slot.clone();
        }
        both
    }

    /// A whole word, held to job 3 after every letter whose number `at` is true for.
    fn word(&mut self, report: &mut Report, word: &[u8], at: impl Fn(usize) -> bool) {
        for (i, letter) in word.iter().enumerate() {
            let both = self.add(report, *letter);
            if at(i) {
                as_job_3(report, &self.letters, &both);
            }
        }
    }
}

/// Random words of up to 200 letters.
pub fn random(report: &mut Report, each: usize) {
    let mut random = Random::new(50);
    for i in 0..each {
        let len = 1 + random.below(200);
        let word = random.word([LETTERS, b"HTSHTTHTI"][i % 2], len);
        let mut growing = Growing::new();
        growing.word(report, &word, |_| true);
        anew(report, &word, &growing.slot);
    }
}

/// Words of 4,096 letters: random ones, the most syllables, those that add and remove.
pub fn long(report: &mut Report, each: usize) {
    let mut random = Random::new(51);
    let patterns: [&[u8]; 6] = [b"THT", b"HT", b"SHT", b"T", b"HTTSSSH", b"SHTTSSSHSSS"];
    let mut all: Vec<Vec<u8>> = patterns.iter().map(|p| p.iter().cycle().take(LONGEST).copied().collect()).collect();
    all.extend((0..each).flat_map(|_| [random.word(LETTERS, LONGEST), random.word(b"HTSHTTHTI", LONGEST)]));
    for word in all {
        let mut growing = Growing::new();
        growing.word(report, &word, |i| i % 16 == 0 || i + 16 > LONGEST);
        anew(report, &word, &growing.slot);
        report.most("slots: the most syllables of 4,096 letters", growing.slot.rest[0]);
    }
}

/// Syllables by turns, a T before them or not.
pub fn turns(pattern: &[u8], first: bool, count: usize) -> Vec<u8> {
    let mut codes: Vec<u8> = pattern.iter().cycle().take(count).copied().collect();
    if first {
        codes[0] = 1;
    }
    codes
}

/// Slots of 4,095 and 4,096 syllables, with every tail and every letter.
pub fn full(report: &mut Report) {
    let mixed = Random::new(52).word(&[2, 3], 997);
    for pattern in [&[2u8][..], &[3], &[2, 3], &mixed] {
        for (first, count) in [(false, PLACES - 1), (false, PLACES), (true, PLACES - 1), (true, PLACES)] {
            let codes = turns(pattern, first, count);
            for slot in (0..192).map(|tail| Slot::of(&codes, tail)) {
                length(report, &slot);
                LETTERS.iter().for_each(|letter| drop(add(report, *letter, &slot)));
            }
        }
    }
}

/// Letters that add and remove, and some that are refused, from 4,090 syllables on.
pub fn around_full(report: &mut Report, each: usize) {
    let mut random = Random::new(53);
    for i in 0..each {
        let codes = turns(&random.word(&[2, 3], 31), i % 2 == 0, PLACES - 6);
        let mut growing = Growing { letters: Vec::new(), slot: Slot::of(&codes, random.below(192)) };
        let word = random.word(b"HTHTHTSXWI", 1000);
        growing.word(report, &word, |_| false);
        growing.word(report, &b"T".repeat(200), |_| false);
    }
}

/// The letters of slots' texts, which give them, and then what undoes these letters, down to the empty slot.
pub fn there_and_back(report: &mut Report, counts: &[usize]) {
    let mut random = Random::new(54);
    for (i, count) in counts.iter().enumerate() {
        let slot = Slot::of(&turns(&random.word(&[2, 3], 61), i % 2 == 0, *count), random.below(192));
        let mut growing = Growing::new();
        let text = slot.text().expect("a slot that letters give");
        let (last, front) = text.split_last().expect("a letter");
        growing.word(report, front, |_| false);
        let got = growing.add(report, *last).got;
        report.holds(BACK, got.is_some_and(|got| got.slot == slot), || slot.name());
        let back: Vec<u8> = text.iter().rev().flat_map(undone).copied().collect();
        growing.word(report, &back, |_| false);
        if growing.slot != Slot::empty() {
            report.differs("exact arithmetic", format!("{}: not undone", slot.name()));
        }
    }
}

/// Slots of every size, which are damaged.
fn sound() -> Vec<Slot> {
    let mut random = Random::new(55);
    let mut all: Vec<Slot> =
        (0..3).flat_map(codes).flat_map(|codes| [0, 117].map(|tail| Slot::of(&codes, tail))).collect();
    for (i, count) in [3, 20, 200, 255, 256, 257, 2048, PLACES - 1, PLACES].into_iter().enumerate() {
        let codes = turns(&random.word(&[2, 3], 61), i % 2 == 0, count);
        all.extend([0, random.below(192)].map(|tail| Slot::of(&codes, tail)));
    }
    all
}

/// A slot with one thing wrong, and what that is.
type Damaged = (&'static str, Slot);

/// Another code at a place: with the bytes as they were, as if it had as many letters as its number, and as if it had none.
fn with_code(slot: &Slot, at: usize, code: u8) -> impl Iterator<Item = Slot> + '_ {
    let less = slot.rest[1] - slot.syllables[at] as u64;
    BTreeSet::from([slot.rest[1], less + code as u64, less]).into_iter().map(move |bytes| {
        let mut other = slot.clone();
        other.syllables[at] = code;
        other.rest[1] = bytes;
        other
    })
}

/// Codes that can't stand at a place, among them its own with one bit more.
fn wrong_codes(slot: &Slot) -> Vec<Damaged> {
    let count = slot.codes().len();
    let mut all = Vec::new();
    let places = BTreeSet::from([0, 1, count / 2, count.saturating_sub(1), count, count + 1, PLACES - 1]);
    for at in places.into_iter().filter(|at| *at < PLACES) {
        let bits = (2..8).map(|bit| slot.syllables[at] | 1 << bit);
        for code in bits.chain([0, 1, 2, 3, 4, 5, 127, 255]).collect::<BTreeSet<u8>>() {
            let what = match code {
                1.. if at >= count => "slots damaged: something behind the last syllable",
                0 if at < count => "slots damaged: a hole",
                1 if at > 0 => "slots damaged: a T that is not the first",
                4.. => "slots damaged: a code over 3",
                _ => continue,
            };
            all.extend(with_code(slot, at, code).map(|other| (what, other)));
        }
    }
    all
}

/// Numbers that are others than the slot's own.
fn wrong_numbers(slot: &Slot) -> Vec<Damaged> {
    let mut all = Vec::new();
    let letters: u64 = slot.codes().iter().map(|code| *code as u64).sum();
    for (i, own) in slot.rest.into_iter().enumerate() {
        let powers = [8, 16, 32, 63].map(|power| 1 << power);
        let mut numbers: Vec<u64> = powers.iter().flat_map(|power| [*power, own + power]).collect();
        numbers.push(u64::MAX);
        let what = match i {
            0 => "slots damaged: the count of syllables",
            1 => "slots damaged: the bytes",
            _ => "slots damaged: a, b, c or d",
        };
        numbers.extend(match i {
            0 => vec![own.wrapping_sub(1), own + 1, 0, PLACES as u64, PLACES as u64 + 1],
            1 => vec![own - 1, own + 1, 0, letters, letters + 1],
            _ => vec![LIMITS[i], own + LIMITS[i]],
        });
        for number in numbers.into_iter().filter(|number| *number != own) {
            let mut other = slot.clone();
            other.rest[i] = number;
            all.push((what, other));
        }
    }
    all
}

/// The last syllable not counted, nor its bytes: it stands behind the last then.
fn uncounted(slot: &Slot) -> Option<Damaged> {
    let last = *slot.codes().last()?;
    let mut other = slot.clone();
    other.rest[0] -= 1;
    other.rest[1] -= last as u64;
    Some(("slots damaged: something behind the last syllable", other))
}

pub fn damages(slot: &Slot) -> Vec<Damaged> {
    [wrong_codes(slot), wrong_numbers(slot), uncounted(slot).into_iter().collect()].concat()
}

/// Both calls on a slot that is damaged, the letter one of the six or none of them: 17 comes before 2 and 18.
fn refused(report: &mut Report, (what, slot): &Damaged, letters: &[u8]) {
    report.note(what, 1);
    if slot.is_given() {
        report.differs("exact arithmetic", format!("{what}: {} is given", slot.name()));
    }
    length(report, slot);
    for letter in letters {
        let both = slots::add(report, *letter, slot);
        untouched(report, slot, &both);
    }
}

/// Slots damaged in every field, one at a time.
pub fn damaged(report: &mut Report) {
    for slot in sound() {
        for (i, damaged) in damages(&slot).iter().enumerate() {
            refused(report, damaged, &[b'T', LETTERS[i % 6], b"t\0\xff?"[i % 4]]);
        }
    }
}

/// Every byte as a letter of slots that are given, full, damaged; the tail of the full one needs a syllable at a T.
pub fn every_byte(report: &mut Report) {
    let full = Slot::of(&turns(&[2], false, PLACES), 77);
    let damaged = damages(&full).swap_remove(0).1;
    for slot in [Slot::empty(), Slot::of(&[1, 3, 2], 5), full, damaged] {
        for byte in 0..=255 {
            let both = slots::add(report, byte, &slot);
            untouched(report, &slot, &both);
        }
    }
}

/// Both calls on the slots of the words of one and two letters, held to the model alone.
pub fn smallest(report: &mut Report) {
    inputs::every_word(2, |word| {
        if let Some((last, front)) = word.split_last() {
            let slot = front.iter().fold(Slot::empty(), |slot, letter| slot.added(*letter).slot);
            slots::add(report, *last, &slot);
            slots::length(report, &slot);
        }
    });
}

/// A few calls of each of them.
pub fn few(report: &mut Report) {
    Growing::new().word(report, b"HTTISHTHTTX", |_| true);
    there_and_back(report, &[2]);
    let slot = Slot::of(&[1, 3, 2], 0);
    damages(&slot).iter().for_each(|damaged| refused(report, damaged, b"T?"));
    for (count, tail) in [(PLACES - 1, 77), (PLACES, 77), (PLACES, 0)] {
        let slot = Slot::of(&turns(&[2, 3], false, count), tail);
        b"TI?".iter().for_each(|letter| drop(add(report, *letter, &slot)));
    }
}
