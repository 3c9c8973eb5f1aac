//! Slots: a letter added, and the length asked for, beside a letter of job 3, in the same rounds.

use crate::inputs::{Random, LETTERS, LONGEST};
use crate::library::c;
use crate::slot::{Slot, PLACES};
use crate::{median, normalise, ratios, rounds, timed_over, words, Lent};
use std::cell::RefCell;
use std::hint::black_box;

const TURNS: usize = 3;

fn add(letter: u8, slot: &mut Slot) -> (u8, u64) {
    let mut length = 0;
    let (syllables, rest) = (slot.syllables.as_mut_ptr(), slot.rest.as_mut_ptr());
    let refusal = unsafe { c::dunrossel_slot_add(letter, syllables, rest, &mut length) };
    black_box((refusal, length))
}

fn length(slot: &Slot) -> (u8, u64) {
    let mut length = 0;
    let refusal = unsafe { c::dunrossel_slot_length(slot.syllables.as_ptr(), slot.rest.as_ptr(), &mut length) };
    black_box((refusal, length))
}

/// The letters one after another, each answered as the model says; then, again and again, they are timed.
fn adding(slot: &Slot, letters: &[u8]) -> impl Fn() -> f64 {
    let mut held = slot.clone();
    for letter in letters {
        let right = held.added(*letter);
        assert!(add(*letter, &mut held) == (0, right.length) && held == right.slot, "a slot's answer is wrong");
    }
    let (held, letters) = (RefCell::new(held), letters.to_vec());
    move || {
        timed_over(&letters, TURNS, |letter| {
            add(*letter, &mut held.borrow_mut());
        })
    }
}

/// A slot of so many syllables: letters that leave them as they are, a T again and again, which removes the last and adds one
/// again, and the length.
fn sized(random: &mut Random, count: usize, letter: &dyn Fn() -> f64) {
    let slot = Slot::of(&random.word(&[2, 3], count), 0);
    let calm = adding(&slot, &random.word(b"HSXWI", 1000));
    let tees = adding(&slot, &[b'T'; 1000]);
    assert_eq!(length(&slot), (0, slot.rest[1]));
    let asked = || {
        timed_over(&[(); 1000], TURNS, |()| {
            length(black_box(&slot));
        })
    };
    let times = rounds(&[letter, &calm, &tees, &asked]);
    let names = ["a letter added, the syllables stay", "a T added, by turns one less and one more", "length"];
    for (name, side) in names.iter().zip(&times[1..]) {
        let [middle, least, most] = ratios(side, &times[0]);
        print!("| {count} syllables, {name} | {:.1} | {:.2} |", median(side), median(&times[0]));
        println!(" {middle:.0} ({least:.0} to {most:.0}) |");
    }
}

pub fn table(lent: &Lent) {
    println!("\n| Slots | ns a call | a letter of job 3, ns | in such letters, median (least to most) |");
    println!("|---|---|---|---|");
    let mut random = Random::new(24);
    let long = words(&mut random, LETTERS, LONGEST, 20);
    let letter = || timed_over(&long, 3, |word| normalise(word, lent)) / LONGEST as f64;
    [20, 200, PLACES].into_iter().for_each(|count| sized(&mut random, count, &letter));
}
