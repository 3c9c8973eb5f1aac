//! The circuits of the replay sample: Q and G, a word written in 2.0 and in 3.0, and R, a text read.

use crate::circuit_runs::{circuits, deleted, doubled, mixed_heads, replaced};
use crate::circuits::{answer, letters_of, text_of, Answered};
use crate::inputs::{every_word, Random, LETTERS};
use crate::qasm::{Circuit, Edition, EDITIONS, STATEMENTS};
use crate::sample::Sample;

/// A refusal is given this much room.
const ROOM: usize = 20;

/// With this much more or less room than the answer takes.
fn add(s: &mut Sample, job: char, payload: &[u8], of: &Answered, more: isize) {
    let room = of.as_ref().map_or(ROOM, |bytes| bytes.len().saturating_add_signed(more));
    s.add_lent::<2>(job, room, payload, &answer(of, room));
}

fn write(s: &mut Sample, word: &[u8], more: isize) {
    for (job, edition) in [('Q', Edition::Two), ('G', Edition::Three)] {
        add(s, job, word, &text_of(edition, word), more);
    }
}

fn read(s: &mut Sample, text: &[u8], more: isize) {
    add(s, 'R', text, &letters_of(text), more);
}

/// Every letter and pair, every byte, W and a byte that is no letter in either order, and each side of 4,096.
fn words(s: &mut Sample) {
    every_word(1, |w| [-99, -1, 0, 1].into_iter().for_each(|more| write(s, w, more)));
    every_word(2, |w| write(s, w, 0));
    (0..=255).for_each(|byte| write(s, &[b'H', byte], 0));
    let good = b"HSXTITH";
    for at in 0..good.len() {
        let phase = replaced(good, at, b'W');
        (0..good.len()).for_each(|other| write(s, &replaced(&phase, other, b"W?"[other % 2]), 0));
    }
    let mut random = Random::new(16);
    for len in 3..=40 {
        write(s, &random.word(b"HSXTI", len), len as isize % 4 - 1);
        write(s, &random.word(LETTERS, len), len as isize % 4 - 1);
    }
    for len in [4096, 4097] {
        let word = [b"TH".as_slice(), &vec![b'I'; len - 4], b"XS"].concat();
        write(s, &word, 0);
        write(s, &replaced(&word, len - 1, b'W'), 0);
        write(s, &replaced(&replaced(&word, 0, b'W'), len - 1, b'i'), 0);
    }
}

/// Every circuit of up to two statements, and one of every statement damaged at each byte in each way.
fn texts(s: &mut Sample) {
    for edition in EDITIONS {
        for len in 0..=2 {
            for (i, circuit) in circuits(edition, len).enumerate() {
                read(s, &edition.text(&circuit), i as isize % 3 - 1);
            }
        }
        let whole = edition.text(&edition.statements().iter().collect::<Circuit>());
        [-99, 0, 99].into_iter().for_each(|more| read(s, &whole, more));
        for at in 0..whole.len() {
            for damaged in [deleted(&whole, at), doubled(&whole, at), whole[..at].to_vec()] {
                read(s, &damaged, 0);
            }
            read(s, &replaced(&whole, at, b"hstxdg\r\n02\0\xff"[at % 12]), 0);
        }
        for head in mixed_heads() {
            read(s, &[&head, &whole[edition.head().len()..]].concat(), 0);
        }
    }
    read(s, &Edition::Two.text(&[&STATEMENTS[0], &STATEMENTS[6]]), 0);
}

/// 4,096 letters and 4,097, the latter also with a byte lost at the end, so that 9 comes before 1.
fn long_texts(s: &mut Sample) {
    let [h, sdg, tdg] = [0, 4, 5].map(|i| &STATEMENTS[i]);
    let text = |edition: Edition, ending: &[_]| edition.text(&[&vec![tdg; 1023], ending].concat());
    [-1, 0, 1].into_iter().for_each(|more| read(s, &text(Edition::Two, &[tdg]), more));
    read(s, &text(Edition::Three, &[sdg, h]), 0);
    read(s, &text(Edition::Three, &[h, sdg, h]), 0);
    let over = text(Edition::Two, &[tdg, h]);
    read(s, &over, 0);
    read(s, &over[..over.len() - 1], 0);
}

pub fn all(s: &mut Sample) {
    words(s);
    texts(s);
    long_texts(s);
}
