//! The slots of the replay sample: S and L, a letter added and the length.

use crate::inputs::LETTERS;
use crate::sample::Sample;
use crate::slot::{codes, Slot, PLACES};
use crate::slot_runs::{damages, turns};

/// Each tail but for its phase behind up to one syllable, the phase another each time: a T added, which every tail has its own
/// answer to, and every fifth time the length.
fn few_syllables(s: &mut Sample) {
    for codes in (0..=1).flat_map(codes) {
        for (i, tail) in (0..192).step_by(8).enumerate() {
            let slot = Slot::of(&codes, tail + i % 8);
            s.slot(Some(b'T'), &slot);
            if i % 5 == 0 {
                s.slot(None, &slot);
            }
        }
    }
}

/// A word letter by letter, and at each state a byte that is no letter.
fn grown(s: &mut Sample) {
    let mut slot = Slot::empty();
    for (letter, other) in b"SHTTXHTWSHSTTHI".iter().zip(b"\0ABGIiJRhQ?UYs\xff") {
        s.slot(Some(*letter), &slot);
        s.slot(Some(*other), &slot);
        slot = slot.added(*letter).slot;
        s.slot(None, &slot);
    }
}

/// What a request can say: a code of one digit or 255, a number below 2^63 or 2^64-1.
fn can_be_said(slot: &Slot) -> bool {
    slot.syllables.iter().all(|code| matches!(code, 0..=9 | 255))
        && slot.rest.iter().all(|x| x.wrapping_add(1) >> 63 == 0)
}

/// Damaged in every field, by turns with a letter, with a byte that is none, and asked for the length.
fn damaged(s: &mut Sample, slot: &Slot, one_in: usize) {
    let all = damages(slot).into_iter().map(|(_, slot)| slot).filter(can_be_said);
    for (i, slot) in all.step_by(one_in).enumerate() {
        s.slot([Some(b'T'), None, Some(b'?')][i % 3], &slot);
    }
}

/// 4,095 and 4,096 syllables: letters that need one more, none, and that remove one, refused and damaged ones.
fn full(s: &mut Sample) {
    let [h, sh] = [77, 131];
    let most = |pattern: &[u8], first, tail| Slot::of(&turns(pattern, first, PLACES), tail);
    s.slot(Some(b'T'), &Slot::of(&turns(&[2, 3], false, PLACES - 1), sh));
    for tail in [0, h, sh] {
        s.slot(Some(b'T'), &most(&[2, 2, 3], tail == 0, tail));
    }
    LETTERS[..5].iter().for_each(|letter| s.slot(Some(*letter), &most(&[3, 2], false, h)));
    s.slot(Some(b'?'), &most(&[3], true, h));
    s.slot(None, &most(&[3], true, 191));
    damaged(s, &most(&[2, 3, 3], false, sh), 31);
}

pub fn all(s: &mut Sample) {
    few_syllables(s);
    grown(s);
    damaged(s, &Slot::of(&[1, 3, 2], 0), 5);
    damaged(s, &Slot::of(&[2, 2], 117), 7);
    full(s);
}
