//! What a faulty slot call answers: one that takes a slot for another, one that counts or refuses wrongly.

use crate::abi::Fault;
use crate::slot::{Answer, Slot, PLACES};

pub const OF_ADDING: [Fault; 20] = [
    Fault::Behind,
    Fault::Inner,
    Fault::Masked,
    Fault::Trusted,
    Fault::Modulo,
    Fault::Narrow,
    Fault::Half,
    Fault::Nothing,
    Fault::Emptied,
    Fault::Kept,
    Fault::Unwritten,
    Fault::Stale,
    Fault::Unlowered,
    Fault::Late,
    Fault::Early,
    Fault::Brim,
    Fault::Over,
    Fault::Moved,
    Fault::Order,
    Fault::Unread,
];

/// Those that need no letter.
pub const OF_LENGTHS: &[Fault] = OF_ADDING.split_at(12).0;

/// Those of the check of a slot.
const OF_CHECKS: &[Fault] = OF_ADDING.split_at(7).0;

/// The slot that a check with this fault takes this one for.
fn taken_for(fault: Fault, slot: &Slot) -> Option<Slot> {
    let mut other = slot.clone();
    let count = slot.codes().len();
    let [_, _, tail @ ..] = &mut other.rest;
    match fault {
        Fault::Behind => other.syllables[count..].fill(0),
        Fault::Inner => {
            let inner = other.syllables[..count].iter_mut().skip(1).filter(|code| **code == 1);
            let more = inner.map(|code| *code = 2).count() as u64;
            other.rest[1] = other.rest[1].wrapping_add(more);
        }
        Fault::Masked => other.syllables.iter_mut().for_each(|code| *code &= 3),
        Fault::Trusted => other.rest[1] = slot.text()?.len() as u64,
        Fault::Modulo => tail.iter_mut().zip([3, 2, 4, 8]).for_each(|(x, modulus)| *x %= modulus),
        Fault::Narrow => tail.iter_mut().for_each(|x| *x &= 0xff),
        Fault::Half => other.rest.iter_mut().for_each(|x| *x &= 0xffff_ffff),
        _ => return None,
    }
    Some(other)
}

/// What is answered for a slot that a faulty check alone lets pass. The length leaves it as it came.
fn overlooked(fault: Fault, letter: Option<u8>, slot: &Slot) -> Option<Answer> {
    let other = taken_for(fault, slot)?;
    let answer = match letter {
        Some(letter) => other.added(letter),
        None => Answer { slot: slot.clone(), ..other.measured() },
    };
    (answer.refusal != 17).then_some(answer)
}

/// The answer with so much more, or less, in the bytes and the length. A syllable's code is the number of its letters.
fn counted(right: &Answer, more: i64) -> Answer {
    let mut wrong = right.clone();
    wrong.length = wrong.length.wrapping_add_signed(more);
    wrong.slot.rest[1] = wrong.length;
    wrong
}

/// What an adding call answers for a slot that is given, or for a letter that is none.
fn added(fault: Fault, letter: u8, slot: &Slot, right: &Answer) -> Option<Answer> {
    let (before, after) = (slot.rest[0], right.slot.rest[0]);
    let accepted = right.refusal == 0;
    let full = before == PLACES as u64;
    match fault {
        Fault::Unlowered if after < before => Some(counted(right, slot.syllables[after as usize] as i64)),
        Fault::Late if accepted => Some(Answer { length: slot.rest[1], ..right.clone() }),
        Fault::Early if before < after && after == PLACES as u64 => Some(slot.refused(18)),
        Fault::Brim if full && right.refusal != 17 => Some(slot.refused(18)),
        Fault::Over if right.refusal == 18 => Some(over(letter, slot)),
        Fault::Moved if right.refusal == 18 => {
            let mut moved = slot.refused(18);
            moved.slot.rest[2..].copy_from_slice(&over(letter, slot).slot.rest[2..]);
            Some(moved)
        }
        Fault::Order if right.refusal == 17 && Slot::empty().added(letter).refusal == 2 => Some(slot.refused(2)),
        Fault::Unread if accepted && letter == b'I' => Some(slot.refused(2)),
        _ => None,
    }
}

/// The slot with its syllable too many counted: what the letter makes of the slot without its first, and that one's bytes.
fn over(letter: u8, slot: &Slot) -> Answer {
    let mut shorter = slot.clone();
    shorter.syllables.remove(0);
    shorter.syllables.push(0);
    shorter.rest[0] -= 1;
    shorter.rest[1] -= slot.syllables[0] as u64;
    let made = counted(&shorter.added(letter), slot.syllables[0] as i64);
    let mut answer = Answer { slot: Slot { syllables: slot.syllables.clone(), ..made.slot }, ..made };
    answer.slot.rest[0] += 1;
    answer
}

/// `letter` is none where the length is asked for.
pub fn of(fault: Fault, letter: Option<u8>, slot: &Slot, right: &Answer) -> Option<Answer> {
    let accepted = right.refusal == 0;
    match fault {
        Fault::Nothing if accepted && right.slot.text()?.ends_with(b"I") => Some(match letter {
            Some(_) => counted(right, -1),
            None => Answer { length: right.length - 1, ..right.clone() },
        }),
        Fault::Emptied if !accepted => Some(Answer { slot: Slot::empty(), ..right.clone() }),
        _ if OF_CHECKS.contains(&fault) => overlooked(fault, letter, slot).filter(|_| right.refusal == 17),
        _ => added(fault, letter?, slot, right),
    }
}
