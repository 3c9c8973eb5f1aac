//! Both slot calls on one slot, against the model: the refusal's number, the length, and every byte of the slot.

use crate::abi;
use crate::report::Report;
use crate::slot::{Answer, Slot};

/// What was to be answered, and what was; none where memory was written that is not the answer's.
pub struct Both {
    pub right: Answer,
    pub got: Option<Answer>,
}

fn case(
    report: &mut Report,
    kind: &'static str,
    asked: impl FnOnce() -> String,
    right: Answer,
    got: Option<Answer>,
) -> Both {
    let shown = |x: &Answer| format!("{} {} {}", x.refusal, x.length, x.slot.name());
    let differs = || {
        let got = got.as_ref().map_or("other memory written".into(), shown);
        format!("{}: expected {}, got {got}", asked(), shown(&right))
    };
    report.case(kind, (got.as_ref() != Some(&right)).then(differs));
    Both { right, got }
}

fn kind_of_adding(taken: &Slot, right: &Answer) -> &'static str {
    let (before, after) = (taken.rest[0], right.slot.rest[0]);
    match right.refusal {
        0 if after > before => "slot add: a syllable more",
        0 if after < before => "slot add: a syllable less",
        0 => "slot add: the same syllables",
        2 => "slot add: refused 2 Letter",
        17 => "slot add: refused 17 Slot",
        _ => "slot add: refused 18 Full",
    }
}

pub fn add(report: &mut Report, letter: u8, taken: &Slot) -> Both {
    let right = taken.added(letter);
    let asked = || format!("{} and {}", taken.name(), [letter].escape_ascii());
    case(report, kind_of_adding(taken, &right), asked, right, abi::slot_add(letter, taken))
}

pub fn length(report: &mut Report, taken: &Slot) -> Both {
    let right = taken.measured();
    let kind = match right.refusal {
        0 => "slot length: that of the text",
        _ => "slot length: refused 17 Slot",
    };
    case(report, kind, || taken.name(), right, abi::slot_length(taken))
}
