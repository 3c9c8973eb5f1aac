//! The writer and the reader of OpenQASM on one word or one text, against qasm.rs.

use crate::abi::{self, Job, Written};
use crate::exact::Matrix;
use crate::inputs::{without_identity, ENOUGH, LONGEST};
use crate::qasm::{self, Edition, EDITIONS};
use crate::report::Report;
use crate::words::{refusal, rooms, Rooms};

/// The bytes of an answer given room, or a refusal and its place.
pub type Answered = Result<Vec<u8>, (u8, usize)>;

/// Up to so many letters a circuit's matrix is compared with that of its letters.
const SHORT: usize = 64;

fn shown(bytes: &[u8]) -> String {
    let part = &bytes[..bytes.len().min(400)];
    format!("{} bytes {}", bytes.len(), part.escape_ascii())
}

/// The text of a word, or the writer's refusals but 7, in their order.
pub fn text_of(edition: Edition, word: &[u8]) -> Answered {
    if let Some(refused) = refusal(word) {
        return Err(refused);
    }
    let phase = word.iter().position(|g| *g == b'W');
    match (edition, phase) {
        (Edition::Two, Some(place)) => Err((10, place)),
        _ => Ok(edition.text(&qasm::of_word(word))),
    }
}

/// The letters of a text, or the reader's refusals but 7, in their order.
pub fn letters_of(text: &[u8]) -> Answered {
    if let Some(place) = qasm::stops(text) {
        return Err((9, place));
    }
    let letters = qasm::circuit(text).map(|(_, circuit)| qasm::letters(&circuit)).unwrap_or_default();
    if letters.len() > LONGEST {
        return Err((1, 0));
    }
    Ok(letters)
}

pub fn answer(of: &Answered, room: usize) -> Written {
    match of {
        Ok(bytes) => Written::of(bytes).fitting(room),
        Err((number, place)) => Written::refused(*number, *place),
    }
}

/// An accepted answer's rooms are around it; a refusal is tried with room and with none.
fn rooms_of(of: &Answered, which: Rooms, turn: usize) -> Vec<usize> {
    match (of, which) {
        (Ok(bytes), _) => rooms(which, bytes.len(), turn),
        (Err(_), Rooms::All) => vec![ENOUGH, 5000, 0],
        (Err(_), _) => vec![[ENOUGH, 0][turn % 2]],
    }
}

fn write_kind(edition: Edition, refusal: u8) -> &'static str {
    match (edition, refusal) {
        (Edition::Two, 0) => "qasm2 write: equal to the exact writer",
        (Edition::Two, 1) => "qasm2 write: refused 1 Long",
        (Edition::Two, 2) => "qasm2 write: refused 2 Letter",
        (Edition::Two, 7) => "qasm2 write: refused 7 Room",
        (Edition::Two, _) => "qasm2 write: refused 10 Phase",
        (Edition::Three, 0) => "qasm3 write: equal to the exact writer",
        (Edition::Three, 1) => "qasm3 write: refused 1 Long",
        (Edition::Three, 2) => "qasm3 write: refused 2 Letter",
        (Edition::Three, _) => "qasm3 write: refused 7 Room",
    }
}

fn read_kind(text: &[u8], answer: &Written) -> &'static str {
    let head = EDITIONS.into_iter().find(|edition| text.starts_with(edition.head()));
    match (answer.refusal, head) {
        (0, Some(Edition::Two)) => "qasm read: 2.0, equal to the exact reader",
        (0, _) => "qasm read: 3.0, equal to the exact reader",
        (1, _) => "qasm read: refused 1 Long",
        (7, _) => "qasm read: refused 7 Room",
        _ if answer.place == text.len() as u64 => "qasm read: refused 9 Statement, at the length",
        (_, None) => "qasm read: refused 9 Statement, in the head",
        (_, Some(_)) => "qasm read: refused 9 Statement, in a statement",
    }
}

/// A word in one edition, and what was written read again.
pub fn write(report: &mut Report, edition: Edition, word: &[u8], which: Rooms) {
    let job = match edition {
        Edition::Two => Job::Qasm2Write,
        Edition::Three => Job::Qasm3Write,
    };
    let text = text_of(edition, word);
    for room in rooms_of(&text, which, word.len()) {
        let expected = answer(&text, room);
        let at = |d: String| format!("{} room {room}: {d}", shown(word));
        report.case(write_kind(edition, expected.refusal), abi::circuit(job, word, room, &expected).map(at));
    }
    let Ok(text) = text else { return };
    if letters_of(&text) != Ok(without_identity(word)) {
        report.differs("qasm", format!("{}: written and read again it is another word", shown(word)));
    }
    report.note("qasm: words written and read again", 1);
    read(report, &text, which);
}

pub fn write_both(report: &mut Report, word: &[u8], which: Rooms) {
    EDITIONS.into_iter().for_each(|edition| write(report, edition, word, which));
}

/// A text, its refusal and place by the exact reader, its letters' matrix by the circuit's own.
pub fn read(report: &mut Report, text: &[u8], which: Rooms) {
    let letters = letters_of(text);
    exact(report, text, &letters);
    for room in rooms_of(&letters, which, text.len()) {
        let expected = answer(&letters, room);
        let at = |d: String| format!("{} room {room}: {d}", shown(text));
        report.case(read_kind(text, &expected), abi::circuit(Job::QasmRead, text, room, &expected).map(at));
    }
}

/// The two ways to say what a right text is agree, and the letters have the circuit's matrix.
fn exact(report: &mut Report, text: &[u8], letters: &Answered) {
    let circuit = qasm::circuit(text);
    if circuit.is_none() != matches!(letters, Err((9, _))) {
        report.differs("qasm", format!("{}: right or not, by lines or by bytes", shown(text)));
    }
    if let (Some((_, circuit)), Ok(letters)) = (circuit, letters) {
        if letters.len() <= SHORT {
            report.note("qasm: circuits whose matrix was compared with that of the letters read", 1);
            if qasm::matrix(&circuit) != Matrix::word(letters) {
                report.differs("qasm", format!("{}: the letters are another matrix", shown(text)));
            }
        }
    }
}
