//! Which words and texts are written and read as OpenQASM. Every run is the same from one start to the next.

use crate::circuits::{read, write, write_both};
use crate::exact::Matrix;
use crate::inputs::{self, Random, LETTERS};
use crate::qasm::{self, Circuit, Edition, Statement, EDITIONS, STATEMENTS};
use crate::report::Report;
use crate::words::Rooms;

/// The edition's circuits of so many statements.
pub fn circuits(edition: Edition, len: u32) -> impl Iterator<Item = Circuit> {
    let all = edition.statements();
    let of = move |code: usize| (0..len).map(|i| &all[code / all.len().pow(i) % all.len()]).collect();
    (0..all.len().pow(len)).map(of)
}

/// Every circuit of up to four statements.
pub fn every_circuit(report: &mut Report) {
    for edition in EDITIONS {
        for len in 0..=4 {
            let which = if len < 4 { Rooms::All } else { Rooms::One };
            circuits(edition, len).for_each(|c| read(report, &edition.text(&c), which));
        }
    }
    let undone = |s: usize, inverse: usize| qasm::matrix(&[&STATEMENTS[s], &STATEMENTS[inverse]]) == Matrix::identity();
    if !undone(1, 4) || !undone(2, 5) {
        report.differs("qasm", "sdg and tdg are not the inverses of s and t".into());
    }
}

/// The bytes that some right text has, and some that none has.
fn bytes() -> Vec<u8> {
    let mut all: Vec<u8> = EDITIONS.iter().flat_map(|e| e.text(&e.statements().iter().collect::<Circuit>())).collect();
    all.extend(b"\0\r\t'*157HTX_{}\x7f\x80\xff");
    all.sort();
    all.dedup();
    all
}

/// A text without its byte at a place, with it twice, cut there, or with another in its place.
pub fn deleted(text: &[u8], at: usize) -> Vec<u8> {
    [&text[..at], &text[at + 1..]].concat()
}

pub fn doubled(text: &[u8], at: usize) -> Vec<u8> {
    [&text[..=at], &text[at..]].concat()
}

pub fn replaced(text: &[u8], at: usize, byte: u8) -> Vec<u8> {
    [&text[..at], &[byte], &text[at + 1..]].concat()
}

fn damage(report: &mut Report, text: &[u8], at: usize, others: &[u8]) {
    for damaged in [deleted(text, at), doubled(text, at), text[..at].to_vec()] {
        read(report, &damaged, Rooms::One);
    }
    for byte in others.iter().filter(|b| **b != text[at]) {
        read(report, &replaced(text, at, *byte), Rooms::One);
    }
}

/// Every circuit of up to four statements damaged at every byte; those of up to two by every other byte, the longer ones
/// and the heads before a statement by one, in turn.
pub fn damaged(report: &mut Report) {
    let bytes = bytes();
    for (edition, len) in EDITIONS.iter().flat_map(|edition| (0..=4).map(move |len| (*edition, len))) {
        let head = edition.head().len();
        for (i, circuit) in circuits(edition, len).enumerate() {
            let text = edition.text(&circuit);
            for at in 0..text.len() {
                let turn = bytes.iter().copied().cycle().skip((i * 7 + at) % bytes.len()).find(|b| *b != text[at]);
                let one = len > 2 || (len > 0 && at < head);
                damage(report, &text, at, if one { turn.as_slice() } else { &bytes });
            }
        }
    }
}

fn lines(text: &[u8]) -> Vec<&[u8]> {
    text.split_inclusive(|b| *b == b'\n').collect()
}

/// The eight heads whose lines are each of either edition.
pub fn mixed_heads() -> impl Iterator<Item = Vec<u8>> {
    let both = EDITIONS.map(|edition| lines(edition.head()));
    (0..8).map(move |mix| (0..3).flat_map(|i| both[mix >> i & 1][i]).copied().collect())
}

/// Heads of both editions mixed, lines lost, doubled and exchanged, other line ends, and what others write.
pub fn heads(report: &mut Report) {
    let bodies = [0usize, 6, 7].map(|n| STATEMENTS[..n].iter().flat_map(|s| s.line).copied().collect::<Vec<u8>>());
    for body in &bodies {
        for head in mixed_heads() {
            read(report, &[head.as_slice(), body].concat(), Rooms::All);
        }
        for edition in EDITIONS {
            let text = [edition.head(), body].concat();
            around_lines(report, &text);
            for other in OTHERS.split('|').map(str::as_bytes) {
                read(report, &[&text, other].concat(), Rooms::All);
                read(report, &[other, &text].concat(), Rooms::One);
                read(report, &[edition.head(), other, body].concat(), Rooms::One);
            }
        }
    }
    for (edition, at) in EDITIONS.iter().flat_map(|e| (0..4).map(move |at| (*e, at))) {
        let mut circuit: Vec<&Statement> = STATEMENTS[..3].iter().collect();
        circuit.insert(at, &STATEMENTS[6]);
        read(report, &edition.text(&circuit), Rooms::All);
    }
}

/// What is not of the language, or not in this form of it.
const OTHERS: &str =
    "\n|\r| |\0|\u{feff}|// h\n|h q[0]; \n| h q[0];\n|h q[0];|h q[0];\r\n|H q[0];\n|h q[1];\n|h q;\n|h  q[0];\n|\
    h q[0]\n|h q[0];h q[0];\n|h q[00];\n|y q[0];\n|z q[0];\n|id q[0];\n|sx q[0];\n|ss q[0];\n|sdg q[0]\n|sd q[0];\n|\
    td q[0];\n|tdgq[0];\n|g q[0];\n|gphase(pi/2);\n|gphase(-pi/4);\n|gphase(pi/4) q[0];\n|gphase(pi/4)\n|\
    gphase (pi/4);\n|inv @ s q[0];\n|measure q[0];\n|barrier q[0];\n|reset q[0];\n|creg c[1];\n|qreg q[1];\n|\
    qubit[1] q;\n|OPENQASM 2.0;\n|OPENQASM 3.0;\n|OPENQASM 3;\n";

/// Lines lost, doubled, exchanged with the next; CR LF in one line and in all; the text cut at every byte.
fn around_lines(report: &mut Report, text: &[u8]) {
    let all = lines(text);
    let other_end: Vec<Vec<u8>> = all.iter().map(|line| [&line[..line.len() - 1], b"\r\n"].concat()).collect();
    for i in 0..all.len() {
        let (before, after) = (&all[..i], &all[i + 1..]);
        let next = (i + 1) % all.len();
        let mut exchanged = all.clone();
        exchanged.swap(i, next);
        let ended = [before, &[other_end[i].as_slice()], after].concat();
        for changed in [[before, after].concat(), [before, &[all[i], all[i]], after].concat(), exchanged, ended] {
            read(report, &changed.concat(), Rooms::One);
        }
    }
    read(report, &other_end.concat(), Rooms::One);
    (0..=text.len()).for_each(|end| read(report, &text[..end], Rooms::One));
}

/// Every word of up to `most` letters in both editions, each read again.
pub fn every_word(report: &mut Report, most: usize) {
    inputs::every_word(most, |w| write_both(report, w, if w.len() < 3 { Rooms::All } else { Rooms::One }));
}

/// A few calls of each of the three, refused at first.
pub fn few(report: &mut Report) {
    let sdg = Edition::Three.text(&[&STATEMENTS[4]]);
    damage(report, &sdg, sdg.len() - 8, &[]);
    write_both(report, b"W?", Rooms::All);
    write_both(report, b"W", Rooms::All);
    every_word(report, 2);
}

/// Every byte as a word and in words; W, and a byte that is no letter, at every place and in either order.
pub fn every_byte(report: &mut Report) {
    for byte in 0..=255 {
        write_both(report, &[byte], Rooms::All);
        for good in [b"HT".as_slice(), b"WXISW"] {
            for at in 0..good.len() {
                write_both(report, &replaced(good, at, byte), Rooms::One);
            }
        }
    }
    let good = b"HSXTIHTTSXHI";
    for at in 0..good.len() {
        let phase = replaced(good, at, b'W');
        write_both(report, &phase, Rooms::All);
        for other in 0..good.len() {
            write_both(report, &replaced(&phase, other, b'W'), Rooms::One);
            write_both(report, &replaced(&phase, other, b'w'), Rooms::One);
        }
    }
}

/// Words and circuits of about 4,096 letters, steps of three and four letters to there, and far beyond.
pub fn limits(report: &mut Report) {
    let mut random = Random::new(14);
    for len in [4094, 4095, 4096, 4097, 4098, 4100] {
        for letters in [b"HSXT".as_slice(), LETTERS, b"I", b"W", b"IIIIIIIIT"] {
            let word = random.word(letters, len);
            write_both(report, &word, Rooms::All);
            write_both(report, &replaced(&word, len - 1, b'i'), Rooms::All);
            write_both(report, &replaced(&word, random.below(len), b'W'), Rooms::One);
        }
        for edition in EDITIONS {
            for step in edition.statements() {
                around_limit(report, edition, step, len);
            }
        }
    }
    // 4,096 once they are cut to 16 bits.
    let many = 4096 + 65_536;
    write_both(report, &random.word(LETTERS, many), Rooms::All);
    write_both(report, &random.word(b"I", 1_000_000), Rooms::All);
    for edition in EDITIONS {
        for step in [&STATEMENTS[0], &STATEMENTS[5]] {
            let text = edition.text(&vec![step; many / step.letters.len()]);
            read(report, &text, Rooms::All);
            read(report, &text[..text.len() - 1], Rooms::One);
        }
    }
}

/// So many letters by one statement, the rest by x first or last; with a byte lost at the end, 9 comes before 1.
fn around_limit(report: &mut Report, edition: Edition, step: &'static Statement, len: usize) {
    let (steps, rest) = (vec![step; len / step.letters.len()], vec![&STATEMENTS[3]; len % step.letters.len()]);
    for circuit in [[steps.clone(), rest.clone()], [rest, steps]] {
        let text = edition.text(&circuit.concat());
        read(report, &text, Rooms::All);
        read(report, &text[..text.len() - 1], Rooms::One);
    }
}

/// Random words, circuits and their damage, bytes of the language and any bytes.
pub fn random(report: &mut Report, each: usize) {
    let mut random = Random::new(15);
    let bytes = bytes();
    for i in 0..each {
        let len = random.below(if i % 50 == 0 { 4000 } else { 80 });
        write(report, Edition::Two, &random.word(b"HSXTI", len), Rooms::One);
        write(report, Edition::Two, &random.word(b"HSXTIHSXTIHSXTIHSXTIHSXTIHSXTIW", len), Rooms::One);
        write(report, Edition::Three, &random.word(LETTERS, len), Rooms::One);
        let edition = *random.of(&EDITIONS);
        let circuit: Circuit = (0..len).map(|_| random.of(edition.statements())).collect();
        let text = edition.text(&circuit);
        read(report, &text, Rooms::One);
        let once = randomly_damaged(&mut random, &text, &bytes);
        read(report, &once, Rooms::One);
        read(report, &randomly_damaged(&mut random, &once, &bytes), Rooms::One);
        let any: Vec<u8> = (0..len).map(|_| random.next() as u8).collect();
        read(report, &any, Rooms::One);
        read(report, &[edition.head(), &random.word(&bytes, len.min(9))].concat(), Rooms::One);
    }
}

fn randomly_damaged(random: &mut Random, text: &[u8], bytes: &[u8]) -> Vec<u8> {
    let at = random.below(text.len().max(1));
    match random.below(4) {
        _ if text.is_empty() => bytes.to_vec(),
        0 => deleted(text, at),
        1 => doubled(text, at),
        2 => text[..at].to_vec(),
        _ => replaced(text, at, *random.of(bytes)),
    }
}
