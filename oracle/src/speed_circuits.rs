//! Writing and reading OpenQASM, in bytes of the circuit's text: the library beside plain.rs, into the same lent memory.

use crate::inputs::Random;
use crate::library::c;
use crate::plain::{self, Answer, Edition};
use crate::{median, race, ratios, Lent, Row};
use std::hint::black_box;

type Export = unsafe extern "C" fn(*const u8, usize, *mut u8, usize, *mut u64) -> u8;
type Plain = fn(&[u8], &mut [u8]) -> Answer;

fn ours(export: Export, input: &[u8], lent: &Lent) -> Answer {
    let ((buf, room), mut out) = (lent.part(), [0u64; 2]);
    let refusal = unsafe { export(input.as_ptr(), input.len(), buf, room, out.as_mut_ptr()) };
    black_box(buf);
    Answer { refusal, place: out[0] as usize, bytes: out[1] as usize }
}

fn plainly(job: Plain, input: &[u8], lent: &Lent) -> Answer {
    let (buf, room) = lent.part();
    let answer = job(input, unsafe { std::slice::from_raw_parts_mut(buf, room) });
    black_box(buf);
    answer
}

fn written(lent: &Lent, bytes: usize) -> Vec<u8> {
    lent.0[..bytes].iter().map(|b| b.get()).collect()
}

const WRITE_2: (Export, Plain) = (c::dunrossel_qasm2_write, |w, buf| plain::write(Edition::Two, w, buf));
const WRITE_3: (Export, Plain) = (c::dunrossel_qasm3_write, |w, buf| plain::write(Edition::Three, w, buf));
const READ: (Export, Plain) = (c::dunrossel_qasm_read, plain::read);

/// The two answer the same, and then are timed; `bytes` are those of all the texts.
fn timed(what: &str, (export, job): (Export, Plain), inputs: &[Vec<u8>], bytes: usize, lent: &Lent) {
    for input in inputs {
        let answer = ours(export, input, lent);
        let first = written(lent, answer.bytes);
        assert!(answer.refusal == 0 && answer == plainly(job, input, lent) && first == written(lent, answer.bytes));
    }
    let turns = 2_000_000usize.div_ceil(bytes);
    let each = bytes as f64 / inputs.len() as f64;
    let one = |input: &Vec<u8>| {
        black_box(ours(export, input, lent));
    };
    let other = |input: &Vec<u8>| {
        black_box(plainly(job, input, lent));
    };
    print(&race(what.into(), each, inputs, turns, one, |input| input, other));
}

fn print(row: &Row) {
    let rate = |times: &[f64]| row.per / median(times) * 1000.0;
    let [middle, least, most] = ratios(&row.rust, &row.ours);
    let (plain, ours) = (rate(&row.rust), rate(&row.ours));
    println!("| {} | {plain:.0} | {ours:.0} | {middle:.2} ({least:.2} to {most:.2}) |", row.what);
}

/// Words written in both editions, and what 3.0 has read.
fn words(what: &str, words: &[Vec<u8>], lent: &Lent) {
    let text = |edition: Edition, word: &Vec<u8>| {
        let (buf, room) = lent.part();
        let answer = plain::write(edition, word, unsafe { std::slice::from_raw_parts_mut(buf, room) });
        written(lent, answer.bytes)
    };
    for (edition, name, job) in [(Edition::Two, "2.0", WRITE_2), (Edition::Three, "3.0", WRITE_3)] {
        let bytes = words.iter().map(|w| text(edition, w).len()).sum();
        timed(&format!("write {name}, {what}"), job, words, bytes, lent);
    }
    let texts: Vec<Vec<u8>> = words.iter().map(|w| text(Edition::Three, w)).collect();
    read(what, &texts, lent);
}

fn read(what: &str, texts: &[Vec<u8>], lent: &Lent) {
    timed(&format!("read, {what}"), READ, texts, texts.iter().map(Vec::len).sum(), lent);
}

/// A normal word of nearly 4,096 letters, without the W that 2.0 can't say.
fn normal(random: &mut Random) -> Vec<u8> {
    let mut word = random.normal(1600);
    word.retain(|g| *g != b'W');
    word
}

/// A text of 2,000 statements, one in three sdg or tdg.
fn mixed(random: &mut Random) -> Vec<u8> {
    let names = ["h", "s", "t", "x", "sdg", "tdg"];
    let lines: String = (0..2000).map(|_| format!("{} q[0];\n", random.of(&names))).collect();
    format!("OPENQASM 2.0;\ninclude \"qelib1.inc\";\nqreg q[1];\n{lines}").into_bytes()
}

pub fn table() {
    let mut random = Random::new(21);
    let lent = Lent::new(65_536);
    println!("\n| Circuits | plain Rust, MB a second | ours, MB a second | ratio, median (least to most) |");
    println!("|---|---|---|---|");
    let long: Vec<Vec<u8>> = (0..20).map(|_| random.word(b"HSXT", 4096)).collect();
    words("4096 random letters", &long, &lent);
    let normal: Vec<Vec<u8>> = (0..20).map(|_| normal(&mut random)).collect();
    words("normal words of about 4000 letters", &normal, &lent);
    let mixed: Vec<Vec<u8>> = (0..20).map(|_| mixed(&mut random)).collect();
    read("2000 statements with sdg and tdg", &mixed, &lent);
    let short: Vec<Vec<u8>> = (0..4000).map(|_| random.word(b"HSXT", 10)).collect();
    words("10 random letters", &short, &lent);
}
