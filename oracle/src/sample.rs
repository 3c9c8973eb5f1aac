//! The replay sample: requests and the oracle's answers, for a program that needs no Rust. crates/replay/README.md
//! has the format.

use crate::abi::Written;
use crate::cheapest_runs::{dear, normal, IDENTITIES};
use crate::inputs::{self, cliffords, normal_word, raised, Random, Triple, LETTERS, LONGEST, PLAIN};
use crate::report::Report;
use crate::runs::triple_of;
use crate::slot::Slot;
use crate::words::{self, phase_free};
use crate::{cliffords as job_6, records, rotations, rust, sample_circuits, sample_rotations, sample_slots, triples};
use std::process::ExitCode;

#[derive(Default)]
pub struct Sample {
    requests: Vec<u8>,
    answers: Vec<u8>,
    count: usize,
    report: Report,
}

fn joined<T: ToString>(numbers: &[T]) -> String {
    numbers.iter().map(T::to_string).collect::<Vec<_>>().join(" ")
}

impl Sample {
    fn add(&mut self, job: char, room: usize, payload: &[u8], answer: &[u8]) {
        self.requests.extend(format!("{job} {room:05} {:05}\n", payload.len()).bytes());
        self.requests.extend(payload);
        self.requests.push(b'\n');
        self.answers.extend(answer);
        self.answers.push(b'\n');
        self.count += 1;
    }

    /// The refusal, the first N numbers, and the whole lent buffer.
    pub fn add_lent<const N: usize>(&mut self, job: char, room: usize, payload: &[u8], expected: &Written) {
        let mut lent = vec![b'.'; room];
        lent[..expected.word.len()].copy_from_slice(&expected.word);
        let numbers = format!("{} {} ", expected.refusal, joined(&expected.numbers()[..N]));
        self.add(job, room, payload, &[numbers.as_bytes(), &lent].concat());
    }

    /// Jobs 3, 4 and 5, of which job 4 has its steps besides.
    fn add_written(&mut self, job: char, room: usize, payload: &[u8], expected: &Written) {
        match job {
            '4' => self.add_lent::<4>(job, room, payload, expected),
            _ => self.add_lent::<3>(job, room, payload, expected),
        }
    }

    /// A job with this much more or less room than its answer takes.
    fn fitted(&mut self, job: char, payload: &[u8], answer: Written, more: isize) {
        let room = answer.word.len().saturating_add_signed(more);
        self.add_written(job, room, payload, &answer.fitting(room));
    }

    /// Jobs 3 and 5.
    fn normalise(&mut self, word: &[u8], more: isize) {
        if let Some((number, place)) = words::refusal(word) {
            for job in ['3', '5'] {
                self.add_written(job, 20, word, &Written::refused(number, place));
            }
            return;
        }
        let normal = words::normal(&mut self.report, word).word;
        self.fitted('3', word, Written::of(&normal), more);
        self.fitted('5', word, Written::of(&phase_free(&normal)), more);
    }

    /// Job 5 alone, on a word that it accepts.
    fn phase_free(&mut self, word: &[u8], more: isize) {
        let normal = words::normal(&mut self.report, word).word;
        self.fitted('5', word, Written::of(&phase_free(&normal)), more);
    }

    fn matrix(&mut self, word: &[u8]) {
        let (_, number, numbers, place) = words::matrix_expected(&mut self.report, word);
        self.add('2', 0, word, format!("{number} {place} {}", joined(&numbers)).as_bytes());
    }

    fn word(&mut self, word: &[u8], more: isize) {
        self.normalise(word, more);
        self.matrix(word);
    }

    /// Jobs 1 and 4.
    fn triple(&mut self, triple: &Triple, more: isize) {
        let record = records::record(triple).into_bytes();
        let reduced = triples::reduced(&mut self.report, triple);
        let (number, numbers) = reduced.map_or_else(|number| (number, [0; 10]), |numbers| (0, numbers));
        self.add('1', 0, &record, format!("{number} {}", joined(&numbers)).as_bytes());
        match reduced {
            Err(number) => self.add_written('4', 20, &record, &Written::refused(number, 0)),
            Ok(numbers) => {
                let answer = triples::synthesised(&mut self.report, &numbers);
                self.fitted('4', &record, answer, more);
            }
        }
    }

    /// The T count and the rotation.
    pub fn rotation(&mut self, triple: &Triple) {
        let record = records::record(triple).into_bytes();
        let answer = triples::answer(&mut self.report, triple);
        let numbers = rotations::numbers(&mut self.report, triple, &answer);
        for (job, many) in [('T', 1), ('A', 19)] {
            self.add(job, 0, &record, format!("{} {}", answer.refusal, joined(&numbers[..many])).as_bytes());
        }
    }

    /// A slot with a letter added, or its length. A digit for each code as far as the last that is not 0, or a ? for one that has
    /// none, stands before the record, and behind the numbers of the answer.
    pub fn slot(&mut self, letter: Option<u8>, slot: &Slot) {
        let [count, bytes, a, b, c, d] = slot.rest.map(|x| x as i64);
        let record = records::record(&(count, letter.unwrap_or(0), [a, b, c, d, bytes, 0, 0, 0]));
        let digits = |slot: &Slot| {
            let many = slot.syllables.iter().rposition(|code| *code != 0).map_or(0, |last| last + 1);
            let digit = |code: &u8| if *code < 10 { b'0' + code } else { b'?' };
            slot.syllables[..many].iter().map(digit).collect::<Vec<u8>>()
        };
        let (job, answer) = letter.map_or_else(|| ('L', slot.measured()), |letter| ('S', slot.added(letter)));
        let numbers = format!("{} {} {} ", answer.refusal, answer.length, joined(&answer.slot.rest));
        let codes = digits(slot);
        let payload = [codes.as_slice(), record.as_bytes()].concat();
        self.add(job, codes.len(), &payload, &[numbers.into_bytes(), digits(&answer.slot)].concat());
    }

    fn clifford(&mut self, job: char, x: &[i32; 4], y: &[i32; 4], answer: &[i32]) {
        let zw: Vec<i64> = x.iter().chain(y).map(|v| *v as i64).collect();
        let record = records::record(&(0, 0, zw.try_into().unwrap()));
        self.add(job, 0, record.as_bytes(), joined(answer).as_bytes());
    }

    fn product(&mut self, x: &[i32; 4], y: &[i32; 4]) {
        self.clifford('P', x, y, &rust::product(x, y));
    }

    fn inverse_and_coset(&mut self, x: &[i32; 4]) {
        let reduced = rust::reduced(x);
        let mended = [2, 1, 2, (2 - reduced[3]).rem_euclid(8)];
        let inverse = if job_6::row(&reduced) == 12 { mended } else { rust::inverse(x) };
        self.clifford('I', x, &[0; 4], &inverse);
        self.clifford('C', x, &[0; 4], &rust::coset(x));
    }
}

/// The cases of docs/SCOPE.md, Either side, every arm, every letter and byte, and each limit of words.
fn words(s: &mut Sample) {
    for w in ["", "T", "TT", "TTTT", "HH", "HTT", "SHTT", "HSH", "XT", "WT", "HTHT", "W", "TW", "WWWWWWWW", "HW", "XSW"]
    {
        for more in [-1, 0, 1, 9] {
            s.normalise(w.as_bytes(), more);
        }
        s.matrix(w.as_bytes());
    }
    for (i, tail) in inputs::tails().iter().enumerate() {
        for front in [b"".as_slice(), b"T", b"HT", b"TSHT"] {
            s.normalise(&[front, tail, b"T"].concat(), (i % 4) as isize - 1);
        }
        s.word(&[tail.as_slice(), &[LETTERS[i % 6]]].concat(), 0);
    }
    for byte in 0..=255 {
        s.word(&[b'H', byte], 1);
    }
    let mut random = Random::new(11);
    for len in 0..=60 {
        for _ in 0..4 {
            s.word(&random.word(PLAIN, len), 2);
            s.word(&random.word(LETTERS, len), 2);
        }
    }
    for len in [4095, 4096, 4097] {
        let free = random.word_without_sht_arm(len);
        s.word(&free, 0);
        s.word(&[&free[1..], b"I"].concat(), 0);
        s.matrix(&random.word(b"HSXWI", len));
    }
    s.word(&b"SHTTSSSHSSS".repeat(372), 0);
    for n in [59, 60, 118, 119, 120, 121, 122] {
        s.matrix(&b"HT".repeat(n));
        s.matrix(&[b"HT".repeat(n), b"TSSSH".repeat(n)].concat());
        s.matrix(&random.normal(n));
    }
}

/// I in words: short ones, before and behind bytes that are no letters, at every place of a word, the normal word of
/// every tail given back, and each side of 4,096 letters, read and answered.
fn identities(s: &mut Sample) {
    for w in ["I", "II", "TI", "IT", "ITI", "HIH", "SHTIT", "i", "iI", "Ii", "HI?I", "?ITI", "TI\0"] {
        for more in [-1, 0, 1, 9] {
            s.normalise(w.as_bytes(), more);
        }
        s.matrix(w.as_bytes());
    }
    let word = b"SHTTXHTWSHSTTH";
    for (at, letter) in (0..=word.len()).flat_map(|at| b"Ii".iter().map(move |letter| (at, letter))) {
        s.word(&[&word[..at], &[*letter], b"I", &word[at..]].concat(), at as isize % 3 - 1);
        s.word(&[&word[..at], b"I", &word[at..], &[*letter]].concat(), 0);
    }
    for (i, tail) in inputs::tails().iter().enumerate() {
        for front in [b"".as_slice(), b"T", b"SHTHT"] {
            s.normalise(&normal_word(front, tail), -((i % 7 == 0) as isize));
            s.normalise(&[front, b"I", tail, b"I"].concat(), 0);
        }
    }
    for len in [LONGEST, LONGEST + 1] {
        s.word(&vec![b'I'; len], 0);
    }
    for long in
        [[b"HT".repeat(2047), b"XS".to_vec()].concat(), b"HT".repeat(2048), normal_word(&b"HT".repeat(2048), b"")]
    {
        s.normalise(&long, 0);
        s.normalise(&long, -1);
    }
}

/// Phase-free words of every tail alone and behind each syllable, and of words with W put in.
fn phases(s: &mut Sample) {
    for (i, tail) in inputs::tails().iter().enumerate() {
        for front in [b"".as_slice(), b"T", b"HT", b"SHT"] {
            let w = normal_word(front, tail);
            s.phase_free(&w, 0);
            if i % 5 == 0 {
                s.phase_free(&w, -1);
            }
        }
    }
    let mut random = Random::new(21);
    for len in (1..=60).chain([4076, 4095]) {
        let w = random.word(LETTERS, len);
        s.phase_free(&w, 0);
        s.phase_free(&random.with_more(&w, b'W', 20), 0);
    }
}

/// Words of the identity that have T letters; normal words made dearer, and these normal words.
fn dear_spellings(s: &mut Sample) {
    IDENTITIES.iter().for_each(|w| s.normalise(w, 0));
    let mut random = Random::new(41);
    for count in [0, 1, 2, 3, 5, 8, 13, 21, 34, 55, 1300] {
        let normal = normal(&mut random, count);
        let dear = dear(&mut random, &normal);
        s.normalise(&dear, 0);
        s.normalise(&normal, 0);
    }
}

/// Every entry of the reader's table that a word can reach: each Clifford behind an even number of letters, then each
/// letter alone, each two letters, and behind each syllable those that bring a T to it.
fn pairs(s: &mut Sample) {
    for tail in inputs::tails().iter().step_by(8) {
        for front in [b"".as_slice(), b"T", b"HT", b"SHT"] {
            let even = vec![b'W'; (front.len() + tail.len()) % 2];
            let start = [front, tail.as_slice(), &even].concat();
            for first in LETTERS {
                let seconds = LETTERS.iter().map(|second| vec![*first, *second]);
                for last in seconds.chain([vec![*first]]) {
                    if front.is_empty() || last.contains(&b'T') {
                        s.normalise(&[start.as_slice(), &last].concat(), 0);
                    }
                }
            }
        }
    }
}

/// Every k, n and tail, raised and damaged triples, and each limit.
fn all_triples(s: &mut Sample) {
    let one = [0, 0, 0, 1, 0, 0, 0, 0];
    for t in 0..=1 {
        for front in inputs::syllables(t) {
            for (i, tail) in inputs::tails().iter().enumerate() {
                let found = triple_of(&[front.as_slice(), tail].concat()).expect("accepted");
                s.triple(&found, (i % 4) as isize - 1);
            }
        }
    }
    let mut random = Random::new(12);
    for syllables in 2..=119 {
        let Some(found) = triple_of(&random.normal(syllables)) else { continue };
        s.triple(&found, 0);
        s.triple(&(found.0, found.1 | 0xf8, found.2), -1);
        if found.0 < 60 {
            s.triple(&raised(found), 1);
            s.triple(&(found.0..60).fold(found, |t, _| raised(t)), 0);
        }
        let mut zw = found.2;
        zw[random.below(8)] ^= 1;
        s.triple(&(found.0, found.1, zw), 0);
    }
    let mut up: Triple = (0, 0, one);
    for n in 0..=61 {
        s.triple(&(up.0, n, up.2), 0);
        up = raised(up);
    }
    edge_triples(s);
}

/// Either side of each limit, and triples that aren't unitary.
fn edge_triples(s: &mut Sample) {
    let big = 1i64 << 30;
    for k in [i64::MIN, -1, 0, 60, 61, i64::MAX] {
        for x in [i64::MIN, -big - 1, -big, big, big + 1, i64::MAX] {
            for at in [0, 3, 4, 7] {
                let mut zw = [0; 8];
                zw[at] = x;
                s.triple(&(k, 0, zw), 0);
            }
        }
    }
    s.triple(&(0, 0, [0, 0, 0, 1, 0, 0, 0, 1]), 0);
    s.triple(&(1, 0, [0, 0, 1, 1, 0, 0, 0, 0]), 0);
    s.triple(&(0, 4, [0, 0, 0, 0, 0, 0, 0, 1]), 0);
    s.triple(&(60, 0, [big; 8]), 0);
}

/// Every row of the Rust's four tables, and the edges of the numbers.
fn all_cliffords(s: &mut Sample) {
    let all = cliffords();
    for (i, x) in all.iter().enumerate() {
        s.inverse_and_coset(x);
        for j in 0..4 {
            s.product(x, &all[(i * 29 + j * 53) % 192]);
        }
    }
    let mut random = Random::new(13);
    for _ in 0..200 {
        let mut any = || [0; 4].map(|_| *random.of(&inputs::EDGES));
        let (x, y) = (any(), any());
        s.product(&x, &y);
        s.inverse_and_coset(&x);
    }
}

pub fn write(folder: &str) -> ExitCode {
    let mut s = Sample::default();
    words(&mut s);
    identities(&mut s);
    phases(&mut s);
    pairs(&mut s);
    all_triples(&mut s);
    all_cliffords(&mut s);
    sample_circuits::all(&mut s);
    sample_rotations::all(&mut s);
    sample_slots::all(&mut s);
    dear_spellings(&mut s);
    if s.report.unexplained > 0 {
        return ExitCode::FAILURE;
    }
    let put = |name: &str, text: &[u8]| std::fs::write(format!("{folder}/{name}"), text);
    if let Err(error) = put("stdin", &s.requests).and(put("stdout", &s.answers)) {
        eprintln!("oracle: {folder}: {error}");
        return ExitCode::FAILURE;
    }
    println!("oracle: {} requests in {folder}/stdin, their answers in {folder}/stdout", s.count);
    ExitCode::SUCCESS
}
