//! Times the library and the published Rust on the same inputs in one process, and prints tables for docs/SPEED.md.
//! A round times both, one after the other; the ratio is taken round by round. A word that takes the Rust's SHT arm
//! is timed as any other. OpenQASM, which the Rust has not, is timed against plain.rs. Where an earlier archive is linked
//! too (`bench-speed` with BEFORE), jobs 4 and 6 are timed in both. T count and rotation are timed against job 4, slots against
//! a letter of job 3.

#[allow(dead_code)]
mod abi;
#[allow(dead_code)]
mod exact;
#[allow(dead_code)]
mod inputs;
#[allow(dead_code)]
mod library;
mod plain;
#[allow(dead_code)]
mod rotation;
#[allow(dead_code)]
mod rotation_faults;
#[allow(dead_code)]
mod rust;
#[allow(dead_code)]
mod slot;
#[allow(dead_code)]
mod slot_faults;
mod speed_circuits;
mod speed_cliffords;
mod speed_rotations;
mod speed_slots;
#[allow(dead_code)]
mod word_faults;

use inputs::{Random, Triple, LETTERS, PLAIN};
use library::c;
use rsgridsynth::normal_form::NormalForm;
use rsgridsynth::synthesis_of_clifford_t::decompose_domega_unitary;
use rsgridsynth::unitary::{access, DOmegaUnitary};
use std::cell::Cell;
use std::hint::black_box;

const ROUNDS: usize = 15;

struct Row {
    what: String,
    per: f64,
    ours: Vec<f64>,
    rust: Vec<f64>,
}

fn median(v: &[f64]) -> f64 {
    let mut sorted = v.to_vec();
    sorted.sort_by(f64::total_cmp);
    sorted[sorted.len() / 2]
}

/// Nanoseconds of this thread's own time, so that a busy machine spreads the rounds less.
fn now() -> f64 {
    extern "C" {
        fn clock_gettime(clock: i32, time: *mut [i64; 2]) -> i32;
    }
    const CLOCK_THREAD_CPUTIME_ID: i32 = 3;
    let mut time = [0; 2];
    assert_eq!(unsafe { clock_gettime(CLOCK_THREAD_CPUTIME_ID, &mut time) }, 0);
    time[0] as f64 * 1e9 + time[1] as f64
}

/// Nanoseconds a call, `calls` of them made by the work.
fn timed(calls: usize, work: impl FnOnce()) -> f64 {
    let start = now();
    work();
    (now() - start) / calls as f64
}

/// The same, one call for each input, all of them in turn.
fn timed_over<'a, I>(inputs: &'a [I], turns: usize, call: impl Fn(&'a I)) -> f64 {
    timed(inputs.len() * turns, || (0..turns).for_each(|_| inputs.iter().for_each(&call)))
}

/// The sides one after the other, in rounds; the first round is not counted. Each side's times.
fn rounds(sides: &[&dyn Fn() -> f64]) -> Vec<Vec<f64>> {
    let all: Vec<Vec<f64>> = (0..=ROUNDS).map(|_| sides.iter().map(|side| side()).collect()).collect();
    (0..sides.len()).map(|i| all[1..].iter().map(|round| round[i]).collect()).collect()
}

impl Row {
    fn print(&self) {
        let (ours, letter) = (median(&self.ours), self.per);
        let each = if letter > 0.0 { format!("{:.1}", ours / letter) } else { String::new() };
        if self.rust.is_empty() {
            println!("| {} | | {:.3} | {each} | |", self.what, ours / 1000.0);
            return;
        }
        let [middle, least, most] = ratios(&self.rust, &self.ours);
        println!(
            "| {} | {:.3} | {:.3} | {each} | {middle:.1} ({least:.1} to {most:.1}) |",
            self.what,
            median(&self.rust) / 1000.0,
            ours / 1000.0,
        );
    }
}

/// How much longer one side takes than another, round by round: median, least and most.
fn ratios(one: &[f64], other: &[f64]) -> [f64; 3] {
    let ratios: Vec<f64> = one.iter().zip(other).map(|(x, y)| x / y).collect();
    let least = ratios.iter().copied().fold(f64::INFINITY, f64::min);
    [median(&ratios), least, ratios.iter().copied().fold(0.0, f64::max)]
}

/// Both sides over the inputs, in rounds.
fn race<'a, I, P>(
    what: String,
    per: f64,
    inputs: &'a [I],
    turns: usize,
    ours: impl Fn(&'a I),
    prepare: impl Fn(&'a I) -> P,
    rust: impl Fn(P),
) -> Row {
    let one = || timed_over(inputs, turns, &ours);
    let other = || {
        let prepared: Vec<P> = (0..turns).flat_map(|_| inputs.iter().map(&prepare)).collect();
        timed(prepared.len(), || prepared.into_iter().for_each(&rust))
    };
    let [ours, rust] = rounds(&[&one, &other]).try_into().unwrap();
    Row { what, per, ours, rust }
}

fn alone<I>(what: String, inputs: &[I], turns: usize, ours: impl Fn(&I)) {
    let [ours] = rounds(&[&|| timed_over(inputs, turns, &ours)]).try_into().unwrap();
    Row { what, per: 0.0, ours, rust: Vec::new() }.print();
}

fn text(word: &[u8]) -> &str {
    std::str::from_utf8(word).unwrap()
}

/// The caller's memory, lent to each call as it is: what a caller does with it is not the call's time.
struct Lent(Vec<Cell<u8>>);

impl Lent {
    fn new(room: usize) -> Lent {
        Lent(vec![Cell::new(0); room])
    }

    fn part(&self) -> (*mut u8, usize) {
        (self.0.as_ptr() as *mut u8, self.0.len())
    }
}

fn normalise(word: &[u8], lent: &Lent) {
    let ((buf, room), mut out) = (lent.part(), [0u64; 3]);
    unsafe { c::dunrossel_normalise(word.as_ptr(), word.len(), buf, room, out.as_mut_ptr()) };
    black_box((buf, out));
}

fn phase_free(word: &[u8], lent: &Lent) {
    let ((buf, room), mut out) = (lent.part(), [0u64; 3]);
    unsafe { c::dunrossel_phase_free(word.as_ptr(), word.len(), buf, room, out.as_mut_ptr()) };
    black_box((buf, out));
}

/// The phase-free word from the Rust's normal word, the plain way.
fn without_phase(mut normal: String) -> String {
    normal.truncate(normal.trim_end_matches('W').len());
    if normal.is_empty() || normal.ends_with('T') {
        normal.push('I');
    }
    normal
}

fn matrix(word: &[u8]) {
    let (mut out, mut place) = ([0i64; 10], 0u64);
    unsafe { c::dunrossel_matrix(word.as_ptr(), word.len(), out.as_mut_ptr(), &mut place) };
    black_box((out, place));
}

fn reduce((k, n, zw): &Triple) {
    let mut out = [0i64; 10];
    unsafe { c::dunrossel_reduce(*k, *n, zw.as_ptr(), out.as_mut_ptr()) };
    black_box(out);
}

type Synthesis = unsafe extern "C" fn(i64, u8, *const i64, *mut u8, usize, *mut u64) -> u8;

/// By either export: the one answers three numbers, the other four.
fn synthesise(export: Synthesis, (k, n, zw): &Triple, lent: &Lent) {
    let ((buf, room), mut out) = (lent.part(), [0u64; 4]);
    unsafe { export(*k, *n, zw.as_ptr(), buf, room, out.as_mut_ptr()) };
    black_box((buf, out));
}

fn view((k, n, zw): &Triple) {
    let mut out = [0f64; 8];
    unsafe { c::dunrossel_view(*k, *n, zw.as_ptr(), out.as_mut_ptr()) };
    black_box(out);
}

fn words(random: &mut Random, letters: &[u8], len: usize, n: usize) -> Vec<Vec<u8>> {
    (0..n).map(|_| random.word(letters, len)).collect()
}

/// Reduced triples of one exponent, from random normal words.
fn triples(random: &mut Random, k: i64, n: usize) -> Vec<Triple> {
    let mut found = Vec::new();
    while found.len() < n {
        let more = random.below(4);
        let word = random.normal(2 * k as usize - 2 + more);
        if let Some(Some(m)) = rust::matrix(text(&word)) {
            if m[0] == k {
                found.push((m[0], m[1] as u8, m[2..].try_into().unwrap()));
            }
        }
    }
    found
}

/// Triples at k = 60 that root two divides 60 times: 2^30 or -2^30 at each place, and nothing else.
fn divisible() -> Vec<Triple> {
    let one = |(i, x): (usize, i64)| {
        let mut zw = [0; 8];
        zw[i] = x << 30;
        (60, i as u8, zw)
    };
    (0..8).flat_map(|i| [(i, 1), (i, -1)]).map(one).collect()
}

/// The Rust's normal form panics on I, so it is handed the word without.
fn race_normal(
    name: String,
    words: Vec<Vec<u8>>,
    turns: usize,
    ours: impl Fn(&[u8]),
    plain: impl Fn(String) -> String,
) {
    let len = words[0].len();
    let inputs: Vec<_> = words.into_iter().map(|w| (w.clone(), inputs::without_identity(&w))).collect();
    race(
        name,
        len as f64,
        &inputs,
        turns,
        |(w, _)| ours(w),
        |(_, w)| text(w),
        |w| {
            black_box(plain(NormalForm::from_gates(w).to_gates()));
        },
    )
    .print();
}

/// Job 4's exports, and behind them the earlier archive's, which may not count its steps at all.
const SYNTHESES: &[(&str, Synthesis)] = &[
    ("without steps", c::dunrossel_synthesise),
    ("with steps", c::dunrossel_synthesise_steps),
    #[cfg(before)]
    ("before", library::before::dunrossel_synthesise),
];

/// What the steps cost: all of them in the same rounds, each beside the first.
fn steps_table(random: &mut Random, lent: &Lent) {
    print!("\n| Synthesis | {}, us a call |", SYNTHESES[0].0);
    SYNTHESES[1..].iter().for_each(|(name, _)| print!(" {name}, us a call | to the first, median (least to most) |"));
    println!("\n|---|---|{}", "---|---|".repeat(SYNTHESES.len() - 1));
    for k in [10, 30, 60] {
        let inputs = triples(random, k, 100);
        let one = |export: Synthesis| timed_over(&inputs, 50, |t| synthesise(black_box(export), t, lent));
        let sides: Vec<_> = SYNTHESES.iter().map(|(_, export)| || one(*export)).collect();
        let times = rounds(&sides.iter().map(|side| side as &dyn Fn() -> f64).collect::<Vec<_>>());
        print!("| synthesise, k = {k} | {:.3} |", median(&times[0]) / 1000.0);
        for side in &times[1..] {
            let [middle, least, most] = ratios(side, &times[0]);
            print!(" {:.3} | {middle:.2} ({least:.2} to {most:.2}) |", median(side) / 1000.0);
        }
        println!();
    }
}

fn main() {
    let mut random = Random::new(20);
    println!("| What | the Rust, us a call | ours, us a call | ours, ns a letter | ratio, median (least to most) |");
    println!("|---|---|---|---|---|");
    let lent = Lent::new(12_320);
    // Few short words, taken again and again, teach the processor their branches: both are timed.
    let sizes = [(20, 4000, 2, ""), (20, 400, 20, ", 400 words only"), (200, 400, 3, ""), (4096, 20, 3, "")];
    for (len, n, turns, which) in sizes {
        let name = format!("normalise, {len} random letters{which}");
        race_normal(name, words(&mut random, PLAIN, len, n), turns, |w| normalise(w, &lent), |w| w);
    }
    for (len, n) in [(20, 4000), (200, 400), (4096, 20)] {
        let name = format!("normalise, {len} random letters, I among them");
        race_normal(name, words(&mut Random::new(21), LETTERS, len, n), 3, |w| normalise(w, &lent), |w| w);
    }
    for (len, n) in [(20, 4000), (200, 400), (4096, 20)] {
        let name = format!("phase-free, {len} random letters");
        race_normal(name, words(&mut Random::new(22), PLAIN, len, n), 3, |w| phase_free(w, &lent), without_phase);
    }
    for k in [10, 30, 60] {
        let inputs = triples(&mut random, k, 100);
        let prepare = |(k, n, zw): &Triple| access::triple(*k, *n, zw);
        race(
            format!("synthesise, k = {k}"),
            0.0,
            &inputs,
            5,
            |t| synthesise(c::dunrossel_synthesise, t, &lent),
            prepare,
            |u| {
                black_box(decompose_domega_unitary(u));
            },
        )
        .print();
    }
    let calm: Vec<u8> = [b"HSXW".repeat(16), b"T".to_vec()].concat();
    for (letters, name, len, n) in [
        (LETTERS, "20 random letters", 20, 400),
        (LETTERS, "200 random letters", 200, 100),
        (&calm, "4096 letters, few T", 4096, 5),
    ] {
        let inputs = words(&mut random, letters, len, n);
        let name = format!("word to matrix, {name}");
        race(
            name,
            len as f64,
            &inputs,
            3,
            |w| matrix(w),
            |w| text(w),
            |w| {
                black_box(DOmegaUnitary::from_gates(w));
            },
        )
        .print();
    }
    let reduced = triples(&mut random, 60, 100);
    for (name, inputs, turns) in [("60 times", divisible(), 300), ("not at all", reduced, 50)] {
        race(
            format!("reduce, k = 60, root two divides {name}"),
            0.0,
            &inputs,
            turns,
            reduce,
            |(k, n, zw)| access::triple(*k, *n, zw),
            |u| {
                black_box(u.reduce_denomexp());
            },
        )
        .print();
    }
    for k in [10, 60] {
        alone(format!("numeric view, k = {k}"), &triples(&mut random, k, 100), 50, view);
    }
    steps_table(&mut random, &lent);
    speed_rotations::table(&mut random, &lent);
    speed_slots::table(&lent);
    speed_cliffords::table();
    speed_circuits::table();
}
