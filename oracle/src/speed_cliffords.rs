//! Job 6, whose calls are short: the library beside the published Rust and, where one is linked, an earlier archive, all
//! in the same rounds. Arguments are reduced already, and every side reduces them again.

use crate::inputs::{cliffords, Random};
#[cfg(before)]
use crate::library::before;
use crate::library::c;
use crate::rust::clifford;
use crate::{median, ratios, rounds, timed_over};
use std::hint::black_box;

/// An export of the library, and behind it that of the earlier archive.
macro_rules! of_each {
    ($name:ident) => {
        &[
            c::$name,
            #[cfg(before)]
            before::$name,
        ]
    };
}

type Pair = [[i32; 4]; 2];
type OfTwo = unsafe extern "C" fn(*const i32, *const i32, *mut i32);
type OfOne = unsafe extern "C" fn(*const i32, *mut i32);

const PRODUCT: &[OfTwo] = of_each!(dunrossel_clifford_product);
const INVERSE: &[OfOne] = of_each!(dunrossel_clifford_inverse);
const COSET: &[OfOne] = of_each!(dunrossel_clifford_coset);

/// Every pair once, so each Clifford is the first in 192 of them, in an order that is the same at every run and too long for the
/// processor to learn.
fn pairs() -> Vec<Pair> {
    let all = cliffords();
    let mut pairs: Vec<Pair> = all.iter().flat_map(|x| all.iter().map(|y| [*x, *y])).collect();
    let mut random = Random::new(23);
    for i in (1..pairs.len()).rev() {
        pairs.swap(i, random.below(i + 1));
    }
    pairs
}

/// What an export writes. A timed call drops it, so that no copy of it is timed.
fn written(call: impl FnOnce(*mut i32)) -> [i32; 5] {
    let mut out = [0; 5];
    call(out.as_mut_ptr());
    black_box(&out);
    out
}

/// One export of each archive, called by `ours`: they answer the same, and then are timed, and the Rust in front of them.
fn timed<I, E: Copy, A: PartialEq>(
    what: &str,
    inputs: &[I],
    exports: &[E],
    ours: impl Fn(E, &I) -> A,
    rust: impl Fn(&I),
) {
    const TURNS: usize = 20;
    let same = inputs.iter().all(|i| exports.iter().all(|e| ours(*e, i) == ours(exports[0], i)));
    assert!(same, "{what}: the earlier archive has other answers");
    let one = |export: E| {
        let export = black_box(export);
        timed_over(inputs, TURNS, |i| drop(ours(export, i)))
    };
    let archives: Vec<_> = exports.iter().map(|export| || one(*export)).collect();
    let other = || timed_over(inputs, TURNS, &rust);
    let mut sides: Vec<&dyn Fn() -> f64> = vec![&other];
    sides.extend(archives.iter().map(|archive| archive as &dyn Fn() -> f64));
    print(what, &rounds(&sides));
}

fn print(what: &str, times: &[Vec<f64>]) {
    let ratio = |side: &[f64]| {
        let [middle, least, most] = ratios(side, &times[1]);
        format!("{middle:.2} ({least:.2} to {most:.2})")
    };
    print!("| {what} | {:.2} | {:.2} | {} |", median(&times[0]), median(&times[1]), ratio(&times[0]));
    if let Some(before) = times.get(2) {
        print!(" {:.2} | {} |", median(before), ratio(before));
    }
    println!();
}

pub fn table() {
    let (heads, rule) = if cfg!(before) {
        (" before, ns a call | before/ours, median (least to most) |", "---|---|")
    } else {
        ("", "")
    };
    println!("\n| Cliffords | the Rust, ns a call | ours, ns a call | ratio, median (least to most) |{heads}");
    println!("|---|---|---|---|{rule}");
    let pairs = pairs();
    let product = |export: OfTwo, [x, y]: &Pair| written(|out| unsafe { export(x.as_ptr(), y.as_ptr(), out) });
    timed("Clifford product, all 192 x 192 in random order", &pairs, PRODUCT, product, |[x, y]| {
        black_box(clifford(x) * clifford(y));
    });
    let first = |export: OfOne, [x, _]: &Pair| written(|out| unsafe { export(x.as_ptr(), out) });
    timed("Clifford inverse, all 192 in random order", &pairs, INVERSE, first, |[x, _]| {
        black_box(clifford(x).inv());
    });
    timed("coset split, all 192 in random order", &pairs, COSET, first, |[x, _]| {
        black_box(clifford(x).decompose_coset());
    });
}
