//! The T count and the rotation beside job 4, which answers the same count: on the same triples, in the same rounds.

use crate::inputs::{Random, Triple};
use crate::library::c;
use crate::{median, ratios, rounds, synthesise, timed_over, triples, Lent};
use std::hint::black_box;

fn t_count((k, n, zw): &Triple) {
    let mut tees = 0;
    unsafe { c::dunrossel_t_count(*k, *n, zw.as_ptr(), &mut tees) };
    black_box(tees);
}

fn rotation((k, n, zw): &Triple) {
    let mut out = [0; 19];
    unsafe { c::dunrossel_rotation(*k, *n, zw.as_ptr(), out.as_mut_ptr()) };
    black_box(&out);
}

pub fn table(random: &mut Random, lent: &Lent) {
    println!("\n| Counted | job 4, us a call | T count, us a call | job 4/T count, median (least to most) | rotation, us a call | job 4/rotation |");
    println!("|---|---|---|---|---|---|");
    for k in [10, 30, 60] {
        let inputs = triples(random, k, 100);
        let job_4 = || timed_over(&inputs, 50, |t| synthesise(c::dunrossel_synthesise, t, lent));
        let times = rounds(&[&job_4, &|| timed_over(&inputs, 50, t_count), &|| timed_over(&inputs, 50, rotation)]);
        print!("| k = {k} | {:.3} |", median(&times[0]) / 1000.0);
        for side in &times[1..] {
            let [middle, least, most] = ratios(&times[0], side);
            print!(" {:.3} | {middle:.1} ({least:.1} to {most:.1}) |", median(side) / 1000.0);
        }
        println!();
    }
}
